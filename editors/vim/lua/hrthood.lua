-- Starts the language server for the buffer, in Neovim 0.7 or later: autocmd FileType hrthood lua require('hrthood').start()
local top = vim.fn.fnamemodify(vim.fn.resolve(debug.getinfo(1, 'S').source:sub(2)), ':p:h:h:h:h')
local client

-- Keys as Neovim 0.11 has them for language servers, and :Tidy for the layout.
local function map_keys()
  for key, call in pairs({ K = 'hover', gd = 'definition', gO = 'document_symbol' }) do
    vim.keymap.set('n', key, vim.lsp.buf[call], { buffer = true, desc = 'hrthood: ' .. call })
  end
  vim.api.nvim_buf_create_user_command(0, 'Tidy', function()
    if vim.lsp.buf.format then vim.lsp.buf.format({ timeout_ms = 60000 }) else vim.lsp.buf.formatting_sync({}, 60000) end
  end, { desc = 'hrthood: the layout of tidy.mjs' })
end

local function start()
  local config = {
    name = 'hrthood',
    cmd = { top .. '/tools/design/language_server.mjs', '--stdio' },
    root_dir = vim.fn.getcwd(),
  }
  map_keys()
  if vim.lsp.start then -- since 0.8
    return vim.lsp.start(config)
  end
  config.on_exit = function() client = nil end
  client = client or vim.lsp.start_client(config)
  if client then
    vim.lsp.buf_attach_client(0, client)
  end
  return client
end

return { start = start }
