" Settings for designs. `:make` writes refusals into the quickfix list, each at its place.
if exists('b:did_ftplugin')
  finish
endif
let b:did_ftplugin = 1

setlocal commentstring=--\ %s comments=:-- shiftwidth=3 softtabstop=3 expandtab
compiler hrthood
let b:undo_ftplugin = 'setlocal commentstring< comments< shiftwidth< softtabstop< expandtab< makeprg< errorformat<'
