#!/usr/bin/env node
// Tests the files for editors: the grammar of editors/vscode, token by token over the examples, and editors/vim in Neovim and Vim, with the language
// server in Neovim. Says what is not tried if an editor is missing. PROGRAM is the path of the program, and that of this repository if it isn't set.
import { spawnSync } from "node:child_process";
import { mkdtempSync, readFileSync, readdirSync, rmSync, writeFileSync } from "node:fs";
import { tmpdir } from "node:os";
import { join } from "node:path";
import { env, exit } from "node:process";
import { KEPT, tokensOf } from "../../web/design_text.js";
import { TOP } from "./program.mjs";

const room = mkdtempSync(join(tmpdir(), "editors-"));
const examples = join(TOP, "examples");
let [tried, failed] = [0, 0];

function judge(/** @type {boolean} */ isRight, /** @type {string} */ what) {
  tried++;
  if (isRight) return;
  failed++;
  console.log(`FAILED ${what}`);
}

/**
 * The words of designs by their kind: the scope of the grammar, and the group of Vim.
 * @type {[string, string, string][]}
 */
const WORDS = [
  ["keyword.other.structure", "Structure", "design version tick priorities costs object attributes provides requires data operation thread objects implements by"],
  ["keyword.control", "Statement", "begin end is null if then elsif else for loop exit when work put"],
  ["storage.type", "Type", "passive active protected cyclic sporadic word"],
  ["storage.modifier", "Constraint", "aser hser pser paer"],
  ["support.type.property-name", "Attribute", "period offset separation deadline thread_budget arrival_jitter"],
  ["support.constant", "Cost", "assign test turn call finish"],
  ["keyword.other.unit", "Unit", "us ms s"],
  ["keyword.operator.word", "Operator", "and or xor not mod in out range"],
];

/** The scope and the group that a token is to have. */
function wantedOf(/** @type {string} */ word) {
  const kind = WORDS.find(([, , words]) => words.split(" ").includes(word));
  if (kind !== undefined) return { scope: kind[0], group: `hrthood${kind[1]}` };
  if (/^\d/.test(word)) return { scope: "constant.numeric", group: "hrthoodNumber" };
  if (/^\w/.test(word)) return { scope: "variable.other", group: "" };
  return { scope: /^[-+*/<>=.:]=?$|^\.\.$/.test(word) && word !== "." && word !== ":" ? "keyword.operator" : "", group: "" };
}

/** All words that are no names have a kind. */
function tryWords() {
  for (const word of KEPT) judge(WORDS.some(([, , words]) => words.split(" ").includes(word)), `${word} has no kind`);
}

// ---- The grammar ----

/** The scope of each place of a line, as editors find it for a grammar without nested rules: the first match, and of two at a place the first rule. */
function scopesOf(/** @type {string} */ line, /** @type {{ name: string, regex: RegExp }[]} */ rules) {
  const scopes = Array(line.length).fill("");
  for (let place = 0; place < line.length;) {
    let best = null;
    for (const { name, regex } of rules) {
      regex.lastIndex = place;
      const found = regex.exec(line);
      if (found !== null && found[0] !== "" && (best === null || found.index < best.from)) best = { name, from: found.index, to: found.index + found[0].length };
    }
    if (best === null) break;
    scopes.fill(best.name, best.from, best.to);
    place = best.to;
  }
  return scopes;
}

function tryGrammar() {
  const path = join(TOP, "editors/vscode");
  const manifest = JSON.parse(readFileSync(join(path, "package.json"), "utf8"));
  const { grammars: [grammar], languages: [language], problemMatchers: [matcher] } = manifest.contributes;
  const { patterns, scopeName } = JSON.parse(readFileSync(join(path, grammar.path), "utf8"));
  judge(JSON.parse(readFileSync(join(path, language.configuration), "utf8")).comments.lineComment === "--", "the configuration of the language");
  judge(scopeName === grammar.scopeName && language.id === grammar.language && language.extensions[0] === ".design", "the manifest");
  const place = new RegExp(matcher.pattern.regexp).exec("a b.design:51:14: error: S1: Before this. [refused S1]");
  judge(place?.slice(1).join("|") === "a b.design|51|14|error|S1: Before this. [refused S1]", `the matcher of problems: ${place}`);
  const { tasks: [task] } = JSON.parse(readFileSync(join(path, "tasks.json"), "utf8"));
  const late = spawnSync(task.command.replace("/path/to/lafomizana", TOP), task.args.map((/** @type {string} */ one) => one.replace("${file}", join(examples, "late_control.design"))),
    { encoding: "utf8" });
  const line = new RegExp(matcher.pattern.regexp).exec(late.stderr.split("\n")[0])?.slice(1).join("|");
  judge(task.problemMatcher === `$${matcher.name}` && /late_control.design\|42\|47\|error\|U1: .*star_tracker/.test(line ?? ""), `the task: ${line}`);
  const rules = patterns.map((/** @type {{ name: string, match: string }} */ { name, match }) => (
    { name: name.replace(/\.hrthood$/, ""), regex: new RegExp(match.replace("(?i)", ""), match.startsWith("(?i)") ? "gi" : "g") }));
  let [count, directives] = [0, 0];
  const names = [...readdirSync(examples), ...readdirSync(join(examples, "joined")).map((one) => `joined/${one}`)];
  for (const name of names.filter((one) => one.endsWith(".design"))) {
    const text = readFileSync(join(examples, name), "utf8");
    const scopes = text.split("\n").flatMap((line) => [...scopesOf(line, rules), ""]);
    for (const { word, index, length } of tokensOf(text)) {
      const { scope } = wantedOf(word);
      count++;
      judge(scopes.slice(index, index + length).every((one) => one === scope), `${name}: ${word} at ${index} is ${scopes[index]}, wanted ${scope}`);
    }
    for (const found of text.matchAll(/--[^\n]*/g)) {
      judge(scopes.slice(found.index, (found.index ?? 0) + found[0].length).every((one) => one === "comment.line.double-dash"), `${name}: ${found[0]}`);
      const { match, captures } = patterns.find((/** @type {{ match: string }} */ rule) => new RegExp(rule.match).test(found[0]));
      const word = /^--\s*(@\w+)/.exec(found[0])?.[1];
      const isOne = word === "@include" || word === "@copy";
      if (isOne) directives++;
      const scope = new RegExp(match).exec(found[0])?.[1] === word ? captures?.["1"].name : undefined;
      judge(scope === (isOne ? "keyword.control.directive.hrthood" : undefined), `${name}: ${found[0]} has ${scope}`);
    }
  }
  judge(count > 3000 && directives === 4, `${count} tokens, ${directives} directives`);
  console.log(`${count} tokens by the grammar of editors/vscode`);
}

// ---- Vim and Neovim ----

// The settings of docs/USING.md, after others that have found out of kinds of files already.
const page = readFileSync(join(TOP, "docs/USING.md"), "utf8");
const [colours, server] = [...page.matchAll(/```vim\n(.*?)\n```/gs)].map(([, lines]) => lines.replace("/path/to/lafomizana", TOP));

const has = (/** @type {string} */ command) => spawnSync(command, ["--version"]).error === undefined;

/**
 * Runs lines of Vim's own language in an editor, over a file, and returns what they wrote into the file `out` of the room.
 * @param {string} editor
 * @param {string} file
 * @param {string[]} lines
 */
function edited(editor, file, lines, settings = colours) {
  const script = join(room, "script.vim");
  const out = join(room, "out");
  writeFileSync(out, "");
  writeFileSync(script, ["syntax on", settings, `edit ${file}`, ...lines, "qall!", ""].join("\n"));
  const words = editor === "nvim" ? ["--headless", "-u", "NONE", "-i", "NONE", "-n", "-S", script] : ["-es", "-N", "-u", "NONE", "-i", "NONE", "-n", "-S", script];
  const done = spawnSync(editor, words, { encoding: "utf8", timeout: 120000, input: "", env: { ...env, TERM: "dumb" } });
  judge(done.status === 0, `${editor}: ${done.status} ${done.stdout} ${done.stderr}`);
  return readFileSync(out, "utf8");
}

const writeOut = (/** @type {string} */ value) => `call writefile([json_encode(${value})], '${join(room, "out")}')`;

function tryPlace(/** @type {string} */ editor) {
  // A design, and all words, also in capitals.
  const all = WORDS.map(([, , words]) => words).join(" ");
  const text = `${readFileSync(join(examples, "commented.design"), "utf8")}\n${all}\n${all.toUpperCase()} a_name 1_000 -- end\n`;
  const file = join(room, "words.design");
  writeFileSync(file, text);
  const places = tokensOf(text).map(({ word, index }) => {
    const before = text.slice(0, index).split("\n");
    return { word, line: before.length, column: Buffer.byteLength(before[before.length - 1]) + 1 };
  });
  const list = `[${places.map(({ line, column }) => `[${line},${column}]`).join(",")}]`;
  const told = edited(editor, file, [`let places = ${list}`,
    writeOut("{'filetype': &filetype, 'groups': map(places, {_, p -> synIDattr(synID(p[0], p[1], 1), 'name')}), 'comment': synIDattr(synID(1, 5, 1), 'name')}")]);
  const { filetype, groups, comment } = JSON.parse(told || "{}");
  judge(filetype === "hrthood" && comment === "hrthoodComment", `${editor}: ${filetype} ${comment}`);
  for (const [which, { word, line }] of places.entries()) {
    judge(groups?.[which] === wantedOf(word).group, `${editor}: ${word} in line ${line} is ${groups?.[which]}, wanted ${wantedOf(word).group}`);
  }
  const slip = join(room, "a slip.design");
  writeFileSync(slip, readFileSync(join(examples, "mine_pump.design"), "utf8").replace("DEADLINE = 50;", "DEADLINE = 500;"));
  const list2 = "map(getqflist(), {_, one -> [bufname(one.bufnr), one.lnum, one.col, one.type, one.text]})";
  const errors = JSON.parse(edited(editor, slip.replaceAll(" ", "\\ "), ["silent make!", writeOut(list2)]) || "[]");
  const [name, ...rest] = errors[0] ?? [];
  judge(String(name).endsWith("a slip.design"), `${editor}: the file of an error: ${name}`);
  judge(JSON.stringify(rest) === JSON.stringify([86, 31, "e",
    "V11: The DEADLINE of alarm_console is 500 ticks, over its SEPARATION of 80. [refused V11 alarm_console]"]), `${editor}: an error: ${rest}`);
  writeFileSync(slip, readFileSync(join(examples, "mine_pump.design")));
  const lines = JSON.parse(edited(editor, slip.replaceAll(" ", "\\ "), ["silent make!", writeOut("filter(getqflist(), {_, one -> one.valid})")]) || "[1]");
  judge(lines.length === 0, `${editor}: a design that passes has no error: ${JSON.stringify(lines)}`);
  console.log(`${editor}: ${places.length} tokens by editors/vim, and :make`);
}

/** Neovim with the language server: what it gets of it. */
function tryServer() {
  const file = join(room, "server.design");
  const text = readFileSync(join(examples, "commented.design"), "utf8");
  writeFileSync(file, text.replace("deadline = 200 ms", "deadline = 2000 ms"));
  const lua = `
    local told = {}
    told.waited = vim.wait(60000, function() return #vim.diagnostic.get(0) > 0 end, 50)
    told.diagnostics = vim.tbl_map(function(one) return { one.lnum, one.code or one.user_data.lsp.code } end, vim.diagnostic.get(0))
    vim.api.nvim_buf_set_lines(0, 0, -1, false, vim.fn.readfile('${join(examples, "commented.design")}'))
    told.mended = vim.wait(60000, function() return #vim.diagnostic.get(0) == 0 end, 50)
    local function ask(method, params)
      local answers = vim.lsp.buf_request_sync(0, method, params, 60000) or {}
      for _, answer in pairs(answers) do return answer.result end
    end
    vim.fn.search('object thermometer')
    vim.fn.search('thermometer')
    told.hover = ask('textDocument/hover', vim.lsp.util.make_position_params(0, 'utf-16')).contents.value
    told.symbols = #ask('textDocument/documentSymbol', { textDocument = vim.lsp.util.make_text_document_params() })[1].children[1].children
    -- The keys and the command.
    local buffer = vim.fn.bufnr()
    vim.cmd('normal K')
    told.window = vim.wait(60000, function() return #vim.api.nvim_list_wins() == 2 end, 50)
    for _, one in ipairs(vim.api.nvim_list_wins()) do
      if vim.api.nvim_win_get_config(one).relative ~= '' then vim.api.nvim_win_close(one, true) end
    end
    vim.fn.cursor(1, 1)
    vim.fn.search('fan.switch (1)')
    vim.fn.search('switch')
    vim.cmd('normal gd')
    vim.wait(60000, function() return vim.fn.line('.') ~= vim.fn.search('fan.switch (1)', 'nw') end, 50)
    told.definition = vim.fn.line('.') - 1
    vim.cmd('normal gO')
    told.listed = vim.wait(60000, function() return #vim.fn.getqflist() > 0 end, 50) and #vim.fn.getqflist()
    vim.cmd('cclose')
    told.buffer = vim.fn.bufnr() == buffer
    vim.cmd('Tidy')
    told.text = table.concat(vim.api.nvim_buf_get_lines(0, 0, -1, false), '\\n')
    vim.fn.writefile({ vim.fn.json_encode(told) }, '${join(room, "out")}')`;
  const script = join(room, "server.lua");
  writeFileSync(script, lua);
  const told = JSON.parse(edited("nvim", file, [`luafile ${script}`], `${colours}\n${server}`) || "{}");
  const line = (/** @type {string} */ part) => text.slice(0, text.indexOf(part)).split("\n").length - 1;
  judge(told.waited === true && JSON.stringify(told.diagnostics) === JSON.stringify([[line("deadline = 200 ms"), "V11"]]), `diagnostics: ${JSON.stringify(told.diagnostics)}`);
  judge(told.mended === true, "no diagnostics of a mended text");
  judge(told.definition === line("operation switch"), `definition: ${told.definition}`);
  judge(String(told.hover).includes("thread thermometer priority 2 period 500"), `hover: ${told.hover}`);
  judge(told.symbols === 3, `symbols: ${told.symbols}`);
  judge(told.window === true && told.listed === 11 && told.buffer === true, `keys: ${told.window} ${told.listed} ${told.buffer}`);
  judge(told.text === readFileSync(join(examples, "commented_tidy.design"), "utf8").trimEnd(), `layout: ${told.text}`);
  console.log("nvim: diagnostics, definition, hover, outline and layout of the language server");
}

try {
  tryWords();
  tryGrammar();
  for (const editor of ["nvim", "vim"]) {
    if (has(editor)) tryPlace(editor);
    else console.log(`there is no ${editor}: editors/vim is not tried in it`);
  }
  if (has("nvim")) tryServer();
  else console.log("there is no nvim: the language server is not tried in an editor (apt-get install neovim)");
} finally {
  rmSync(room, { recursive: true, force: true });
}
console.log(`test_editors: ${tried} tried, ${failed} failed`);
exit(failed === 0 ? 0 : 1);
