"""Opens a script in Neovim without a screen, with the files of editors/vim and editors/nvim, and looks at what is shown: a mismatch is marked when it is
typed, what came is shown at a key, and the mismatch is gone when it is mended, or accepted at a key, by an action or a lens. Where an empty line is missing
a key puts it in, and where a name is wrong it puts the right one in its place. The script is saved, and its page opened.
"""
import pathlib
import subprocess
import tempfile
from collections.abc import Iterator
from typing import Any

from tests.harness import TOP

MOST_SECONDS = 120
SCRIPT = "log-level debug\n----\nok\n"

# Waits until there are as many diagnostics as are due, and writes them.
DRIVER = """
local function say(...)
  io.stderr:write(table.concat(vim.tbl_map(tostring, { ... }), ' ') .. '\\n')
end
local function wait_for(count)
  local is_there = vim.wait(60000, function() return #vim.diagnostic.get(0) == count end, 20)
  local found = vim.diagnostic.get(0)
  say(is_there and 'there' or 'missing', #found)
  for _, it in ipairs(found) do say(it.lnum, it.severity, it.code or '', (it.message:gsub('\\n', '|'))) end
end
local function clients()
  if vim.lsp.get_clients then return vim.lsp.get_clients({ bufnr = 0 }) end
  return vim.lsp.buf_get_clients(0)
end
local function attached()
  for _, it in pairs(clients()) do
    if it.initialized then return true end
  end
  return false
end
-- The window that shows what came, its first line and how many there are.
local function shown()
  for _, window in ipairs(vim.api.nvim_list_wins()) do
    if vim.api.nvim_win_get_config(window).relative ~= '' then
      return vim.api.nvim_buf_get_lines(vim.api.nvim_win_get_buf(window), 0, -1, true)
    end
  end
end
local function press(keys)
  vim.api.nvim_feedkeys(keys, 'x', false)
end
vim.ui.select = function(items, _, choose) choose(items[1], 1) end
local is_attached = vim.wait(60000, attached, 20)
say(vim.bo.filetype, is_attached)
wait_for(0)
vim.api.nvim_buf_set_lines(0, 2, 3, true, { 'no' })
wait_for(1)
vim.api.nvim_buf_set_lines(0, 2, 3, true, { 'ok' })
wait_for(0)
vim.api.nvim_buf_set_lines(0, 2, 3, true, { 'another' })
wait_for(1)
vim.api.nvim_win_set_cursor(0, { 1, 0 })
press('K')
vim.wait(60000, shown, 20)
say('shown', unpack(shown() or {}))
press('gra')
wait_for(0)
-- An empty line is missing between two directives.
vim.api.nvim_buf_set_lines(0, 3, 3, true, { 'log-level debug', '----', 'ok' })
wait_for(2)
vim.api.nvim_win_set_cursor(0, { 4, 0 })
press('gra')
wait_for(0)
-- A name is wrong.
vim.api.nvim_buf_set_lines(0, 4, 5, true, { 'log-levle debug' })
wait_for(1)
vim.api.nvim_win_set_cursor(0, { 5, 0 })
press('gra')
wait_for(0)
say('')
vim.cmd('silent write')
-- Lenses open the page, and accept.
local function lenses()
  vim.cmd('doautocmd InsertLeave')
  return vim.wait(1000, function() return #vim.lsp.codelens.get(vim.api.nvim_get_current_buf()) == 2 end, 20)
end
vim.api.nvim_buf_set_lines(0, 2, 3, true, { 'more' })
wait_for(1)
say('lenses', vim.wait(60000, lenses, 20))
vim.api.nvim_win_set_cursor(0, { 1, 0 })
local opened
vim.ui.open = function(path) opened = path end
vim.ui.select = function(items, _, choose) choose(items[2], 2) end
press('grx')
vim.wait(60000, function() return opened end, 20)
say('opened', unpack(vim.fn.readfile(opened)))
say('paged', #vim.fn.readfile(vim.fn.fnamemodify(opened, ':h') .. '/page.html') > 10)
vim.ui.select = function(items, _, choose) choose(items[1], 1) end
vim.wait(60000, lenses, 20)
press('grx')
wait_for(0)
-- A script to play with: what is called gets its path, and an address is shown.
vim.g.raftbench_live = PLAYS
local shown_address
vim.notify = function(text) shown_address = text end
vim.cmd('RaftbenchLive')
vim.wait(60000, function() return shown_address end, 20)
say('played', shown_address == 'http://127.0.0.1/' .. vim.fn.expand('%:p'))
vim.cmd('qall!')
"""
DUE = ["raftbench true", "there 0", "there 1", "2 1 mismatch - no|+ ok", "there 0", "there 1", "2 1 mismatch - another|+ ok",
       "shown ok raft-state ok on their way no messages", "there 0", "there 2", "3 1 mismatch - log-level debug|| ok|- log-level debug|- ----|- ok",
       "3 2 slip this looks like a directive inside an expectation: an empty line is missing before it", "there 0", "there 1",
       '6 1 mismatch - ok|+ error: unknown directive "log-levle"|did you mean "log-level"?', "there 0",
       "there 1", "2 1 mismatch - more|+ ok", "lenses true", 'opened <meta http-equiv="refresh" content="0; url=page.html#L1">', "paged true", "there 0", "played true"]


def shown(program: pathlib.Path, room: pathlib.Path) -> Any:
    """What the driver writes, and the script that is left."""
    script, driver = room / "script.txt", room / "driver.lua"
    script.write_text(SCRIPT)
    plays = room / "plays"
    plays.write_text('#!/bin/sh\necho "http://127.0.0.1/$1"\nexec sleep 60\n')
    plays.chmod(0o755)
    driver.write_text(DRIVER.replace("PLAYS", repr(str(plays))))
    words = ["nvim", "--headless", "--clean", "--cmd", f"set runtimepath+={TOP}/editors/vim,{TOP}/editors/nvim", "--cmd", f"let g:raftbench_program = '{program}'",
             str(script), "-c", f"luafile {driver}"]
    done = subprocess.run(words, capture_output=True, timeout=MOST_SECONDS, text=True, stdin=subprocess.DEVNULL)
    lines = [line.rstrip("\r") for line in (done.stderr + done.stdout).split("\n")]
    return [" ".join(line.split()) for line in lines if line.strip() and not line.startswith('"')], script.read_text()


def look(program: pathlib.Path) -> Iterator[str]:
    """Texts for what is not as it must be."""
    with tempfile.TemporaryDirectory() as room:
        lines, left = shown(program, pathlib.Path(room))
    if (lines := [line for line in lines if line.split()[0] in ("raftbench", "there", "missing", "0", "1", "2", "3", "6", "shown", "lenses", "opened", "paged", "played")]) != DUE:
        yield f"shown: {lines}"
    if left != f"{SCRIPT}\n{SCRIPT}":
        yield f"left: {left!r}"
