#!/usr/bin/env python3
"""Drives Neovim, headless, with the files of editors/ and the server of a program: tests/nvim.py BIN.

Where there is no Neovim (the package `neovim`), nothing is tried. In it a file with a fault is opened: its diagnostic is that of
`check`. The text is put right: the diagnostic goes. The client's own requests then find the hints, the names of the top level, a
declaration, what is told of it and what is held, and it lays the text out anew. The last line is `N passed, M failed`."""
import json
import os
import pathlib
import shutil
import subprocess
import sys
import tempfile

TOP = pathlib.Path(__file__).resolve().parent.parent
BAD = "lock G;\nglobal int n protected_by(G);\natomic f(int k) { n = n + m; }\n"
GOOD = "lock G;\nglobal int n protected_by(G);\natomic f(int k) { n=n + k; }\n"
SCRIPT = """
local told = {}
local function ask(method, params)
  params.textDocument = vim.lsp.util.make_text_document_params()
  for _, it in pairs(vim.lsp.buf_request_sync(0, method, params, 10000) or {}) do
    return it.result
  end
end
vim.cmd('edit bad.al')
told.type = vim.bo.filetype
vim.wait(10000, function() return #vim.diagnostic.get(0) > 0 end, 20)
told.faults = vim.tbl_map(function(it) return { it.lnum, it.col, it.code, it.message } end, vim.diagnostic.get(0))
vim.api.nvim_buf_set_lines(0, 0, -1, false, vim.fn.readfile('good.al'))
vim.wait(10000, function() return #vim.diagnostic.get(0) == 0 end, 20)
told.left = #vim.diagnostic.get(0)
told.hints = vim.tbl_map(function(it) return { it.position.line, it.position.character, it.label } end,
  ask('textDocument/inlayHint', { range = { start = { line = 0, character = 0 }, ['end'] = { line = 9, character = 0 } } }))
told.symbols = vim.tbl_map(function(it) return it.name end, ask('textDocument/documentSymbol', {}))
local found = ask('textDocument/definition', { position = { line = 2, character = 18 } })
told.declared = { found.range.start.line, found.range.start.character }
local hover = ask('textDocument/hover', { position = { line = 2, character = 22 } })
told.hover = hover.contents.value
local named = ask('textDocument/hover', { position = { line = 2, character = 18 } })
told.named = vim.lsp.util.convert_input_to_markdown_lines(named.contents)
if vim.lsp.buf.format then
  vim.lsp.buf.format({ timeout_ms = 10000 })
else
  vim.lsp.buf.formatting_sync(nil, 10000)
end
told.laid_out = vim.api.nvim_buf_get_lines(0, 0, -1, false)
local client = vim.tbl_values(vim.lsp.get_active_clients())[1]
vim.lsp.stop_client(client.id)
vim.wait(5000, function() return client.is_stopped() end, 20)
told.stopped = client.is_stopped()
vim.fn.writefile({ vim.fn.json_encode(told) }, 'told')
vim.cmd('qall!')
"""
WANTED = {
    "type": "autolock",
    "left": 0,
    "hints": [[2, 18, "take G"]],
    "symbols": ["G", "n", "f"],
    "declared": [1, 11],
    "hover": "f: holds nothing, takes G\n",
    "named": ["```autolock", "global int n protected_by(G)", "```", "lock class G, rank 0"],
    "laid_out": ["lock G;", "global int n protected_by(G);", "atomic f(int k) { n = n + k; }"],
    "stopped": True,
}


def main():
    if not shutil.which("nvim"):
        print("no nvim here: 0 passed, 0 failed")
        return
    program = os.path.realpath(sys.argv[1])
    with tempfile.TemporaryDirectory() as room:
        room = pathlib.Path(room)
        for name, text in (("bad.al", BAD), ("good.al", GOOD), ("script.lua", SCRIPT)):
            (room / name).write_text(text)
        paths = f"set runtimepath^={TOP}/editors/vim runtimepath^={TOP}/editors/nvim"
        words = ["nvim", "--headless", "-u", "NORC", "--cmd", f"let g:autolock = '{program}'", "--cmd", paths, "--cmd", "filetype plugin on",
                 "-c", "luafile script.lua", "-c", "qall!"]
        environment = os.environ | {"HOME": str(room), "XDG_STATE_HOME": str(room), "XDG_CACHE_HOME": str(room)}
        ran = subprocess.run(words, cwd=room, env=environment, capture_output=True, timeout=120, stdin=subprocess.DEVNULL)
        if not (room / "told").exists():
            sys.exit(f"FAILED Neovim told nothing: {ran.stdout.decode()} {ran.stderr.decode()}")
        told = json.loads((room / "told").read_text())
    # (some versions of Neovim leave the empty line after the last one, and some do not)
    while told.get("named") and not told["named"][-1]:
        told["named"].pop()
    failed = [name for name, want in WANTED.items() if told.get(name) != want]
    fault = (told["faults"] or [[]])[0]
    if len(told["faults"]) != 1 or fault[:3] != [2, 26, "E06"]:
        failed.append("faults")
    for name in failed:
        print(f"FAILED {name}: {told.get(name)}")
    print(f"{len(WANTED) + 1 - len(failed)} passed, {len(failed)} failed")
    sys.exit(1 if failed else 0)


if __name__ == "__main__":
    main()
