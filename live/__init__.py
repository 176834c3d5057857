"""raftbench-live: a page on which you play with a script's cluster. Each thing that you do becomes a directive of the script.

A small server on 127.0.0.1 (server.py, guard.py) serves the page (page/, and the modules of crates/rb_view/assets). All rules are the program's:

- `raftbench page` gives the rows (program.py); the page gets those that changed (rows.py);
- `raftbench session` runs an edit (session.py), and shows what a node may do (may.py);
- `raftbench check --accept` accepts outputs (accepting.py), and `check --why` says what a restart loses (losing.py);
- `raftbench lsp` completes directives and shows hints (language.py).
"""
