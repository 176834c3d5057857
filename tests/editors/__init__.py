"""Editors: the language server beside the documents and the plain bench, the clients of editors/, and what these know of scripts.
Run it after a change of rb_lsp, rb_editor, editors/ or the form of a script.
"""

RUNS = ("raftbench",)
