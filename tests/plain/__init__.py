"""Random scripts and edits, from fixed seeds, beside the plain bench of plain/: all that goes out, and how many directives an edit executes.
Run it after any change of what directives do, of logs, of sessions or of plain/.
"""

RUNS = ("raftbench", "rb_plain")
