"""`raftbench check` where no case can show it: links, rights, pipes, terminals, a full disk, calls of the system that fail.
Run it after a change of rb_check, rb_files, rb_script_report, rb_report or rb_program; its reports are in tests/cases/check.
"""

RUNS = ("raftbench",)
