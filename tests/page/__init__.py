"""Pages and pictures: what the program writes of a script, byte for byte beside a plain program's, and what a reader sees and does in a browser.
Run it after a change of rb_view or of what a directive prints.
"""
RUNS = ("raftbench",)
