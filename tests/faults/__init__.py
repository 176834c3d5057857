"""What fails around the program: reads, writes, readers that go away, memory; and that it answers at once and takes few instructions.
Run it after a change of a crate that reads, writes or takes memory, or of what a session answers.
"""

RUNS = ("raftbench", "rb_plain")
