"""The documents, man pages and sources: what they say of one another is so, and what they show answers as they show it.
Run it after a change of a document, an example, a name in a crate or which crates there are.
"""

RUNS = ("raftbench",)
