"""`python3 -m raftbench_nodes` is raftbench-nodes."""
import sys

from .cli import main

sys.exit(main())
