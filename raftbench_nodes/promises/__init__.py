"""Checks Raft's promises on what nodes report."""
