"""Runs scripts on your nodes and on the reference, and finds where they first differ."""
