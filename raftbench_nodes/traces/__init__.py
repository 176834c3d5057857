"""Traces: calls and answers that were recorded elsewhere."""
