"""Exploring: drawn scripts, the search for new ones, and the shortest script of each finding."""
