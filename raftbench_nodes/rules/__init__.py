"""The reference with other rules: switches, their rules, and lists of known libraries."""
