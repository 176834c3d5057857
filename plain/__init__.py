"""The whole bench in plain Python, written from the documents in docs/. It shares no code with crates/."""
