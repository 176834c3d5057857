"""The processes that host your nodes: calls and answers, workers, and a cache of earlier answers."""
