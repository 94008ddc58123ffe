"""`holls serve`: the page for a class (docs/SERVE.md)."""
