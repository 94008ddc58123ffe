"""Clients of hol-serve for people: a checker of files (`holls check`) and an editor bridge (`holls lsp`)."""
