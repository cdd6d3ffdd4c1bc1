"""BuildKit's rules for file ops, merges and local sources, by the program `llbm-rules`, which is in Go: its notes, its
texts, its examples, and comparisons with it.

It may import `llb` and `trees`.
"""
