"""The debugger at a prompt, and the adapter by which an editor steps through a run: what is launched and shown of a
session; and why a vertex failed.

It may import `definitions`, `llb`, `rules`, `sessions` and `trees`.
"""
