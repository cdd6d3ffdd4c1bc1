"""Runs of the program with explanations: the words of its command line, why a run is refused or a vertex fails, what
each step did, where BuildKit ends otherwise, and runs that are kept in folders.

It may import `debugging`, `definitions`, `llb`, `rules`, `sessions` and `trees`.
"""
