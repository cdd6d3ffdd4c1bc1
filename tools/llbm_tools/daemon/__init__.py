"""The daemon llbmd and BuildKit's own: builds both from Debian's packages or Go's modules, runs the daemon's tests and
BuildKit's, and compares BuildKit's daemon with llbm.

It may import `definitions`, `llb`, `rules` and `trees`.
"""
