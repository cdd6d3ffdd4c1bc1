"""Builds: sources that are given by reference, the run of the program, the result as a directory or an archive, and
what is kept for the next build.

It may import `definitions`, `images`, `llb`, `rules`, `running`, `sessions` and `trees`.
"""
