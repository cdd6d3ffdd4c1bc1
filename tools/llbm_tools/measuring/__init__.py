"""Figures: inputs of any size, and how long the program, repeated builds and both daemons take for them.

It may import `daemon` and `llb`.
"""
