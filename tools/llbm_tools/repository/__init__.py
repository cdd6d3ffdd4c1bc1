"""Checks of the repository: the gate and its parts, among them the tests of the tools, and what is counted and printed
of the sources and of proofs.

It may import `compiling`, `installing` and `page`.
"""
