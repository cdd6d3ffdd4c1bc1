"""Installations: their files, with completions and pages of the manual made of the tools' own parsers, the extension
for VS Code, and the archive of all that.

It may import `compiling` and `running`.
"""
