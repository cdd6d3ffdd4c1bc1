"""What the program prints: a session of `llbm step`, the lines of its record, and those of `llbm show`. The tools make
JSON and traces of them. And folders of builds, with the records of their runs.

It may import `llb` and `trees`.
"""
