"""Random inputs for the program: how they are made and changed, the rules that each run is checked by, and runs with
limits.

It may import `building`, `definitions`, `llb` and `trees`.
"""
