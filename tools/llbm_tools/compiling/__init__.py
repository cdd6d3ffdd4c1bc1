"""What the kit compiles outside of the gate: the program without any proof, and the static library with its bindings.

It may import `daemon`.
"""
