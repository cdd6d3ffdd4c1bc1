"""What is to be known of a definition, whether or not the program accepts it: what it refuses and why, what its faults
mean, how the definition is drawn, what an edit of it changes, and how a foreign one is adopted.

It may import `llb`, `rules`, `sessions` and `trees`.
"""
