"""Archives and images: reads tar archives entry by entry, packed or not, reads and writes images, and lays their layers
one over another. Nothing here knows the text of a tree.

It may import no other package.
"""
