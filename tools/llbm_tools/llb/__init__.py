"""LLB: the messages of a definition. Reads and writes their records and fields, numbers the graph, names its entries,
and asks the program what it refuses in them.

It may import no other package.
"""
