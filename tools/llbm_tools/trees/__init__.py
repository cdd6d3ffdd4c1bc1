"""Trees: their text, which the program reads and prints, made of directories, archives and images, and the directories
and archives that are made of it; and the tokens that are in a text in the place of contents.

It may import `images`.
"""
