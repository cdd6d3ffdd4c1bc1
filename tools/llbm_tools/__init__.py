"""The modules of the tools of this repository, in packages; the modules of this folder itself are what all share.

The head of each package says what it is, and which other packages it imports; none imports one that imports it.
A tool's file, in the folder above, names the module that it starts. `compiled` says where compiled modules are kept.
"""

from llbm_tools import compiled

compiled.keep()
