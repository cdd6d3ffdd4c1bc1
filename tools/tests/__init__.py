"""The tests of the tools, which `test` beside this folder runs."""
