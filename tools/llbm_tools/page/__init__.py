"""The page that steps through a run in a browser: the module of WebAssembly and the files around it, the server of the
page, and the tests of both in Node and in a browser.

It may import `compiling`, `definitions`, `llb`, `sessions` and `trees`.
"""
