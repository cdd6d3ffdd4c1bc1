"""Keeps compiled modules of the tools where Python by itself keeps none, so that a tool starts at once.

Python keeps the compiled modules of a folder beside them, in `__pycache__`, but not in a folder that can't be written,
as that of another user's installation, and nowhere if PYTHONDONTWRITEBYTECODE is set. Then the modules of the tools,
and no others, are kept in the user's cache folder: in `llbm/compiled` of XDG_CACHE_HOME or else of ~/.cache. Nothing is
kept if this folder is another user's or can be written by others, since its content is run. PYTHONPYCACHEPREFIX, which
names a place for all modules, comes first. As everywhere in Python, a compiled module is used only if the time and the
size of its source are those that it was compiled from.

In both places a compiled module is kept whole or not at all. Python by itself keeps what a limit or a full disk leaves
of it, and then can't load the module any more.
"""

import os
import stat
import sys
import types
from importlib.machinery import FileFinder, SourceFileLoader

TOOLS = os.path.dirname(os.path.dirname(os.path.abspath(__file__)))


def is_mine(folder: str) -> bool:
    """Returns whether a folder is this user's, and no other user can write to it."""
    state = os.stat(folder)
    return state.st_uid == os.geteuid() and not state.st_mode & (stat.S_IWGRP | stat.S_IWOTH)


def cache_folder() -> str:
    """Returns the folder for compiled modules, which is made if it is not there; empty if there can't be one."""
    above = os.environ.get("XDG_CACHE_HOME") or os.path.expanduser("~/.cache")
    folder = os.path.join(above, "llbm", "compiled")
    try:
        os.makedirs(folder, 0o700, exist_ok=True)
        return folder if os.path.isabs(folder) and is_mine(folder) else ""
    except OSError:
        return ""


class Kept(SourceFileLoader):
    """Loads a module from its source, or from its compiled form in the cache folder, or beside the source for None."""

    folder: str | None = None

    def get_code(self, fullname: str) -> types.CodeType | None:
        """Returns the code of a module; what is set for all modules is changed while this one is loaded."""
        before = sys.pycache_prefix, sys.dont_write_bytecode
        sys.pycache_prefix, sys.dont_write_bytecode = self.folder, False
        try:
            return super().get_code(fullname)
        finally:
            sys.pycache_prefix, sys.dont_write_bytecode = before

    def set_data(self, path: str, data: bytes, *, _mode: int = 0o666) -> None:  # type: ignore[override]
        """Writes a file for a compiled module under a name of its own, and renames it if it is whole."""
        beside = f"{path}.{os.getpid()}"
        super().set_data(beside, data, _mode=_mode)
        try:
            if os.stat(beside).st_size == len(data):
                os.replace(beside, path)
            else:
                os.unlink(beside)
        except OSError:
            return


def is_below(path: str) -> bool:
    """Returns whether a path is the folder of the tools or below it."""
    return os.path.abspath(path) == TOOLS or os.path.abspath(path).startswith(TOOLS + os.sep)


def finder_in(path: str) -> FileFinder:
    """Returns what finds the modules of a folder of the tools."""
    if not is_below(path):
        raise ImportError(path)
    return FileFinder(path, (Kept, [".py"]))


def keep() -> None:
    """Makes Python keep the compiled modules of the tools: in the cache folder, if it does not keep them by itself."""
    if sys.pycache_prefix is not None:
        return
    keeps = not sys.dont_write_bytecode and os.access(os.path.join(TOOLS, "llbm_tools"), os.W_OK)
    Kept.folder = None if keeps else cache_folder()
    if Kept.folder != "":
        sys.path_hooks.insert(0, finder_in)
        for path in filter(is_below, list(sys.path_importer_cache)):
            del sys.path_importer_cache[path]
