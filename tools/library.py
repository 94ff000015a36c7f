"""What several tools share: scripts as modules, and the toolchain's rt."""
import functools
import hashlib
import importlib.machinery
import importlib.util
import os
import shutil


def load_script(path):
    """The module of a script, whatever its suffix."""
    name = os.path.basename(path).replace("-", "_")
    loader = importlib.machinery.SourceFileLoader(name, str(path))
    module = importlib.util.module_from_spec(importlib.util.spec_from_loader(name, loader))
    loader.exec_module(module)
    return module


def remembered(method):
    """The method of a crate, called once for each crate."""
    known = {}

    def call(crate):
        if crate.folder not in known:
            known[crate.folder] = method(crate)
        return known[crate.folder]

    return call


@functools.lru_cache(maxsize=None)
def read_once(path, *_):
    """The sum of a library's file `format`, and the sums in it of the libraries that it was proved over, by name."""
    with open(path, "rb") as file:
        text = file.read()
    words = [line.split() for line in text.decode().split("\n") if line.startswith("over ")]
    return hashlib.sha256(text).hexdigest(), {it[1]: it[2] for it in words if len(it) == 3}


def format_of(rlib):
    """What `read_once` finds in a library, or None if there is no library."""
    path = f"{rlib}/format"
    try:
        found = os.stat(path)
        return read_once(path, found.st_ino, found.st_mtime_ns, found.st_size)
    except OSError:
        return None


def is_over_these(crate):
    """Whether the crate's library was proved over the libraries that are below it now.

    rt itself compares only sources. A library that was built again from the same sources, as after
    an edit that was undone before those above it were built, can differ, and then rt refuses each
    library above it ("proved over another build")."""
    own = format_of(crate.rlib)
    below = [(it.name, format_of(it.rlib)) for it in crate.below()]
    return own is not None and all(
        found is not None and own[1].get(name, found[0]) == found[0] for name, found in below
    )


def toolchain():
    """The module of rt, which calls `below` and `stamp` once for each crate.

    rt itself calls them once for each path that leads down to a crate. A library that was proved
    over another build of those below it counts as not built, so rt builds it again."""
    rt = load_script(os.path.realpath(shutil.which("rt")))
    for kind in {rt.Crate, rt.rtlib.Crate}:
        kind.stamp = remembered(kind.stamp)
    below = remembered(rt.rtlib.Crate.below)
    rt.rtlib.Crate.below = lambda crate: list(below(crate))
    is_built = rt.rtlib.Crate.is_built
    rt.rtlib.Crate.is_over_these = is_over_these
    rt.rtlib.Crate.is_built = lambda crate: is_built(crate) and is_over_these(crate)
    return rt
