"""The code of the toolchain's rt, for scripts that do what `rt ci` does."""
import functools
import importlib.machinery
import importlib.util
import os
import shutil


class NothingKept:
    """What an rt that keeps no proofs on its machine has of them."""

    def __init__(self, _crates):
        pass

    def key(self, _crate):
        return None

    def give(self, _crate, _tests, _key):
        return False

    def is_built(self, _crate):
        pass


def load_rt():
    """The toolchain's rt as a module, set up as for `rt ci`, in the top of a repository."""
    file = os.path.realpath(shutil.which("rt"))
    loader = importlib.machinery.SourceFileLoader("rt", file)
    rt = importlib.util.module_from_spec(importlib.util.spec_from_loader("rt", loader))
    loader.exec_module(rt)
    rt.rtlib.Crate = rt.Crate
    rt.Crate.cuts_libraries = True
    rt.Crate.allowed = rt.handles_of(os.getcwd())
    rt.Crate.stamp = functools.cache(rt.Crate.stamp)
    # (the program of the second compiler is only for the gate)
    compile_by = rt.Crate.compile_by
    rt.Crate.compile_by = lambda crate, by, *words: (
        compile_by(crate, by, *words) if by == "llvm" else 0)
    rt.rtlib.guarded()
    rt.Kept = getattr(rt, "Kept", NothingKept)
    return rt
