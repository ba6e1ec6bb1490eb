"""Python reads this module before a program where its folder is in PYTHONPATH. It changes `rt ci` in
three ways, none of which changes what is proved.

The sum of a crate's sources is made of the sums of the crates below it. `rt` makes it for each
library twice, and reads a crate anew for each way that leads down to it, which here are millions.
Within one such sum each crate is read once. The list of the crates below one is made once, too.

A library is proved by two processes where at most one more is being proved. The crates wait for one
another, and the longest chain of them, one at a time, is most of the gate's time. More processes
take more of the processors in all. A proof that ran out of memory is tried again by one process.
"""
import threading
from importlib.machinery import SourceFileLoader

LOCK = threading.Lock()


def run_and_change(loader, module):
    """Runs a module of a file, and changes `rtlib`, the module of `rt` that has the crates."""
    EXEC(loader, module)
    if module.__name__ == "rtlib":
        for name, change in (("stamp", sum_once), ("below", list_once), ("build_rlib", prove_by_two)):
            if hasattr(module.Crate, name):
                change(module.Crate)


def sum_once(crate):
    """Has the sum of a crate read each crate below it once."""
    plain, of_thread = crate.stamp, threading.local()

    def stamp(self):
        sums = getattr(of_thread, "sums", None)
        if sums is not None:
            if self.folder not in sums:
                sums[self.folder] = plain(self)
            return sums[self.folder]
        of_thread.sums = {}
        try:
            return plain(self)
        finally:
            of_thread.sums = None

    crate.stamp = stamp


def list_once(crate):
    """Has a crate keep the list of those below it."""
    plain = crate.below

    def below(self):
        if "kept_below" not in self.__dict__:
            self.kept_below = plain(self)
        return list(self.kept_below)

    crate.below = below


def prove_by_two(crate):
    """Has two processes make the first proof of a library where `rt` gives it one, and at most one more library is being proved."""
    plain, tried, proving = crate.build_rlib, set(), []
    if plain.__code__.co_varnames[: plain.__code__.co_argcount] != ("self", "flags", "anew"):
        return

    def build_rlib(self, flags, anew):
        with LOCK:
            proving.append(self.folder)
            by_two = anew and flags == ["--jobs", "1"] and self.folder not in tried and len(proving) <= 2
            tried.add(self.folder)
        try:
            return plain(self, ["--jobs", "2"] if by_two else flags, anew)
        finally:
            with LOCK:
                proving.remove(self.folder)

    crate.build_rlib = build_rlib


EXEC = SourceFileLoader.exec_module
SourceFileLoader.exec_module = run_and_change
