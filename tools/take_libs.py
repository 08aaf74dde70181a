#!/usr/bin/env python3
"""Takes the libraries that `rt ci` built in another checkout, so that `rt check` begins at once here: it builds none of the
crates that are named, where their sources and those of all below them are the same in both.

    tools/take_libs.py FROM CRATE ..

For instance, in a clone of a helper: `tools/take_libs.py /tmp/gate plain_data c_language c_means core_tree elaborate`,
the lowest first. A crate whose files differ, or that isn't built there, is told and left out; what stands on it is then
built here.
"""

import filecmp
import os
import shutil
import sys

sys.path.insert(0, "/opt/rattle/bin")
import rtlib

HERE = os.path.dirname(os.path.dirname(os.path.abspath(__file__)))


def files(folder):
    """The paths of all files below a folder, from it."""
    return sorted(os.path.relpath(f"{at}/{name}", folder) for at, _, names in os.walk(folder) for name in names)


def is_same(first, second):
    """Whether a crate has the same files in both checkouts."""
    for part in ("src", "specs", "proofs"):
        one, other = f"{first}/{part}", f"{second}/{part}"
        if files(one) != files(other):
            return False
        if filecmp.cmpfiles(one, other, files(one), shallow=False)[1:] != ([], []):
            return False
    return True


def keep_stamps():
    """The kit sums a crate's files along every chain of libraries: each crate is summed once here."""
    sums, plain = {}, rtlib.Crate.stamp

    def stamp(crate):
        if crate.folder not in sums:
            sums[crate.folder] = plain(crate)
        return sums[crate.folder]
    rtlib.Crate.stamp = stamp


def main():
    other, known = sys.argv[1], {}
    keep_stamps()
    for name in sys.argv[2:]:
        there, folder = f"{other}/crates/{name}", f"{HERE}/crates/{name}"
        if not os.path.isdir(f"{there}/out/rlib/{name}.rlib") or not is_same(there, folder):
            print(f"{name}: not taken")
            continue
        shutil.rmtree(f"{folder}/out/rlib", ignore_errors=True)
        shutil.copytree(f"{there}/out/rlib", f"{folder}/out/rlib")
        os.chdir(folder)
        with open(f"{folder}/out/rlib/stamp", "w", encoding="utf-8") as file:
            file.write(rtlib.Crate(folder, HERE, known).stamp())
        print(f"{name}: taken")


main()
