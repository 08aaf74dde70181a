#!/usr/bin/env python3
"""Prints how long each part of a crate's last check took: by kind, and the slowest modules.

    cd crates/NAME; rm -rf out/incremental; rt check --jobs 1; cd ../..
    tools/module_times.py NAME [COUNT]

A check keeps a file for each module as it ends with it, one behind another where it has one job, so the time of a module
is that from the file before to its own. Of a function `Lts` is the part of the borrow checker: it grows with what is
alive where a call may fail, most of all with values of which parts were moved out. A module of `proofs` has its name.
"""

import collections
import os
import re
import sys


def kind(module):
    """What a module is: a file of specs or proofs, or a part of what is made of a function."""
    if '-specs.contracts' in module:
        return 'contracts'
    if '-specs' in module:
        return 'specs'
    if module.count('.') <= 1:
        return 'files of proofs'
    return re.sub(r'-.*', '', module.rsplit('.', 1)[-1])


def main():
    os.chdir(os.path.dirname(os.path.dirname(os.path.abspath(__file__))))
    count = int(sys.argv[2]) if len(sys.argv) > 2 else 20
    ended = []
    for folder, _, names in os.walk(f'crates/{sys.argv[1]}/out/incremental'):
        for name in names:
            if name.endswith('.oantt'):
                module = name.removesuffix('.oantt').removesuffix('.decls')
                ended.append((os.path.getmtime(os.path.join(folder, name)), module))
    ended.sort()
    took, kinds = collections.Counter(), collections.Counter()
    for (before, _), (after, module) in zip(ended, ended[1:]):
        took[module] += after - before
        kinds[kind(module)] += after - before
    for name, seconds in kinds.most_common(10):
        print(f'{seconds:8.1f} s  {name}')
    print()
    for module, seconds in took.most_common(count):
        print(f'{seconds:8.1f} s  {module}')


main()
