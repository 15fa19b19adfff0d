"""What crates.txt says: the crates in its order, what each stands on, and the groups."""

import os
import sys
from dataclasses import dataclass, field

sys.dont_write_bytecode = True

TOP = os.path.dirname(os.path.dirname(os.path.realpath(__file__)))


@dataclass
class Crate:
    name: str
    group: str
    stands_on: list = field(default_factory=list)
    folder: str = ""


def read(path=os.path.join(TOP, "crates.txt")):
    """The crates by name, in the file's order. Libraries of the kit are left in `stands_on`."""
    crates, group = {}, ""
    with open(path, encoding="utf-8") as lines:
        for line in lines:
            if line.startswith("#"):
                group = line.lstrip("#").strip()
            elif ":" in line:
                head, _, libraries = line.partition(":")
                name = head.split()[0]
                folder = os.path.join(TOP, "crates", name)
                crates[name] = Crate(name, group, libraries.split(), folder)
    return crates


def below(crates, name):
    """The crates that this one stands on, however far down, in the file's order."""
    found, left = set(), [name]
    while left:
        for library in crates[left.pop()].stands_on:
            if library in crates and library not in found:
                found.add(library)
                left.append(library)
    return [it for it in crates if it in found]
