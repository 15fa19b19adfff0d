"""Crates of the program as modules of larger ones. A library holds what can be cited of each type that
its public functions mention, and of all that these types hold: 44 MB for `forest_world`, whose code is
5 kB. Each crate above that reads and writes it once more. So tools/build has some crates that stand on
one another proved as one. Files that the program doesn't stand on are left out (tools/reached.py).

What changes in a file are paths alone. Of a crate `low` among those of `ahi_pool`

    low::Name                           is  ahi_pool::low::Name
    Rattle.low.specs.File               is  Rattle.ahi_pool.specs.OfLow.File
    Rattle.low.proofs.File              is  Rattle.ahi_pool.proofs.OfLow.File
    Rattle.low.proofs.module.function   is  Rattle.ahi_pool.proofs.low.module.function
    Rattle.low.specs.declared.module    is  Rattle.ahi_pool.specs.declared.low.module

and in the files of `ahi_pool` itself `crate` is written for it. Code may cite the proofs of other crates
and not those of its own (`ghost use`), so what code cites the proofs of is merged with nothing above."""

import os
import re
import shutil
import sys

import crates_txt
from reached import KINDS, MADE, Kept, reached

PROGRAM = "ahi"
# The larger crates, and what they are made of.
PARTS = {
    "ahi_ports": ["io_port", "first_line", "lanes"],
    "ahi_texts": ["settings", "script", "refusal_text"],
    "ahi_chains": ["chain_arena", "hash_partition"],
    "ahi_laws": ["clock_law", "index_law", "forest_law", "call_law"],
    "ahi_moves": ["tree_restructure", "tree_facts"],
    "ahi_rows": ["guess_check", "tree_merging", "leaf_rows"],
    "ahi_pool": ["forest_world", "hash_maintain", "buffer_pool", "engine_law"],
    "ahi_searches": ["hash_guess", "leaf_search", "tree_neighbours", "index_seeks"],
    "ahi_changes": ["tree_growth", "tree_shrinking"],
    "ahi_reports": ["change_log", "column_counts", "report_text"],
    "ahi_lanes": ["lane_law", "report_print"],
    "ahi": ["index_engine", "lane_threads", "ahi_cli", "ahi"],
}
TACTIC = "#![tactic(auto)]\n"


def folder_of(crate):
    """What a crate's own definitions and lemmas stand under. The kit's names are those of modules, and
    may not be alike but for capital letters."""
    return "Of" + "".join(it.capitalize() for it in crate.split("_"))


class Merger:
    """Rewrites the paths of files."""

    def __init__(self):
        self.part_of = {name: part for part, names in PARTS.items() for name in names}
        names = "|".join(sorted(self.part_of, key=len, reverse=True))
        self.cited = re.compile(rf"\bRattle\.({names})\.(specs|proofs)\.((?:{MADE})\.)?(?=(\w))")
        self.path = re.compile(rf"(?<![\w:.$])(crate|{names})::(?:(specs|proofs)::)?")

    def cite(self, found):
        crate, kind, made, first = found.groups()
        under = f"Rattle.{self.part_of[crate]}.{kind}"
        if made or first.islower():
            return f"{under}.{made or ''}{crate}."
        return f"{under}.{folder_of(crate)}."

    def proof(self, text):
        return self.cited.sub(self.cite, text)

    def code(self, text, crate):
        modules = re.findall(r"^mod (\w+);", text, re.M)

        def lead(found):
            name, kind = found.groups()
            to = crate if name == "crate" else name
            part = self.part_of.get(to)
            if part is None or to == PROGRAM or name in modules:
                return found[0]
            root = "crate" if part == self.part_of.get(crate) else part
            return f"{root}::{kind}::{folder_of(to)}::" if kind else f"{root}::{to}::"

        return self.path.sub(lead, self.proof(text))


def write(path, text):
    os.makedirs(os.path.dirname(path), exist_ok=True)
    with open(path, "w", encoding="utf-8") as file:
        file.write(text)


def write_code(merger, kept, to):
    crate = kept.crate
    for path, text in kept.files("src"):
        text = merger.code(text, crate.name)
        if crate.name == PROGRAM:
            write(os.path.join(to, path), text)
        else:
            path = "mod.rt" if path == "lib.rt" else path
            write(os.path.join(to, crate.name, path), text.replace(TACTIC, ""))


def write_proofs(merger, kept, kind, to):
    """Writes definitions or proofs. Those of functions lie in folders by the names of modules."""
    crate = kept.crate
    own = folder_of(crate.name)
    for path, text in kept.files(kind):
        if path == "Lib.antt":
            # what is private to a crate is private to its part
            path, text = f"{own}.antt", re.sub(r"^mod ", "pub mod ", text, flags=re.M)
        elif os.sep in path:
            path = os.path.join(crate.name, path)
        else:
            path = os.path.join(own, path)
        write(os.path.join(to, path), merger.proof(text))


def write_roots(names, to):
    """Writes the files that name the modules of these crates."""
    mods = [f"mod {it};\n" for it in names if it != PROGRAM]
    if PROGRAM in names:
        main = os.path.join(to, "src", "main.rt")
        with open(main, encoding="utf-8") as file:
            text = file.read()
        write(main, text.replace(TACTIC, f"{TACTIC}\n{''.join(mods)}", 1))
    else:
        mods = "".join(f"pub {it}" for it in mods)
        write(os.path.join(to, "src", "lib.rt"), f"{TACTIC}\n{mods}")
    for kind in ("specs", "proofs"):
        made = [folder_of(it) for it in names]
        made = [it for it in made if os.path.exists(os.path.join(to, kind, f"{it}.antt"))]
        write(os.path.join(to, kind, "Lib.antt"), "".join(f"pub mod {it}\n" for it in made))


def write_alone(merger, kept, to):
    """Writes a crate that is part of no larger one."""
    for kind in KINDS:
        for path, text in kept.files(kind):
            text = merger.code(text, kept.crate.name) if kind == "src" else merger.proof(text)
            write(os.path.join(to, kind, path), text)


def write_part(merger, parts, to):
    """Writes one of the larger crates."""
    for kept in parts:
        write_code(merger, kept, os.path.join(to, "src"))
        for kind in ("specs", "proofs"):
            write_proofs(merger, kept, kind, os.path.join(to, kind))
    write_roots([it.crate.name for it in parts], to)


def in_order(made):
    """These crates, each after those that it stands on."""
    found = {}
    while len(found) < len(made):
        left = [it for it in made.values() if it.name not in found]
        next_ones = [it for it in left if not made.keys() - found.keys() & set(it.stands_on)]
        if not next_ones:
            sys.exit(f"tools/merged.py: PARTS has a circle among {', '.join(it.name for it in left)}")
        found.update((it.name, it) for it in next_ones)
    return found


def write_all(top):
    """Writes what the program stands on to a folder, some of it as larger crates, and answers what the
    program is made of then."""
    crates = crates_txt.read()
    crates = {it: crates[it] for it in [*crates_txt.below(crates, PROGRAM), PROGRAM]}
    files = reached(crates, PROGRAM)
    merger = Merger()
    shutil.rmtree(top, ignore_errors=True)
    made = {}
    for name in crates:
        part = merger.part_of.get(name, name)
        if part in made or name not in files:
            continue
        own = [Kept(crates[it], files[it]) for it in PARTS.get(part, [name])]
        to = os.path.join(top, part)
        if part in PARTS:
            write_part(merger, own, to)
        else:
            write_alone(merger, own[0], to)
        left = [it for kept in own for it in kept.crate.stands_on if it in files or it not in crates]
        stands_on = [it for it in dict.fromkeys(merger.part_of.get(it, it) for it in left) if it != part]
        made[part] = crates_txt.Crate(part, "", stands_on, to)
    return in_order(made)
