"""Which files of the crates the program stands on: those that its own files name, and those that these
name in turn, whether code, definitions or proofs. Laws for readers and what only tests use are left out:
the gate proves them, and a first use doesn't.

What a file names is read off its text: a file of code names the modules of its `use` lines and of its
paths, and what the answers of its functions' proofs name. A file with methods of a type that stands in
another comes with its crate."""

import collections
import os
import re

KINDS = ("src", "specs", "proofs")
# What stands before the names of modules that the kit makes of code.
MADE = "declared|contracts|lemmas"
CITED = re.compile(rf"\b(?:Rattle\.(\w+)\.|(\w+)::)(specs|proofs)(?:\.|::)((?:{MADE})\.)?(\w+)")
PATH = re.compile(r"(?<![\w:.$])([a-z]\w*)::(\{[^}]*\}|\w+)")
HANDED_ON = re.compile(r"^pub use (?:(\w+)::)?(?:\{([^}]*)\}|(\w+));\n", re.M)
TYPE = re.compile(r"^(?:pub(?:\(crate\))? )?(?:struct|enum|trait|type) (\w+)", re.M)
METHODS = re.compile(r"^impl\b([^{]*)\{", re.M)


def texts_of(folder):
    """The files below a folder, by their paths there."""
    for top, _, names in os.walk(folder):
        for name in names:
            path = os.path.join(top, name)
            with open(path, encoding="utf-8") as file:
                yield os.path.relpath(path, folder), file.read()


def subject(head):
    """The type that an `impl` is about, by what stands between that word and the brace."""
    of, _, it = head.rpartition(" for ")
    depth, place = 0, 0
    while not of and (depth or it[place] == "<"):
        depth += {"<": 1, ">": -1}.get(it[place], 0)
        place += 1
    return re.search(r"\w+", it[place:])[0]


def has_methods_of_others(text):
    """Whether a file of code has methods of a type that stands in another."""
    own = set(TYPE.findall(text))
    return any(subject(it) not in own for it in METHODS.findall(text))


class Texts:
    """A crate's files by kind and name, the answers of the functions of each module, the modules that come
    with any other (`first`), and in which module each name stands that the crate gives (`homes`)."""

    def __init__(self, crate):
        self.files = {kind: {} for kind in KINDS}
        self.answers = collections.defaultdict(list)
        for kind in KINDS:
            for path, text in texts_of(os.path.join(crate.folder, kind)):
                first, _, rest = path.partition(os.sep)
                if rest:
                    self.answers[self.module_of(first)].append(text)
                else:
                    self.files[kind][first.split(".")[0]] = text
        code = self.files["src"]
        self.root = self.module_of("")
        self.first = [self.root, *(it for it, text in code.items() if has_methods_of_others(text))]
        self.homes = {}
        for module, several, one in HANDED_ON.findall(code[self.root]):
            self.homes.update((name, module) for name in re.findall(r"\w+", several or one))

    def module_of(self, folder):
        """The module whose functions have their answers in this folder; those of the root have one each."""
        if folder in self.files["src"]:
            return folder
        return "main" if "main" in self.files["src"] else "lib"


class Reach:
    def __init__(self, crates):
        self.texts = {name: Texts(crate) for name, crate in crates.items()}
        self.found = set()

    def cited(self, crate, text):
        """The files that a text names with the words of definitions and proofs."""
        for library, path, kind, made, name in CITED.findall(text):
            to = crate if path == "crate" else library or path
            if to in self.texts:
                yield to, "src" if made or name[0].islower() else kind, name

    def home(self, crate, name):
        """The file in which a name of a crate stands that may be handed on from another."""
        texts = self.texts[crate]
        module = texts.homes.get(name, name)
        if module in texts.files["src"]:
            return crate, "src", module
        if module in self.texts and module != crate:
            return self.home(module, name)
        return crate, "src", texts.root

    def named(self, crate, text):
        """The files that code names by paths."""
        for head, rest in PATH.findall(re.sub("//.*", "", text)):
            to = crate if head == "crate" else head
            if to in self.texts:
                yield from (self.home(to, it) for it in re.findall(r"\w+", rest))

    def leads_to(self, crate, kind, name):
        texts = self.texts[crate]
        text = texts.files[kind][name]
        yield from self.cited(crate, text)
        if kind == "src":
            yield from ((crate, kind, it) for it in texts.first)
            for answer in texts.answers[name]:
                yield from self.cited(crate, answer)
            yield from self.named(crate, text)

    def follow(self, left):
        """Finds all that these files lead to."""
        while left:
            crate, kind, name = file = left.pop()
            if file not in self.found and name in self.texts[crate].files[kind]:
                self.found.add(file)
                left += self.leads_to(*file)


def reached(crates, program):
    """What the program stands on: of each crate the names of its files, as `src/page` or `specs/Rows`, by
    its name. `crates` are all crates below the program, and the program."""
    reach = Reach(crates)
    reach.follow([(program, "src", it) for it in reach.texts[program].files["src"]])
    files = collections.defaultdict(set)
    for crate, kind, name in reach.found:
        files[crate].add(f"{kind}/{name}")
    return files


class Kept:
    """What is left of a crate without the files that the program doesn't stand on."""

    def __init__(self, crate, reached_files):
        self.crate = crate
        self.gone = set()
        for kind in KINDS:
            for path, _ in texts_of(os.path.join(crate.folder, kind)):
                name = path.split(".")[0]
                if os.sep not in path and name not in ("lib", "main", "Lib"):
                    self.gone |= {f"{kind}/{name}"} - reached_files

    def without_gone(self, kind, text):
        """The text of a file that names modules, without those that are gone."""
        for file in self.gone:
            of, _, name = file.partition("/")
            if of == kind:
                text = re.sub(rf"^(?:pub )?mod {name};?\n", "", text, flags=re.M)
                text = re.sub(rf"^pub use {name}::(?:\{{[^}}]*\}}|\w+);\n", "", text, flags=re.M)
        return text

    def files(self, kind):
        """The paths of the files of this kind, and their texts."""
        for path, text in texts_of(os.path.join(self.crate.folder, kind)):
            first = path.partition(os.sep)[0].split(".")[0]
            of = "src" if os.sep in path else kind
            if f"{of}/{first}" not in self.gone:
                is_root = path in ("lib.rt", "main.rt", "Lib.antt")
                yield path, self.without_gone(kind, text) if is_root else text
