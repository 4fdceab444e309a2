"""How tests/reached reads the code of the program: its types and functions. Clauses and other ghost parts, tests and
crates of tests are no code of the program."""
import collections
import glob
import os
import re

TOP = os.path.dirname(os.path.dirname(os.path.abspath(__file__)))
TOKEN = re.compile(r"""b?"(?:\\.|[^"\\])*"|b?'(?:\\.[^']*|[^\\'])'|'\w+|\w+|::|->|=>|\.\.=?|&&|[^\s\w]""", re.S)
COMMENT = re.compile(r"""(b?"(?:\\.|[^"\\])*"|b?'(?:\\.|[^\\'])')|//[^\n]*""", re.S)
GHOST = {"requires", "ensures", "invariant", "decreases"}
CLOSERS = {"(": ")", "[": "]", "{": "}"}
# what stands within these is what is asked about
WRAPPERS = {"Box", "Arc"}


def tokens_of(text):
    """The tokens of some code with the line of each, without comments."""
    text = COMMENT.sub(lambda it: it.group(1) or "", text)
    found, line, last = [], 1, 0
    for it in TOKEN.finditer(text):
        line += text.count("\n", last, it.start())
        last = it.start()
        found.append((it.group(), line))
    return found


def pairs_of(words):
    """For each bracket the place of the other one."""
    found, open_ = {}, []
    for at, word in enumerate(words):
        if word in CLOSERS:
            open_.append(at)
        elif word in (")", "]", "}") and open_:
            found[at] = open_.pop()
            found[found[at]] = at
    return found


def without_ghosts(tokens):
    """The tokens without clauses, ghost items, attributes, and items of tests."""
    words = [word for word, _ in tokens]
    pairs, kept, at = pairs_of(words), [], 0
    while at < len(words):
        word = words[at]
        if word == "#" and words[at + 1 : at + 2] in (["["], ["!"]):
            end = pairs[at + 1 + (words[at + 1] == "!")]
            at = end_of_item(words, pairs, end + 1) if words[at + 1 : end + 1] == list("[") + ["cfg", "(", "test", ")", "]"] else end + 1
        elif word == "ghost":
            at = end_of_item(words, pairs, at)
        elif word in GHOST:
            while words[at] != "{":
                at += 1
            at = pairs[at] + 1
        else:
            kept.append(tokens[at])
            at += 1
    return kept


def end_of_item(words, pairs, at):
    """The place behind an item, which ends with `;` or a block."""
    imports = words[at] == "use" or words[at : at + 2] == ["ghost", "use"] or words[at + 1 : at + 2] == ["use"]
    while words[at] != ";":
        if words[at] in CLOSERS:
            block = words[at] == "{" and not imports
            at = pairs[at]
            if block:
                return at + 1 + (words[at + 1 : at + 2] == [";"])
        at += 1
    return at + 1


class Type:
    """A type: its name and what it holds. References and boxes are what they hold; a tuple is `(`, a slice `[`."""

    def __init__(self, name, held=()):
        self.name, self.held = name, list(held)

    def put(self, places):
        """This type, where names stand for others."""
        if self.name in places:
            return places[self.name]
        return Type(self.name, [it and it.put(places) for it in self.held])

    def plain(self):
        return self.name.rpartition(".")[2]


class TypeReader:
    """Reads a type from a place on; `at` is the place behind it."""

    def __init__(self, words, at, whole_name):
        self.words, self.at, self.whole_name = words, at, whole_name

    def word(self):
        return self.words[self.at] if self.at < len(self.words) else ""

    def read(self):
        while self.word() in ("&", "&&", "mut", "dyn", "impl", "const", "*", "ref") or self.word().startswith("'"):
            self.at += 1
        if self.word() in ("(", "["):
            open_ = self.word()
            self.at += 1
            held = self.listed(CLOSERS[open_])
            return held[0] if open_ == "(" and len(held) == 1 else Type(open_, held)
        name = self.word()
        self.at += 1
        while self.word() == "::" and self.at + 1 < len(self.words):
            self.at += 1
            if self.word() != "<":
                name = self.word()
                self.at += 1
        held = []
        if self.word() == "<":
            self.at += 1
            held = self.listed(">")
        elif self.word() == "(" and name in ("Fn", "FnMut", "FnOnce"):
            self.at += 1
            self.listed(")")
        if self.word() == "->" and name in ("Fn", "FnMut", "FnOnce"):
            self.at += 1
            self.read()
        while self.word() == "+":
            self.at += 1
            self.read()
        return held[0] if name in WRAPPERS and held else Type(self.whole_name(name), held)

    def listed(self, close):
        found = []
        while self.word() and self.word() != close:
            if self.word() in (",", ";", "="):
                self.at += 1
            elif re.match(r"'\w+$", self.word()):
                self.at += 1
            else:
                found.append(self.read())
        self.at += 1
        return found


class Source:
    """The words of a file that are code, the line of each, and the brackets."""

    def __init__(self, text):
        tokens = without_ghosts(tokens_of(text))
        self.words, self.lines = [word for word, _ in tokens], [line for _, line in tokens]
        self.pairs = pairs_of(self.words)


class Function:
    """A function or method, with the type or trait that it belongs to, and what it names."""

    def __init__(self, crate, path, line, name, owner, trait):
        self.crate, self.path, self.line, self.name, self.owner, self.trait = crate, path, line, name, owner, trait
        self.is_public, self.is_law, self.is_exported = False, False, False
        self.bounds, self.parameters, self.answer, self.body, self.head = {}, [], None, [], []

    def told(self):
        return f"{self.owner.plain()}::{self.name}" if self.owner else self.name


class Code:
    """The code of all crates but those of tests."""

    def __init__(self, folder=TOP):
        self.top = folder
        self.below, self.functions, self.named = {}, [], set()
        self.fields, self.variants, self.generics = {}, {}, {}
        self.traits, self.kinds = set(), collections.defaultdict(set)
        self.imports = collections.defaultdict(dict)
        self.handed = collections.defaultdict(dict)
        every = [(crate, path, Source(self.text(path))) for crate in self.crates() for path in self.files(crate)]
        for crate, path, source in every:
            self.read_names(crate, path, source)
        for crate, path, source in every:
            self.crate, self.path, self.words, self.lines, self.pairs = crate, path, source.words, source.lines, source.pairs
            self.read_items(0, len(self.words), None, None, {})
        self.free, self.methods = collections.defaultdict(list), collections.defaultdict(list)
        for it in self.functions:
            (self.methods if it.owner else self.free)[it.name].append(it)
        for it in self.functions:
            it.is_exported = it.is_public and self.is_handed_on(it)

    def crates(self):
        """The crates, and for each all below it."""
        with open(os.path.join(self.top, "crates.txt"), encoding="utf-8") as file:
            for line in file:
                name, _, below = line.split("#")[0].strip().partition(":")
                if name and not name.endswith("_tests"):
                    all_below = {name}
                    for it in below.split():
                        all_below |= self.below.get(it, set())
                    self.below[name] = all_below
        return list(self.below)

    def files(self, crate):
        """The files of a crate's modules, without those of tests."""
        source = os.path.join("crates", crate, "src")
        found = sorted(glob.glob(source + "/**/*.rt", root_dir=self.top, recursive=True))
        tests = []
        for path in found:
            text = self.text(path)
            here = os.path.dirname(path) if os.path.basename(path) in ("lib.rt", "main.rt") else path[:-3]
            tests += [os.path.join(here, it) for it in re.findall(r"#\[cfg\(test\)\]\s*(?:pub )?mod (\w+);", text)]
        return [path for path in found if not any(path == it + ".rt" or path.startswith(it + "/") for it in tests)]

    def text(self, path):
        with open(os.path.join(self.top, path), encoding="utf-8") as file:
            return file.read()

    # ## items

    def read_names(self, crate, path, source):
        """Takes the types and imports of a file, so that a type's name can be told from others' of that name."""
        words = source.words
        for at, word in enumerate(words):
            if word in ("struct", "enum", "trait", "type") and re.match("[A-Z]", words[at + 1]):
                self.named.add((crate, words[at + 1]))
            elif word == "use" and (at == 0 or words[at - 1] in (";", "}", "pub", "{")):
                until = words.index(";", at)
                self.read_import(crate, path, words[at + 1 : until], words[at - 1] == "pub")

    def read_import(self, crate, path, words, public):
        """Takes an import: which crate each name comes from, and under which name it stands there."""
        origin = words[0] if words[0] in self.below or words[0] in ("std", "core") else crate
        for name, other in re.findall(r"(\w+)(?: as (\w+))?(?= ,| }|$)", " ".join(words)):
            self.imports[path][other or name] = (origin, name)
            if public and os.path.basename(path) == "lib.rt":
                self.handed[crate][other or name] = (origin, name)

    def whole_name(self, path, name):
        """The name of a type with its crate, where it is one of the repository."""
        origin, name = self.imports[path].get(name, (path.split("/")[1], name))
        for _ in range(9):
            if (origin, name) in self.named:
                return f"{origin}.{name}"
            if name not in self.handed[origin] or self.handed[origin][name] == (origin, name):
                break
            origin, name = self.handed[origin][name]
        return name

    def type(self, words, at, path=None):
        """The type that begins at a place, and the place behind it."""
        reader = TypeReader(words, at, lambda name: self.whole_name(path or self.path, name))
        return reader.read(), reader.at

    def read_items(self, at, end, owner, trait, bounds):
        words = self.words
        while at < end:
            public = words[at] == "pub"
            if public:
                at += 1
                if words[at] == "(":
                    public, at = False, self.pairs[at] + 1
            word = words[at]
            if word == "fn":
                at = self.read_function(at, public, owner, trait, bounds)
            elif word in ("struct", "enum"):
                at = self.read_data(at)
            elif word in ("impl", "trait"):
                at = self.read_block(at, word)
            elif word in ("const", "async", "unsafe") and words[at + 1] == "fn":
                at += 1
            elif word in ("use", "mod", "const", "static", "type"):
                at = end_of_item(words, self.pairs, at)
            else:
                at += 1

    def read_bounds(self, at):
        """What names in `<..>` are bound by, and the place behind it."""
        bounds, depth = {}, 0
        if self.words[at] != "<":
            return bounds, at
        start = at
        while True:
            depth += (self.words[at] == "<") - (self.words[at] == ">")
            at += 1
            if depth == 0:
                break
        inner, name = self.words[start + 1 : at - 1], None
        for place, word in enumerate(inner):
            if inner[place + 1 : place + 2] == [":"]:
                name = word
                bounds[name] = []
            elif name and re.match(r"[A-Z]", word):
                bounds[name].append(self.whole_name(self.path, word))
        for word in re.findall(r"(?:^|, )(\w+)(?=,|$)", ", ".join(" ".join(inner).split(" , "))):
            bounds.setdefault(word, [])
        return bounds, at

    def read_block(self, at, kind):
        bounds, at = self.read_bounds(at + 1) if kind == "impl" else ({}, at + 1)
        first, at = self.type(self.words, at)
        trait, owner = None, first
        if kind == "impl" and self.words[at] == "for":
            trait, (owner, at) = first.name, self.type(self.words, at + 1)
            self.kinds[trait].add(owner.name)
        if kind == "trait":
            self.traits.add(first.name)
            trait = first.name
        while self.words[at] != "{":
            at += 1
        self.read_items(at + 1, self.pairs[at], owner, trait, bounds)
        return self.pairs[at] + 1

    def read_data(self, at):
        words, kind, name = self.words, self.words[at], f"{self.crate}.{self.words[at + 1]}"
        bounds, at = self.read_bounds(at + 2)
        self.generics[name] = [it for it in bounds if not it.startswith("'")]
        while words[at] not in ("{", "(", ";"):
            at += 1
        if words[at] == ";":
            self.fields.setdefault(name, {})
            return at + 1
        if kind == "struct":
            self.fields[name] = self.read_fields(at)
        else:
            place = at + 1
            self.fields.setdefault(name, {})
            while place < self.pairs[at]:
                variant = words[place]
                place += 1
                held = self.read_fields(place) if words[place] in ("(", "{") else {}
                self.variants[name, variant] = held
                place = self.pairs[place] + 1 if words[place] in ("(", "{") else place
                while place < self.pairs[at] and words[place] != ",":
                    place += 1
                place += 1
        return self.pairs[at] + 1

    def read_fields(self, at):
        """The types of fields by name, or by place where they have none."""
        found, end, place, words = {}, self.pairs[at], at + 1, self.words
        named = words[at] == "{"
        while place < end:
            if words[place] == "pub":
                place += 1
                place = self.pairs[place] + 1 if words[place] == "(" and named else place
            name = str(len(found))
            if named:
                name = words[place]
                place += 2
            found[name], place = self.type(words, place)
            while place < end and words[place] != ",":
                place += 1
            place += 1
        return found

    def read_function(self, at, public, owner, trait, bounds):
        words = self.words
        it = Function(self.crate, self.path, self.lines[at], words[at + 1], owner, trait)
        it.is_public = public or trait is not None
        start = at
        more, at = self.read_bounds(at + 2)
        it.bounds = {**bounds, **more}
        end, place, it.takes_self = self.pairs[at], at + 1, False
        while place < end:
            while words[place] in ("&", "mut") or words[place].startswith("'"):
                place += 1
            name = words[place]
            if words[place + 1] == ":":
                kind, until = self.type(words, place + 2)
                if words[place + 2 : place + 5].count("impl"):
                    it.bounds["impl " + name] = [kind.name]
                    kind = Type("impl " + name)
                it.parameters.append((name, kind))
                place = until
            elif name == "self":
                it.takes_self = True
            while place < end and words[place] != ",":
                place = self.pairs[place] if words[place] in CLOSERS else place
                place += 1
            place += 1
        at = end + 1
        if words[at] == "->":
            it.answer = self.type(words, at + 1)[0]
        while words[at] not in ("{", ";"):
            at = self.pairs[at] + 1 if words[at] in CLOSERS else at + 1
        it.head = words[start:at]
        until = self.pairs[at] if words[at] == "{" else at
        it.body = words[at + 1 : until]
        it.is_law = words[at] == "{" and it.answer is None and owner is None and not (it.body and it.parameters)
        self.functions.append(it)
        return until + 1

    def held_in(self, name):
        """The types of what stands in a type."""
        found = list(self.fields[name].values())
        for (owner, _), held in self.variants.items():
            found += held.values() if owner == name else []
        return found

    def is_handed_on(self, it):
        """Whether others can call a public function: its crate hands on its name, or that of its type."""
        if it.trait and it.trait not in self.traits:
            return False
        return it.crate == "tva" or (it.crate, it.owner.plain() if it.owner else it.name) in self.handed[it.crate].values()
