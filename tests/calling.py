"""How tests/reached finds which function calls which. A method is found by the type before its dot, where that can be
told from what stands in the same function; where it can't, all methods of that name in the crate and in those below it
count as called. A method of a trait counts as called for each type that what is reached names, and a method of one of
the system's traits for each such type in any case."""
import collections
import re

from items import CLOSERS, Type, pairs_of

# types of the system that hold others
HOLDERS = {"Vec", "Option", "Result", "Iter", "[", "HeapCircularBuffer", "ArrayVec", "VecDeque"}
# what methods of the system's types give: what they hold, a choice of it, or the same again
HELD = {"unwrap", "unwrap_or", "unwrap_or_default", "unwrap_or_else", "expect", "swap_remove", "remove"}
CHOICE = {
    *("first", "last", "get", "get_mut", "first_mut", "last_mut", "front", "front_mut", "back", "back_mut"),
    *("pop", "pop_front", "pop_back", "next", "nth", "ok"),
}
SAME = {
    *("as_ref", "as_mut", "as_slice", "as_mut_slice", "take", "skip", "rev", "copied", "cloned"),
    *("iter", "iter_mut", "into_iter", "replace", "clone", "drain"),
}
KEYWORDS = {"match", "if", "loop", "while", "for", "unsafe", "return", "break", "in", "let", "move", "mut", "else"}
# what types have by their derived traits
DERIVED = {"clone", "eq", "ne", "cmp", "partial_cmp", "lt", "le", "gt", "ge", "hash", "fmt", "drop", "into", "from"}


class Caller:
    """Finds what a function names: functions, methods, and types."""

    def __init__(self, code, it):
        self.code, self.it, self.words = code, it, it.body
        self.pairs = pairs_of(self.words)
        self.types = collections.defaultdict(list)
        self.known = {}
        for name, kind in it.parameters:
            self.types[name].append(kind)
        if it.owner:
            self.types["self"].append(it.owner)
        self.bind()

    # ## what names stand for

    def bind(self):
        words = self.words
        for at, word in enumerate(words):
            if word == "let":
                self.bind_let(at)
            elif word == "for" and at and "in" in words[at : at + 12]:
                middle = words.index("in", at)
                given = self.type_at(middle + 1)[0]
                held = given.held[-1] if given and given.held and given.name in HOLDERS else None
                self.bind_pattern(at + 1, middle, held)
            elif word == "match":
                self.bind_match(at)
            elif word == "|" and (words[at - 1] in ("(", ",", "=", "move") or at == 0):
                self.bind_closure(at)

    def bind_closure(self, at):
        end = at + 1
        while end < len(self.words) and self.words[end] != "|":
            end += 1
        place = at + 1
        while place < end:
            name = self.words[place]
            if self.words[place + 1] == ":":
                kind, place = self.code.type(self.words, place + 2, self.it.path)
                self.types[name].append(kind)
            elif re.match(r"[a-z_]\w*$", name) and name not in ("mut", "ref"):
                self.types[name].append(None)
            place += 1

    def bind_let(self, at):
        words, end = self.words, at + 1
        while words[end] not in ("=", ";") and words[end] != ":":
            end = self.pairs[end] + 1 if words[end] in CLOSERS else end + 1
        if words[end] == ":":
            self.bind_pattern(at + 1, end, self.code.type(words, end + 1, self.it.path)[0])
        elif words[end] == "=":
            self.bind_pattern(at + 1, end, self.value_at(end + 1))

    def bind_match(self, at):
        words, body = self.words, at + 1
        while body < len(words) and words[body] != "{":
            body = self.pairs[body] + 1 if words[body] in "([" else body + 1
        given = self.value_at(at + 1)
        place, end = body + 1, self.pairs.get(body, len(words))
        while place < end:
            arrow = place
            while arrow < end and words[arrow] != "=>":
                arrow = self.pairs[arrow] + 1 if words[arrow] in CLOSERS else arrow + 1
            self.bind_pattern(place, words.index("if", place, arrow) if "if" in words[place:arrow] else arrow, given)
            place = arrow + 1
            if place < end and words[place] == "{":
                place = self.pairs[place] + 1
            else:
                while place < end and words[place] != ",":
                    place = self.pairs[place] + 1 if words[place] in CLOSERS else place + 1
            if place < end and words[place] == ",":
                place += 1

    def bind_pattern(self, at, end, given):
        """Gives the names of a pattern the types of what they stand for."""
        words = self.words
        while at < end and words[at] in ("&", "mut", "ref", "|"):
            at += 1
        if at >= end:
            return
        if "|" in words[at:end] and words[at] not in CLOSERS:
            middle = words.index("|", at, end)
            self.bind_pattern(middle + 1, end, given)
            end = middle
        if words[at] in ("(", "["):
            parts = given.held if given and given.name == "(" else []
            if given and given.held and given.name in HOLDERS:
                parts = [given.held[0]] * self.words[at : self.pairs[at]].count(",") + [given.held[0]]
            self.bind_parts(at, dict(enumerate(parts)))
            return
        last = at
        while last + 2 < end and words[last + 1] == "::":
            last += 2
        name, follows = words[last], words[last + 1] if last + 1 < end else ""
        if follows in ("(", "{"):
            owner = self.type_named(words[last - 2]) if last > at else None
            parts = self.parts_of(owner, name, given)
            self.bind_parts(last + 1, parts)
        elif last == at and re.match(r"[a-z_]\w*$", name) and name not in ("true", "false"):
            self.types[name].append(given)

    def parts_of(self, owner, name, given):
        """The types of what a pattern with a name has in its brackets."""
        if name in ("Some", "Ok"):
            return {0: given.held[0]} if given and given.name in ("Option", "Result") and given.held else {}
        if name == "Err":
            return {0: given.held[1]} if given and given.name == "Result" and len(given.held) > 1 else {}
        held = self.code.variants.get((owner, name)) if owner else self.code.fields.get(self.type_named(name))
        places = self.places_of(given)
        return {int(it) if it.isdigit() else it: kind.put(places) for it, kind in (held or {}).items()}

    def bind_parts(self, open_, parts):
        place, end, count = open_ + 1, self.pairs[open_], 0
        while place < end:
            stop = place
            while stop < end and self.words[stop] != ",":
                stop = self.pairs[stop] + 1 if self.words[stop] in CLOSERS else stop + 1
            if self.words[open_] == "{":
                name = self.words[place]
                begin = place + 2 if self.words[place + 1] == ":" else place
                self.bind_pattern(begin, stop, parts.get(name))
            else:
                self.bind_pattern(place, stop, parts.get(count))
            count += 1
            place = stop + 1

    def type_named(self, name):
        """The whole name of a type that this function calls so."""
        return self.it.owner.name if name == "Self" and self.it.owner else self.code.whole_name(self.it.path, name)

    def places_of(self, given):
        """What the names in the brackets of a type stand for in one such type."""
        return dict(zip(self.code.generics.get(given.name, []), given.held)) if given else {}

    # ## types of values

    def value_at(self, at):
        """The type of the value that begins at a place, where it is but a chain of fields and calls, or nothing."""
        kind, end = self.type_at(at)
        follows = self.words[end] if end < len(self.words) else ";"
        return kind if follows in (";", "{", ",", ")", "else", "}") else None

    def type_at(self, at):
        """The type of the chain that begins at a place, and the place behind it."""
        while at < len(self.words) and self.words[at] in ("&", "mut", "*", "move", "&&"):
            at += 1
        if at not in self.known:
            self.known[at] = (None, at + 1)
            self.known[at] = self.follow(at, len(self.words))
        return self.known[at]

    def follow(self, at, end):
        """The type of the chain that begins at a place, as far as another one, and the place behind it."""
        if at >= end:
            return None, at
        kind, at = self.root(at)
        while at < end:
            word = self.words[at]
            if word == "?":
                if kind and kind.name in ("Result", "Option"):
                    kind = kind.held[0] if kind.held else None
                at += 1
            elif word == "[":
                kind = kind.held[0] if kind and kind.name in HOLDERS and kind.held else None
                at = self.pairs[at] + 1
            elif word == "." and at + 1 < end:
                name, at = self.words[at + 1], at + 2
                if self.words[at : at + 2] == ["::", "<"]:
                    at = self.behind_brackets(at + 1)
                if at < end and self.words[at] == "(":
                    kind, at = self.answer_of(kind, name), self.pairs[at] + 1
                else:
                    kind = self.field_of(kind, name)
            else:
                break
        return kind, at

    def behind_brackets(self, at):
        depth = 0
        while True:
            depth += (self.words[at] == "<") - (self.words[at] == ">")
            at += 1
            if depth == 0:
                return at

    def root(self, at):
        words, word = self.words, self.words[at]
        if word == "(":
            kind, end = self.type_at(at + 1)
            return (kind if end == self.pairs[at] else None), self.pairs[at] + 1
        if not re.match(r"[A-Za-z_]", word):
            return None, self.pairs[at] + 1 if word in CLOSERS else at + 1
        if word in KEYWORDS:
            return None, at + 1
        path, end = [word], at + 1
        while words[end : end + 1] == ["::"]:
            if words[end + 1] == "<":
                end = self.behind_brackets(end + 1)
            else:
                path.append(words[end + 1])
                end += 2
        if words[end : end + 1] == ["("]:
            return self.answer_of_path(path, end), self.pairs[end] + 1
        if words[end : end + 1] == ["!"] and words[end + 1 : end + 2] in (["("], ["["], ["{"]):
            return None, self.pairs[end + 1] + 1
        if words[end : end + 1] == ["{"] and len(path) == 1 and self.type_named(path[0]) in self.code.fields:
            return Type(self.type_named(path[0])), self.pairs[end] + 1
        if len(path) == 1 and path[0] in self.types:
            return self.told_type(path[0]), end
        return None, end

    def told_type(self, name):
        """The type of a name, where all that it stands for in the function have one."""
        kinds = self.types[name]
        names = {kind.name if kind else None for kind in kinds}
        return kinds[0] if len(names) == 1 else None

    def answer_of_path(self, path, open_):
        if path == ["Ok"] or path == ["Some"]:
            return Type("Result" if path == ["Ok"] else "Option", [self.type_at(open_ + 1)[0]])
        if len(path) > 1 and path[-2] == "Vec":
            return Type("Vec")
        found = self.functions_of(path)
        answers = [self.answer_in(it, None) for it in found]
        if not found and self.type_named(path[-1]) in self.code.fields:
            return Type(self.type_named(path[-1]))
        if not found and len(path) > 1 and (self.type_named(path[-2]), path[-1]) in self.code.variants:
            return Type(self.type_named(path[-2]))
        return self.one_of(answers)

    def one_of(self, answers):
        names = {it.name if it else None for it in answers}
        return answers[0] if len(names) == 1 else None

    def answer_in(self, it, receiver):
        """The type that a function answers, of a value of a type."""
        if it.answer is None:
            return None
        places = self.places_of(receiver)
        if receiver or it.owner:
            places = {**places, "Self": receiver or it.owner}
        return it.answer.put(places)

    def answer_of(self, kind, name):
        found = self.methods_of(kind, name)
        if found:
            return self.one_of([self.answer_in(it, kind) for it in found])
        if kind is None or kind.name not in HOLDERS:
            return None
        held = kind.held[0] if kind.held else None
        if name in HELD:
            return held
        if name in CHOICE:
            return Type("Option", [held])
        if name in SAME:
            return kind
        if name == "enumerate":
            return Type("Iter", [Type("(", [Type("usize"), held])])
        if name in ("ok_or", "ok_or_else"):
            return Type("Result", [held])
        return Type("usize") if name == "len" else None

    def field_of(self, kind, name):
        if kind is None:
            return None
        if kind.name == "(" and name.isdigit():
            return kind.held[int(name)] if int(name) < len(kind.held) else None
        found = self.code.fields.get(kind.name, {}).get(name)
        return found.put(self.places_of(kind)) if found else None

    # ## what is called

    def methods_of(self, kind, name):
        """The methods that a call may be of, by the type before its dot."""
        code, all_ = self.code, self.code.methods.get(name, [])
        near = [it for it in all_ if it.takes_self and it.crate in code.below[self.it.crate]]
        traits = self.it.bounds.get(kind.name, []) if kind else []
        if kind and (traits or kind.name in code.traits):
            return [it for it in all_ if it.trait in [*traits, kind.name]]
        if kind is None or kind.name in self.it.bounds:
            return near
        own = [it for it in near if it.owner.name == kind.name]
        if own or kind.name in code.fields and name in DERIVED:
            return own
        return near if kind.name in code.fields else [it for it in near if it.trait in code.traits]

    def functions_of(self, path):
        """The functions that a path may be."""
        code, it, name = self.code, self.it, path[-1]
        if len(path) > 1:
            owner = self.type_named(path[-2])
            if owner in it.bounds:
                return [f for f in code.methods.get(name, []) if f.trait in it.bounds[owner]]
            found = [f for f in code.methods.get(name, []) if f.crate in code.below[it.crate] and owner in (f.owner.name, f.trait)]
            if found or re.match("[A-Z]", path[-2]):
                return found
            return [f for f in code.free.get(name, []) if f.crate == path[-2] or f.crate == it.crate and path[-2] in f.path]
        here = [f for f in code.free.get(name, []) if f.path == it.path]
        if here:
            return here
        if name in code.imports[it.path]:
            origin, other = code.imports[it.path][name]
            while code.handed[origin].get(other, (origin, other)) != (origin, other):
                origin, other = code.handed[origin][other]
            return [f for f in code.free.get(other, []) if f.crate == origin]
        return []

    def calls(self):
        """The functions that this one names."""
        found, words, at = [], self.words, 0
        while at < len(words):
            word = words[at]
            if word == "." and at + 1 < len(words) and words[at + 1] in self.code.methods and self.is_call(at + 2):
                found += self.methods_of(self.before(at), words[at + 1])
                at += 2
                continue
            if re.match(r"[A-Za-z_]", word) and (at == 0 or words[at - 1] not in (".", "::")):
                path, end = [word], at + 1
                while words[end : end + 1] == ["::"] and end + 1 < len(words):
                    if words[end + 1] == "<":
                        end = self.behind_brackets(end + 1)
                    else:
                        path.append(words[end + 1])
                        end += 2
                if len(path) > 1 or word not in self.types or words[end : end + 1] == ["("]:
                    found += self.functions_of(path)
            at += 1
        return found

    def is_call(self, at):
        return self.words[at : at + 1] == ["("] or self.words[at : at + 2] == ["::", "<"]

    def before(self, at):
        """The type of what stands before a dot."""
        words, place = self.words, at - 1
        while place > 0:
            word = words[place]
            if word in (")", "]", "?"):
                begin = place if word == "?" else self.pairs[place]
                if not re.match(r"[\w)\]?>]", words[begin - 1]) or words[begin - 1] in KEYWORDS:
                    place = begin
                    break
                place = begin - 1
            elif word == ">":
                depth = 0
                while depth or words[place] == ">":
                    depth += (words[place] == ">") - (words[place] == "<")
                    place -= 1
                place -= words[place] == "::"
            elif word == "}":
                return None
            elif words[place - 1] in (".", "::"):
                place -= 2
            else:
                break
        return self.follow(place, at)[0]


class Reach:
    """What is reached from `main`."""

    def __init__(self, code):
        self.code, self.found, self.types = code, set(), set()
        self.waiting, self.queue = [], [it for it in code.free["main"] if it.crate == "tva"]
        while self.queue:
            while self.queue:
                self.take(self.queue.pop())
            self.queue = [it for it in self.of_types() if it not in self.found]

    def take(self, it):
        if it in self.found:
            return
        if it.trait and self.code.kinds.get(it.trait) and it.owner.name != it.trait and not self.is_alive(it.owner.name):
            self.waiting.append(it)
            return
        self.found.add(it)
        self.name_types(it.path, it.head + it.body)
        if it.owner:
            self.name_type(it.owner)
        if it.owner and it.owner.name == it.trait:
            self.queue += [other for other in self.code.methods[it.name] if other.trait == it.trait]
        self.queue += Caller(self.code, it).calls()

    def is_alive(self, name):
        return name in self.types or name not in self.code.fields

    def name_types(self, path, words):
        for word in words:
            if re.match("[A-Z]", word):
                self.name_type(Type(self.code.whole_name(path, word)))

    def name_type(self, kind):
        """Takes a type, and those of its fields."""
        if kind.name in self.code.fields and kind.name not in self.types:
            self.types.add(kind.name)
            for other in self.code.held_in(kind.name):
                self.name_type(other)
        for other in kind.held:
            if other:
                self.name_type(other)

    def of_types(self):
        """Methods of traits that wait for their types, and all of the system's traits at types that are named."""
        ready = [it for it in self.waiting if self.is_alive(it.owner.name)]
        self.waiting = [it for it in self.waiting if not self.is_alive(it.owner.name)]
        outer = [it for it in self.code.functions if it.trait and it.trait not in self.code.traits and self.is_alive(it.owner.name)]
        return ready + outer
