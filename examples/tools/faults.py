"""What a fault of a configuration says in plain words, and where it stands: of the first one, which the program tells, or
of any other."""
import difflib
import re
import tomllib

from places import TABLES, Places, known_keys


ROW = ["time", "node", "kind", "src", "dst", "payload", "shim"]
OWN = ["send", "file", "tick"]
KINDS = [*OWN, "raw", "list", "renew", "nonce"]
SHIMS = {
    "send": "empty",
    "file": "the size of the file, from 1 to 100,000,000 bytes",
    "tick": "empty",
    "raw": "at most 400 bytes in hexadecimal, or nothing",
    "list": "NONCE/N/T/POINTER/ITEMS, with items joined by `;`, each sixteen hexadecimal digits or ROUTER@SECOND",
    "nonce": "a nonce of twelve hexadecimal digits",
}
SHIMS["renew"] = SHIMS["list"]
PAYLOADS = {"file": "number of bytes of a segment, from 1 to 1,500", "tick": "payload of a tick, which is 0"}


def meant(word, known, quote="`"):
    """The nearest of some known words, as a question."""
    near = difflib.get_close_matches(str(word), known, 1, 0.5) or [it for it in known if it.lower() == str(word).lower()]
    return f"; do you mean {quote}{near[0]}{quote}?" if near and near[0] != word else ""


class Configuration:
    """The text of a configuration, its tables as far as they can be read, and what is known of keys."""

    def __init__(self, data):
        self.bytes = data
        self.text = self.bytes.decode("utf-8-sig", errors="replace")
        self.places, self.known, self.tables, self.fault = Places(self.text), known_keys(), {}, None
        try:
            self.tables = tomllib.loads(self.text)
        except (ValueError, RecursionError) as fault:
            self.fault = str(fault)

    def syntax(self):
        """Where a text is no TOML that the program takes, and why."""
        try:
            self.bytes.decode()
        except UnicodeDecodeError as fault:
            return self.bytes.count(b"\n", 0, fault.start) + 1, "this is no UTF-8"
        if self.fault:
            line = re.search(r"line (\d+)", self.fault)
            return int(line.group(1)) if line else self.text.count("\n") + 1, f"this is no TOML: {self.fault}"
        for number in re.finditer(r"[+-]?\b[0-9][0-9_]{17,}\b|\b0[xob][0-9a-fA-F_]{15,}\b", self.text):
            if not -(1 << 63) <= int(number.group(), 0 if number.group().startswith("0") else 10) < 1 << 63:
                return self.places.line(number.start()), f"{number.group()} is more than 64 bits hold"
        return 1, "this is no TOML, or a number in it is more than 64 bits hold"

    def entries(self, table):
        told = self.tables.get(table, [])
        return told if isinstance(told, list) else []

    def entry(self, table, number):
        if table == "top":
            return self.tables
        told = self.entries(table)
        return told[number] if number < len(told) and isinstance(told[number], dict) else {}

    def names(self, *tables):
        return [str(it.get("name")) for table in tables for it in self.entries(table) if isinstance(it, dict)]

    def earlier(self, table, number, key):
        """The line of the first earlier entry that has the same value of a key."""
        for other in range(number):
            if self.entry(table, other).get(key) == self.entry(table, number).get(key):
                return self.places.line(self.places.of(table, other, key))
        return None


def said_unknown(it, table, entry, key):
    known = list(it.known[table])
    strange = [word for word in it.places.keys_of(table, entry) if word not in known]
    strange += [word for word in it.entry(table, entry) if word not in known and word not in strange]
    if table == "top":
        strange += [word for word in it.places.counts if word not in (*known, *strange)]
    if not strange:
        return f"a key isn't known here; known are {', '.join(known)}", None
    return f"`{strange[0]}` isn't known here" + (meant(strange[0], known) or f"; known are {', '.join(known)}"), strange[0]


def said_value(it, table, entry, key):
    told = it.entry(table, entry).get(key)
    version = it.tables.get("version", 1)
    wanted = it.known[table][key].of(version)
    known = re.findall(r"\b(deny|client|server)\b", wanted) if key == "policy" else []
    kind = "" if not isinstance(told, bool) else ": true and false aren't numbers"
    if isinstance(told, str) and told.replace("_", "").isdigit() and key not in ("name", "master", "nonce"):
        kind = ": numbers stand without quotes"
    return f"`{key}` isn't what it must be ({wanted}){kind}{meant(told, known)}"


def said_retry(it, entry):
    host = it.entry("host", entry)
    least = 1_000_000_000 + host.get("margin_ns", 1_000_000)
    return f"`retry_ns` is {host.get('retry_ns', 2_000_000_000)}, and must be at least a second more than the margin: {least}"


def said_ends(it, entry, key):
    told, names = it.entry("link", entry).get(key), it.names("router", "host")
    if key == "to" and told == it.entry("link", entry).get("from"):
        return f"a link leads from `{told}` to itself"
    return f"there is no node `{told}`{meant(told, names)}"


def said_uplink(it, entry):
    name = it.entry("host", entry).get("name")
    count = sum(link.get("from") == name for link in it.entries("link"))
    return f"host `{name}` has {count} links out, and must have exactly one: `from = \"{name}\"`"


def said_via(it, table, entry):
    route = it.entry(table, entry)
    via, router = route.get("via"), route.get("router")
    near = [link.get("to") for link in it.entries("link") if link.get("from") == router]
    return f"router `{router}` has no link to `{via}`{meant(via, near) or '; it has links to ' + (', '.join(map(str, near)) or 'nobody')}"


def said_prefix(it, table, entry):
    told, router = it.entry(table, entry).get("prefix"), it.entry(table, entry).get("router")
    if table == "route":
        return f"router `{router}` has a route for {told} before"
    known = [route.get("prefix") for route in it.entries("route") if route.get("router") == router]
    return f"router `{router}` has no route for {told}{meant(told, known) or '; it has routes for ' + (', '.join(map(str, known)) or 'nothing')}"


def said_times(it, table, entry):
    told, ours = it.entry(table, entry).get("at_ns"), ("router",) if table == "restart" else ("router", "prefix")
    alike = [other for other in range(entry) if all(it.entry(table, other).get(key) == it.entry(table, entry).get(key) for key in ours)]
    before = max(alike, key=lambda other: it.entry(table, other).get("at_ns"), default=None)
    line = "" if before is None else f": {it.entry(table, before).get('at_ns')} stands in line {it.places.line(it.places.of(table, before, 'at_ns'))}"
    return f"`at_ns` is {told}, and the times of {'a router' if table == 'restart' else 'a prefix'} must rise{line}"


def said_of(it, rule, table, entry, key):
    """What is wrong, in words, and the key at which it is."""
    if rule == "unknown":
        return said_unknown(it, table, entry, key)
    earlier = it.earlier(table, entry, key) if table in TABLES else None
    line = f", which line {earlier} has" if earlier else ""
    told = it.entry(table, entry).get(key)
    said = {
        "syntax": lambda: it.syntax()[1],
        "missing": lambda: f"`{key}` is missing ({it.known[table][key].of(it.tables.get('version', 1))})",
        "value": lambda: said_value(it, table, entry, key),
        "count": lambda: f"there are too many: {it.known['top']['router'].said}",
        "names": lambda: f"`{told}` is the name of an earlier node" + line,
        "addresses": lambda: f"{told} is the address of an earlier host" + line,
        "retry": lambda: said_retry(it, entry),
        "ends": lambda: said_ends(it, entry, key),
        "pair": lambda: f"there is a link from `{it.entry(table, entry).get('from')}` to `{told}` before",
        "uplink": lambda: said_uplink(it, entry),
        "owner": lambda: f"there is no router `{told}`{meant(told, it.names('router'))}",
        "via": lambda: said_via(it, table, entry),
        "prefix": lambda: said_prefix(it, table, entry),
        "times": lambda: said_times(it, table, entry),
        "slots": lambda: "the slots of all routers together are more than 1,000,000",
        "rings": lambda: "all places of queues together are more than 1,000,000: fewer queues, or shorter rings",
    }
    return said[rule]() if rule in said else f"{rule}", None if key == "-" else key


def placed(it, rule, table, entry, key):
    """The line of a fault, what is wrong in words, and the text of that line."""
    text, at = said_of(it, rule, table, entry, key)
    place = it.places.of(table, entry, at)
    if table == "top" and (table, entry, at) not in it.places.keys:
        place = it.places.of(at, 0)  # a table that isn't known
    line = it.places.line(place)
    shown = it.places.line_text(place) if (table, entry, at) in it.places.keys or place or table != "top" else ""
    if rule == "syntax":
        line, text = it.syntax()
        shown = (it.text.split("\n") + [""])[line - 1].strip()
    name = it.entry(table, entry).get("name") if table in ("router", "host") else None
    where = "" if table == "top" else f"{table} {name or entry}: "
    return line, where + text, shown


# ## rows


def said_list(it, shim):
    """What is wrong with a list or a renewal, part by part, if that can be told."""
    if shim.count("/") < 4:
        return None
    nonce, units, seconds, pointer, items = shim.split("/", 4)
    routers, items = it.names("router"), items.split(";") if items else []
    if not re.fullmatch("[0-9a-fA-F]{12}", nonce):
        return f"`{nonce}` is no nonce of twelve hexadecimal digits"
    for name, number, most in (("N", units, 1_048_575), ("T", seconds, 127)):
        if not (number.isascii() and number.isdigit() and int(number) <= most):
            return f"{name} is `{number}`, and must be a number up to {most:,}"
    if len(items) > 16:
        return f"there are {len(items)} items, and may be 16"
    if not (pointer.isascii() and pointer.isdigit() and int(pointer) <= len(items)):
        return f"the pointer is `{pointer}`, and there are {len(items)} items: it is a number up to that"
    for item in items:
        name, at, second = item.partition("@")
        if at and name not in routers:
            return f"`{item}`: there is no router `{name}`{meant(name, routers)}"
        if at and not (second.isascii() and second.isdigit() and int(second) <= 2_000_000):
            return f"`{item}`: a second is a number up to 2,000,000"
        if not at and not re.fullmatch("[0-9a-fA-F]{16}", item):
            return f"`{item}` is neither a capability of sixteen hexadecimal digits nor ROUTER@SECOND"
    return None


def said_of_row(it, rule, fields, before):
    """What is wrong with a record of a trace, of which the time of the one before is told."""
    told = fields[ROW.index(rule)] if rule in ROW and len(fields) == 7 else ""
    whole = told
    told = told if len(told) <= 60 and told.isprintable() else told[:60].encode("unicode_escape").decode() + ".."
    kind = fields[2] if len(fields) == 7 else ""
    at_host = len(fields) == 7 and fields[1] in it.names("host")
    texts = {
        "header": lambda: "the first record must be " + ",".join(ROW),
        "rows": lambda: "there are more than 1,000,000 rows",
        "fields": lambda: f"a row has seven fields ({','.join(ROW)}), and this one has {len(fields)}",
        "time": lambda: f"`{told}` is no time in nanoseconds up to the horizon ({it.tables.get('horizon_ns', '?')})",
        "order": lambda: f"its time {fields[0]} comes before the {before} of the record before it",
        "node": lambda: f"there is no node `{told}`{meant(told, it.names('router', 'host'))}",
        "kind": lambda: f"`{told}` is for hosts, and `{fields[1]}` is a router" if told in OWN and not at_host else "a host sends 65,536 files at most" if told == "file" else f"there is no kind `{told}`{meant(told, KINDS) or '; the kinds are ' + ', '.join(KINDS)}",
        "src": lambda: f"`{told}`: " + (f"a row of the kind {kind} has no source" if kind in OWN else "no address, which is four numbers joined by dots"),
        "dst": lambda: f"`{told}` is no address, which is four numbers joined by dots",
        "payload": lambda: f"`{told}` is no " + PAYLOADS.get(kind, "number of bytes up to 1,600"),
        "shim": lambda: kind in ("list", "renew") and said_list(it, whole) or f"`{told}` isn't what it must be in a row of the kind {kind}: {SHIMS.get(kind, '?')}",
    }
    return texts[rule]() if rule in texts else rule
