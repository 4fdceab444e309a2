"""Reads TOML 1.1. Python's library reads TOML 1.0, so what 1.1 adds is first written as 1.0 has it."""
import math
import re
import tomllib

DEEP_MOST = 80
INTEGERS = range(-(1 << 63), 1 << 63)

# strings with escapes and without; the marks of inline tables with the lines and comments around them; brackets; all else
GAP = r"(?:[ \t\n]|#[^\x00-\x08\x0a-\x1f\x7f]*+\n)*+"
TOKEN = re.compile(
    r'(?P<escaped>"""(?:\\.|[^\\])*?"{3,5}|"(?:\\.|[^"\\\n])*")'
    r"|(?P<literal>'''.*?'{3,5}|'[^'\n]*')"
    rf"|(?P<before>{GAP})(?P<mark>,{GAP}\}}|[{{}},])(?P<after>{GAP})"
    rf"|(?P<bracket>[\[\]])|(?P<end>=|\n{GAP})|(?P<comment>#[^\n]*)|(?P<other>[^\"'#\[\]{{}},=\n]+|.)",
    re.DOTALL,
)


def old_escape(match):
    """1.1 adds `\\e`, and `\\x` with two digits."""
    return {"e": r"\u001b", "x": rf"\u00{match[1][1:]}"}.get(match[1][0], match[0])


def old_times(text):
    """1.1 has times without seconds. The library lacks the sixtieth second too, and the year 0."""
    text = re.sub(r"(?<![\d:+-])(\d\d:\d\d)(?![\d:])", r"\1:00", text)
    text = re.sub(r"(\d\d:\d\d):60", r"\1:59", text)
    return re.sub(r"(?<![\w-])0000(-\d\d-\d\d)", r"2000\1", text)


def old_mark(match, is_inside, is_inside_then, last):
    """1.1 has ends of lines and comments around the marks of an inline table, and a comma before its end."""
    if match["mark"] == "{":
        return match["before"] + "{"
    if not is_inside or match["mark"] != "," and match["mark"] != "}" and last in ("{", ","):
        return match[0]
    return match["mark"][-1] + ("" if is_inside_then else match["after"])


def as_before(text):
    """A text of 1.1 as one of 1.0. Brackets and the parts of keys go no deeper than they may."""
    written, opened, dots = [""], [], 0
    for match in TOKEN.finditer(text.replace("\r\n", "\n")):
        token, was_inside = match[0], opened[-1:] == ["{"]
        bracket = match["bracket"] or (match["mark"] or "")[-1:]
        if bracket in ("[", "{"):
            opened.append(bracket)
        elif bracket in ("]", "}"):
            opened = opened[:-1]
        if match["escaped"]:
            token = re.sub(r"\\(x[0-9A-Fa-f]{2}|[^x])", old_escape, token, flags=re.DOTALL)
        elif match["mark"]:
            token = old_mark(match, was_inside, opened[-1:] == ["{"], written[-1][-1:])
        elif match["other"] and (":" in token or "0000-" in token):
            token = old_times(token)
        dots = 0 if bracket or match["end"] else dots + (match["other"] or "").count(".")
        if len(opened) > DEEP_MOST or dots >= DEEP_MOST:
            raise ValueError("too deep")
        written.append(token)
    return "".join(written)


def number(text):
    if math.isinf(float(text)) and "inf" not in text:
        raise ValueError("too large")
    return float(text)


def integers_in(value):
    if isinstance(value, dict):
        value = list(value.values())
    if isinstance(value, list):
        return [it for part in value for it in integers_in(part)]
    return [value] if type(value) is int else []


def read(text):
    """The table of a text. Raises ValueError where there is none."""
    told = tomllib.loads(as_before(text), parse_float=number)
    if any(it not in INTEGERS for it in integers_in(told)):
        raise ValueError("an integer of more than 64 bits")
    return told
