"""Rule files made at random: queries in each style of YAML, with the place of each of their characters."""

import re
from typing import NamedTuple

STYLES = (
    *("plain", "plain folded", "single", "single folded", "double", "double folded"),
    *("literal", "literal farther in", "folded"),
)
UNPRINTABLE = re.compile("[^\t\n\x20-\x7e\xa0-\u2027\u202a-\ud7ff\ue000-\ufefe\uff00-\ufffd\U00010000-\U0010ffff]")
# A space between two such characters may be a line end.
FOLDABLE = re.compile(r"(?<=[\w()]) (?=[A-Za-z0-9_(])", re.ASCII)


class Written(NamedTuple):
    """A scalar, and where each character of its value begins in it."""

    text: str
    offsets: list


def write(generator, query, style, indent):
    """The query in a style, its lines indented so far at least; or nothing, where it cannot be written so."""
    block = style in ("literal", "literal farther in", "folded")
    if not style.startswith("double") and UNPRINTABLE.search(query):
        return None
    if "\n" in query and not style.startswith(("double", "literal")):
        return None
    if style.startswith("plain") and not is_plain(query) or style == "folded" and query[:1] in ("", " ", "\t"):
        return None
    if block and not query.strip():
        return None
    pieces = list(query)
    if style.startswith("single"):
        pieces = ["''" if piece == "'" else piece for piece in pieces]
    if style.startswith("double"):
        pieces = [escaped(generator, piece) for piece in pieces]
    if "folded" in style:
        for found in FOLDABLE.finditer(query):
            if generator.random() < 0.4:
                pieces[found.start()] = line_end(generator, indent, style)
    if block:
        return write_block(generator, pieces, ">" if style == "folded" else "|", indent, style == "literal farther in")
    quote = {"single": "'", "double": '"'}.get(style.split()[0], "")
    return joined(quote, pieces, quote)


def write_block(generator, pieces, sign, indent, is_farther):
    depth = generator.randrange(1, 6) if is_farther else 2
    chomping = generator.choice(("", "-", "+"))
    has_number = pieces[0] in " \t\n" or generator.random() < 0.3
    lines = " " * (indent - 2 + depth)
    header = "".join(generator.sample([chomping, str(depth) if has_number else ""], 2))
    pieces = ["\n" + lines if piece[0] == "\n" else piece for piece in pieces]
    return joined(f"{sign}{header}{generator.choice(('', '  # in the header'))}\n{lines}", pieces, "")


def line_end(generator, indent, style):
    """What a space may be written as."""
    if style == "folded":
        return "\n"
    spaces = generator.choice(("", "  ")) + "\n" + " " * generator.randrange(indent, indent + 4)
    return generator.choice((spaces, "\\" + spaces.lstrip(" ") + "\\ ")) if style == "double folded" else spaces


def escaped(generator, character):
    """A character as a double-quoted scalar may have it."""
    code = ord(character)
    names = {"\n": "\\n", "\t": "\\t", '"': '\\"', "\\": "\\\\", "\x00": "\\0", "/": "\\/", "\xa0": "\\_", "\x85": "\\N"}
    if character in names and (character not in "/\t\xa0" or generator.random() < 0.5):
        return names[character]
    if UNPRINTABLE.match(character) or generator.random() < 0.02:
        forms = [f"\\U{code:08X}"] + [f"\\u{code:04x}"] * (code < 0x10000) + [f"\\x{code:02x}"] * (code < 0x100)
        return generator.choice(forms)
    return character


def joined(before, pieces, after):
    offsets, at = [], len(before)
    for piece in pieces:
        offsets.append(at)
        at += len(piece)
    return Written("".join([before, *pieces, after]), offsets)


def is_plain(query):
    begins = re.match(r"[A-Za-z0-9_(.]", query)
    null = query.lower() in ("null", "~")
    return begins and not null and not re.search(r": | #|[: ]\Z|\t", query)


def rule_file(generator, queries):
    """A rule file with these queries, and what is before, between and after them."""
    parts = [
        f"# Made at random.\ngroups:\n{generator.choice(('', '  # the only one'))}\n- name: random   # its name\n  rules:\n"
    ]
    text = parts[0]
    for number, query in enumerate(queries):
        if generator.random() < 0.15:
            scalar = write(generator, query, generator.choice(("single", "double", "double folded")), 6)
            if scalar:
                before, end = f"  - {{record: r{number}, expr: ", f",  labels: {{a{number}: b}}}}\n"
                text += before + scalar.text + end
                parts += [before, end.rstrip("\n")]
                continue
        before = f"  - record: r{number}\n" + generator.choice(("", f"    # expr: {number}\n"))
        before += "    expr:" + generator.choice((" ", "   ", f" &a{number} ", " !!str ", f" &b{number} !!str "))
        scalar = None
        while scalar is None:
            scalar = write(generator, query, generator.choice(STYLES), 6)
        is_block = scalar.text[0] in "|>"
        comment = generator.choice(("", f"   # comment {number}")) if not is_block else ""
        below = ("", "\n", "\n\n  # between\n") if is_block else ("", "\n", "\n\n  # between\n", "\n      # far in\n")
        end = "\n" + generator.choice(below) + generator.choice(("", f"    labels: {{a{number}: b}}\n"))
        text += before + scalar.text + comment + end
        parts += [before.rstrip(" "), comment, end.strip(" \n")]
    line_end = generator.choice(("\n", "\r\n"))
    return text.replace("\n", line_end), [part.replace("\n", line_end) for part in (*parts, "\n") if part]
