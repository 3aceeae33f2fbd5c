"""Reads what bin/count_definitions counts: the definitions of crates/*/specs/**/*.antt, and the contracts of crates/*/src/**/*.rt.

A name in a term is a variable that is bound around it, an item of the same file, or one that a `use` line brings. A name that is none of these
is unresolved: it is kept as such, and never guessed.
"""

from __future__ import annotations

import re
from dataclasses import dataclass, field
from pathlib import Path
from typing import Callable, Dict, Iterable, Iterator, List, NamedTuple, Optional, Set, Tuple

NAME = r'[^\s(){}.;,@"«»⟦⟧]+'
TOKEN = re.compile(
    rf'(?P<gap>\s+|--[^\n]*|\{{-.*?-\}})|(?P<text>"(?:\\.|[^"\\])*")|(?P<member>⟦[^⟧]*⟧(?:\.{NAME})*)|(?P<field>(?<=[)}}])(?:\.{NAME})+)'
    rf"|(?P<name>«[^»]*»|{NAME}(?:\.{NAME})*)|(?P<mark>[(){{}}.;,@])",
    re.S,
)
# What the language has by itself: reserved words, symbols and built-in names.
BUILT_IN = set("where as record data elim in do Type λ → × ↦ = | : [ ] ∀ _ ¬ ⊥ Unit tt absurd mutual module deriving ⊔ ∗ ⌜ ⌝ ℓ".split())
MARKS = r"(?:(?:pattern|unfoldable|abbrev|axiom|pub) )*"
OPENING, CLOSING = {"(": ")", "{": "}", "[": "]"}, set(")}]")


def tokens_of(text: str) -> List[str]:
    """Returns the tokens of a term, without what is in quotes and the fields of a term in parentheses."""
    found = (it for it in TOKEN.finditer(text))
    return [it[0].strip("«»") for it in found if it.lastgroup in ("name", "mark", "member")]


def count_lines(text: str) -> int:
    return sum(1 for line in text.splitlines() if line.strip() and not line.lstrip().startswith("--"))


@dataclass
class Item:
    """A definition; or a contract, a table or a type of the code, whose lines are not counted as those of a definition."""

    key: str
    crate: str
    file: str
    name: str
    kind: str
    text: str = ""
    words: Set[str] = field(default_factory=set)
    unresolved: Set[str] = field(default_factory=set)
    pieces: List[Tuple[str, str, Set[str]]] = field(default_factory=list)
    block: str = ""

    @property
    def lines(self) -> int:
        return count_lines(self.text)


class Names:
    """The names of a file, or of a clause: its own items, and what `use` lines bring, each with its path."""

    def __init__(self, own: Optional[Dict[str, str]] = None) -> None:
        self.own = {} if own is None else own
        self.brought: Dict[str, str] = {}

    def bring(self, line: str) -> None:
        """Takes a `use` line: `use A.B.{c, d as e}`, `use A.B as f`, `use A.B`."""
        path = line.strip().rstrip(";")
        match = re.fullmatch(r"([^\s{]+?)(?:\.\{(.*)\}|\s+as\s+(\S+))?", path, re.S)
        if not match:
            raise ValueError(f"no import: {line}")
        if match[2] is None:
            self.brought[match[3] or match[1].rsplit(".", 1)[-1]] = match[1]
        for entry in filter(None, re.split(r"\s*,\s*", (match[2] or "").strip())):
            name, _, other = entry.partition(" as ")
            self.brought[(other or name).strip()] = f"{match[1]}.{name.strip()}"

    def joined(self, more: Names) -> Names:
        both = Names({**self.own, **more.own})
        both.brought = {**self.brought, **more.brought}
        return both

    def path(self, name: str) -> Optional[str]:
        return self.own.get(name) or self.brought.get(name)

    def operators(self, part: str) -> Iterator[str]:
        """Yields the paths of the operators that have this part."""
        for name in [*self.own, *self.brought]:
            if "◌" in name and part in name.split("◌"):
                yield self.path(name) or ""


class Found(NamedTuple):
    """What a path stands for: an item, if it is not outside, and whether a pattern may have it as a constructor."""

    key: Optional[str]
    is_constructor: bool


class Frame:
    """An open bracket, or a `let` before its `in`: what is bound in it, and what it binds after it."""

    def __init__(self, opening: str, bound: Iterable[str] = (), after: Iterable[str] = ()) -> None:
        self.opening, self.bound, self.after, self.ifs = opening, set(bound), set(after), 0


class Term:
    """Walks over the tokens of a term, with the names that are bound at each place, and collects what the others stand for."""

    def __init__(self, text: str, names: Names, find: Callable[[str], Optional[Found]], bound: Iterable[str]) -> None:
        self.tokens, self.names, self.find = tokens_of(text), names, find
        self.frames = [Frame("", bound), Frame("")]
        self.words: Set[str] = set()
        self.unresolved: Set[str] = set()

    @property
    def bound(self) -> Set[str]:
        return set().union(*(frame.bound for frame in self.frames))

    def is_simple(self, at: int) -> bool:
        token = self.tokens[at]
        return token not in BUILT_IN and not re.match(r"[(){}.;,@⟦]", token) and "." not in token

    def end_of(self, at: int, ends: Iterable[str]) -> int:
        """Returns the index of the first of these tokens that is in no bracket opened after `at`."""
        depth = 0
        for index in range(at, len(self.tokens)):
            token = self.tokens[index]
            if depth == 0 and token in ends:
                return index
            depth += (token in OPENING) - (token in CLOSING)
        return len(self.tokens)

    def look_up(self, token: str) -> Optional[Found]:
        first, _, rest = token.partition(".")
        path = self.names.path(first)
        return self.find(f"{path}.{rest}" if rest else path) if path else None

    def name(self, token: str) -> None:
        first = token.partition(".")[0]
        if first in BUILT_IN or re.match(r"\d|\?", token) or first in self.bound:
            return
        found = self.find(token) if token.startswith("⟦") else self.look_up(token)
        if found:
            self.words |= {found.key} if found.key else set()
            return
        operators = list(self.names.operators(token.strip("◌")))
        if token in ("if", "then", "else") and any("if◌then◌else◌" in path for path in operators):
            frame = self.frames[-1]
            frame.ifs += (token == "if") - (token == "then")
            if token != "then" or frame.ifs >= 0:
                return
            frame.ifs = 0
        others = [self.find(path) for path in operators if not path.endswith("if◌then◌else◌")]
        if not others or None in others:
            self.unresolved.add(token)
        self.words |= {it.key for it in others if it and it.key}

    def pattern(self, at: int, end: int, is_plain: bool) -> Set[str]:
        """Returns what the tokens from `at` to `end` bind as patterns; a plain name binds even as that of a constructor, if it may."""
        binds: Set[str] = set()
        depth = 0
        while at < end:
            token = self.tokens[at]
            depth += (token in OPENING) - (token in CLOSING)
            if token == ":":
                close = self.end_of(at + 1, CLOSING)
                self.walk(at + 1, close)
                at = close
                continue
            if at + 1 < end and self.tokens[at + 1] == "=" and depth:
                at += 2
                continue
            if token.partition(".")[2]:
                self.name(token)
            elif self.is_simple(at) and not re.match(r"\d", token):
                found = self.look_up(token) or next((self.find(it) for it in self.names.operators(token)), None)
                if found and found.is_constructor and not (is_plain and depth == 0):
                    self.name(token)
                else:
                    binds.add(token)
            at += 1
        return binds

    def opening(self, at: int) -> int:
        """Opens a bracket. `(x y : A)` binds after itself; `{x = e}` and `record { x = e }` have labels."""
        token, last = self.tokens[at], at + 1
        while last < len(self.tokens) and self.is_simple(last):
            last += 1
        is_record = token == "{" and at > 0 and (self.tokens[at - 1] == "record" or at > 1 and self.tokens[at - 2] == "record")
        if token != "[" and last > at + 1 and self.tokens[last : last + 1] == [":"] and not is_record:
            self.frames.append(Frame(token, after=self.tokens[at + 1 : last]))
            return last + 1
        self.frames.append(Frame(token))
        return self.case(at + 1) if token == "[" else at + 1

    def case(self, at: int) -> int:
        """Binds the pattern of a case of `elim`, up to its `↦`."""
        end = self.end_of(at, ("↦", "]"))
        if self.tokens[end : end + 1] == ["↦"]:
            self.frames[-1].bound = self.pattern(at, end, False)
        return end

    def close(self, is_end: Callable[[Frame], bool]) -> None:
        while len(self.frames) > 2:
            frame = self.frames.pop()
            if is_end(frame):
                self.frames[-1].bound |= frame.after
                return

    def walk(self, at: int = 0, end: Optional[int] = None) -> None:
        end = len(self.tokens) if end is None else end
        while at < end:
            token = self.tokens[at]
            after = self.tokens[at + 1] if at + 1 < end else ""
            if token in OPENING:
                at = self.opening(at)
                continue
            if token in CLOSING:
                self.close(lambda frame: frame.opening in OPENING)
            elif token in (",", ";"):
                self.frames[-1].bound.clear()
            elif token == "λ":
                last = self.end_of(at + 1, (".",))
                binds = self.pattern(at + 1, last, True)
                self.frames[-1].bound |= binds
                at = last
            elif token == "let":
                last = self.end_of(at + 1, ("=", ":"))
                self.frames.append(Frame("let", after=self.pattern(at + 1, last, True)))
                at = last
            elif token == "in":
                self.close(lambda frame: frame.opening == "let")
            elif token == "|" and self.frames[-1].opening == "[":
                at = self.case(at + 1)
                continue
            elif self.frames[-1].opening == "{" and after in ("=", ":"):
                self.frames[-1].bound |= {token} if after == ":" else set()
            else:
                self.name(token)
            at += 1


class Specs:
    """A file of specs/: its items in their order, and its names."""

    def __init__(self, path: str, crate: str, file: str, text: str) -> None:
        self.path, self.crate, self.file = path, crate, file
        self.names = Names()
        self.items: Dict[str, Item] = {}
        self.keys: Dict[str, str] = {}
        self.constructors: Set[str] = set()
        self.shared: Set[str] = set()
        self.read(text.splitlines(), 0, None)

    def name(self, name: str, item: Item) -> None:
        self.names.own[name] = f"{self.path}.{name}"
        self.keys[name] = item.key

    def chunks(self, lines: List[str], indent: int) -> Iterator[str]:
        """Yields each line of this indentation, with the deeper ones below it and the bracket that ends them."""
        chunk: List[str] = []
        for line in lines:
            if not line.strip() or line.lstrip().startswith("--"):
                continue
            if chunk and len(line) - len(line.lstrip()) <= indent and line.strip()[0] not in CLOSING:
                yield "\n".join(chunk)
                chunk = []
            chunk.append(line)
        if chunk:
            yield "\n".join(chunk)

    def add(self, name: str, block: Optional[Item], text: str, kind: str = "definition") -> Item:
        item = Item(f"{self.path}.{name}", self.crate, self.file, name, kind, text)
        if block:
            item.block = block.key
            item.words.add(block.key)
        self.items[name] = item
        if kind == "definition":
            self.name(name, item)
        return item

    def read(self, lines: List[str], indent: int, block: Optional[Item]) -> None:
        fixities: Dict[str, str] = {}
        for chunk in self.chunks(lines, indent):
            head, _, below = chunk.partition("\n")
            text = chunk.strip()
            use = re.match(r"(pub )?use (.*)", text, re.S)
            fixity = re.match(r"infix[lr]? \d+ (\S+)", text)
            declared = re.match(rf"{MARKS}(data|record) (?:pub )?({NAME})(.*)", text, re.S)
            signature = re.match(rf"({MARKS})({NAME})((?: \{{[^:}}]*\}})?) :(?=\s)(.*)", text, re.S)
            if use:
                before = set(self.names.brought)
                self.names.bring(use[2])
                self.shared |= set(self.names.brought) - before if use[1] else set()
            elif re.match(r"(pub )?mod ", text):
                continue
            elif fixity:
                fixities[fixity[1]] = text
            elif re.match(rf"{MARKS}mutual", text) or text.startswith("module "):
                header = self.add(f"{head.strip()} #{len(self.items)}", block, head, "block")
                header.pieces.append(("header", head.strip().partition(" _ ")[2], set()))
                body = below.splitlines()
                self.read(body, min(len(it) - len(it.lstrip()) for it in body if it.strip()), header)
            elif declared:
                self.read_type(declared, chunk, block)
            elif signature:
                item = self.add(signature[2], block, fixities.pop(signature[2], "") + "\n" + chunk)
                item.pieces.append(("header", f"{signature[3]} {signature[4]}", set()))
            else:
                self.read_clause(text, chunk)

    def read_type(self, match: re.Match[str], chunk: str, block: Optional[Item]) -> None:
        """Reads a `data` with its constructors, or a `record` with its fields."""
        header, _, body = match[3].partition(" where")
        item = self.add(match[2], block, chunk)
        item.pieces.append(("header", header, set()))
        lines = [line for line in body.splitlines() if line.strip()]
        if lines:
            for part in self.chunks(lines, len(lines[0]) - len(lines[0].lstrip())):
                members = re.match(r"\s*(?:pub )?([^:]*?)\s*(?::(?=\s)(.*))?$", part, re.S)
                assert members
                names = members[1].split()
                item.pieces.append(("member", members[2] or "", set(names if match[1] == "record" else ())))
                if match[1] == "data":
                    self.constructors |= set(names)
                    for name in names:
                        self.name(name, item)

    def read_clause(self, text: str, chunk: str) -> None:
        tokens = tokens_of(text)
        left = tokens[: tokens.index("=")] if "=" in tokens else tokens
        names = [it for it in self.items if it in left[:1] or "◌" in it and set(filter(None, it.split("◌"))) & set(left)]
        if text.startswith("unfolding ") and self.items:
            return
        if not names:
            raise ValueError(f"{self.file}: the clause of no item: {text}")
        item = self.items[names[0]]
        item.text += "\n" + chunk
        item.pieces.append(("clause", text, set()))


def resolve(item: Item, names: Names, find: Callable[[str], Optional[Found]], bound: Iterable[str]) -> Set[str]:
    """Fills in the words of an item, and returns what is bound in it: what was bound around it, and what its header binds."""
    around = set(bound)
    for kind, text, binds in item.pieces:
        term = Term(text, names, find, around)
        if kind == "header":
            levels = re.match(r"\s*\{([^:}]*)\}", text)
            around |= set(levels[1].replace(",", " ").split()) if levels else set()
            term = Term(text, names, find, around)
            term.walk()
            around |= term.frames[-1].bound
        elif kind == "clause":
            middle = term.end_of(0, ("=",))
            own = {item.name, *item.name.split("◌")}
            left = term.pattern(0, middle, False) - own
            term.frames[0].bound |= left
            term.walk(middle + 1)
        else:
            term.walk()
            around |= binds
        item.words |= term.words - {item.key}
        item.unresolved |= term.unresolved
    return around


def read_specs(root: Path) -> Dict[str, Specs]:
    """Returns the files of specs/ by their paths, as `Rattle.promql_ast.specs.node.Binary`."""
    found: Dict[str, Specs] = {}
    for file in sorted(root.glob("crates/*/specs/**/*.antt")):
        crate, *inner = file.relative_to(root / "crates").with_suffix("").parts
        path = ".".join(["Rattle", crate, *inner])
        found[path] = Specs(path, crate, str(file.relative_to(root)), file.read_text(encoding="utf-8"))
    return found


# ---- contracts

# What a ghost member of an impl has that is a proof.
PROOFS = {"laws", "respects_eq", "coded", "inverse_ok", "states", "shows"}


def masked(text: str) -> str:
    """Returns the text with blanks in place of comments, strings and characters."""
    quoted = r'//[^\n]*|/\*.*?\*/|b?r(#*)".*?"\1|b?"(?:\\.|[^"\\])*"|(?<![\w\'])b?\'(?:\\[^\n]{1,8}?|[^\\\'\n])\''
    return re.sub(quoted, lambda it: re.sub(r"[^\n]", " ", it[0]), text, flags=re.S)


def end_of(text: str, at: int) -> int:
    """Returns the place after the bracket that closes the one at `at`."""
    depth = 0
    for index in range(at, len(text)):
        depth += (text[index] in "([{") - (text[index] in ")]}")
        if depth == 0:
            return index + 1
    raise ValueError("a bracket is not closed")


class Container(NamedTuple):
    """What an item of a file stands in: an impl of a type, maybe of a trait; a trait; or, without a name, the file."""

    name: str
    trait: str
    of: str
    end: int
    names: Names
    bound: Set[str]


class Contract(NamedTuple):
    """The clauses of a function, one clause of a law, or a ghost member."""

    item: Item
    name: str
    within: Container
    names: Names
    bound: Set[str]
    is_public: bool = False
    is_export: bool = False
    is_member: bool = False


class Code:
    """A file of src/: what its `use` lines bring, its items, and its contracts."""

    PUB = r"(?:pub(?:\(\w+\))? )?"
    ITEM = re.compile(
        rf"(?<!['*])\b(?:(?P<use>ghost use|{PUB}use)\s|(?P<fn>{PUB}(?:const )?(?:extern +)?fn)\s+(\w+)|(?P<impl>impl)\b"
        rf"|(?P<trait>{PUB}trait)\s+(\w+)|(?P<ghost>ghost)\s+(\w+)\s*[=:]|(?P<type>{PUB}(?:struct|enum))\s+(\w+)"
        rf"|(?P<value>{PUB}(?:const|static|type))\s+(\w+)|(?P<mod>{PUB}mod)\s+(\w+)|(?P<macro>macro_rules!))"
    )
    CLAUSE = re.compile(r"(?<!\w)(requires|ensures|ghost)\*?\s*(\w*)\s*:?\s*(?=\{)")

    def __init__(self, crate: str, file: str, text: str, path: Tuple[str, ...]) -> None:
        self.crate, self.file, self.path = crate, file, path
        self.text, self.blank = text, masked(text)
        self.key = "::".join([crate, *path])
        self.uses: Dict[str, str] = {}
        self.globs: List[str] = []
        self.shared: Set[str] = set()
        self.items: Dict[str, str] = {}
        self.public: Set[str] = set()
        self.derived: Dict[str, Set[str]] = {}
        self.contracts: List[Contract] = []
        for derive in re.finditer(r"#\[derive\(([^)]*)\)\][^;{]*?\b(?:struct|enum)\s+(\w+)", text):
            self.derived.setdefault(derive[2], set()).update(re.findall(r"\w+", derive[1]))
        self.stack = [Container("", "", "", len(text), Names(), set())]
        match = self.ITEM.search(self.blank)
        while match:
            while match.start() >= self.stack[-1].end:
                self.stack.pop()
            groups = match.groupdict()
            kind = next(it for it in groups if groups[it])
            name = next((it for it in match.groups()[::-1] if it), "")
            match = self.ITEM.search(self.blank, getattr(self, f"read_{kind}")(match, name))

    def declare(self, match: re.Match[str], name: str, what: str) -> None:
        """Notes an item of the file."""
        if not self.stack[-1].name:
            self.items[name] = what
            self.public |= {name} if match[0].startswith("pub ") else set()

    def skip(self, at: int, stops: str) -> int:
        """Returns the next place of one of these letters that is in no bracket."""
        while self.blank[at] not in stops:
            at = end_of(self.blank, at) if self.blank[at] in "([{" else at + 1
        return at

    def read_use(self, match: re.Match[str], name: str) -> int:
        end = self.blank.index(";", match.end())
        line = self.text[match.end() : end].strip()
        if name == "ghost use":
            self.stack[-1].names.bring(line)
        else:
            self.bring("", line, match[0].startswith("pub "))
        return end

    def bring(self, before: str, tree: str, is_public: bool) -> None:
        """Takes a tree of a `use` of Rust: `a::{b, c::d as e}`, `a::*`."""
        match = re.fullmatch(r"((?:\w+::)*)(?:\{(.*)\}|(\w+|\*)(?:\s+as\s+(\w+))?)", tree, re.S)
        if not match:
            raise ValueError(f"{self.file}: no import: {tree}")
        path = before + match[1]
        if match[3] == "*":
            self.globs.append(path[:-2])
        elif match[3]:
            path = (path + match[3]).replace("::self", "")
            name = match[4] or path.rsplit("::", 1)[-1]
            self.uses[name] = path
            self.shared |= {name} if is_public else set()
        else:
            for part in re.findall(r"[^,{]+(?:\{[^}]*\})?", match[2]):
                if part.strip():
                    self.bring(path, part.strip(), is_public)

    def read_mod(self, match: re.Match[str], name: str) -> int:
        self.declare(match, name, "mod")
        return match.end() if self.blank[match.end() :].lstrip().startswith(";") else self.read_macro(match, name)

    def read_macro(self, match: re.Match[str], name: str) -> int:
        return end_of(self.blank, self.blank.index("{", match.end()))

    def read_value(self, match: re.Match[str], name: str) -> int:
        end = self.skip(match.end(), ";")
        self.declare(match, name, self.text[match.start() : end])
        return end

    def read_type(self, match: re.Match[str], name: str) -> int:
        end = self.skip(match.end(), ";{")
        end = end_of(self.blank, end) if self.blank[end] == "{" else end
        self.declare(match, name, self.text[match.start() : end])
        return end

    def read_impl(self, match: re.Match[str], name: str) -> int:
        start = self.blank.index("{", match.end())
        header = " ".join(self.blank[match.end() : start].split())
        generics = self.generics(header)
        trait, found, of = header[len(generics) :].partition(" where ")[0].strip().rpartition(" for ")
        plain = [re.sub(r"<.*|^&?('\w+ )?(mut )?", "", it).split("::")[-1] for it in (trait, of)]
        shown = f"<{of} as {trait}>" if found else plain[1]
        bound = self.parameters(generics) | {"Self", "self"}
        self.stack.append(Container(shown, plain[0], plain[1], end_of(self.blank, start), Names(), bound))
        return start + 1

    def read_trait(self, match: re.Match[str], name: str) -> int:
        self.declare(match, name, "trait")
        start = self.blank.index("{", match.end())
        bound = self.parameters(self.generics(self.blank[match.end() : start])) | {"Self", "self"}
        self.stack.append(Container(name, "", name, end_of(self.blank, start), Names(), bound))
        return start + 1

    @staticmethod
    def generics(text: str) -> str:
        """Returns the `<..>` that a text begins with."""
        depth = 0
        for index, letter in enumerate(text):
            depth += (letter == "<") - (letter == ">" and text[index - 1] != "-")
            if depth == 0:
                return text[: index + 1] if index else ""
        return ""

    @staticmethod
    def parameters(generics: str) -> Set[str]:
        return set(re.findall(r"[<,]\s*(?:const\s+)?(\w+)", generics))

    def read_ghost(self, match: re.Match[str], name: str) -> int:
        """Reads a ghost member. Of a trait's own it keeps the type of a proof, too."""
        end = self.skip(match.end(), ";")
        within = self.stack[-1]
        is_trait = self.items.get(within.name) == "trait"
        if is_trait or name not in PROOFS:
            key = f"{self.crate}::{within.name}.{name}"
            item = Item(key, self.crate, self.file, f"{within.name}.{name}", "contract", self.text[match.start() : end])
            start = self.blank.find("{", match.end(), end)
            while start >= 0 and not (item.pieces and name in PROOFS):
                close = end_of(self.blank, start)
                item.pieces.append(("member", self.text[start + 1 : close - 1], set()))
                start = self.blank.find("{", close, end)
            if is_trait:
                within.names.brought[name] = key
            names = self.stack[0].names.joined(within.names)
            self.contracts.append(Contract(item, name, within, names, within.bound, is_public=True, is_member=within.trait != ""))
        return end

    def read_fn(self, match: re.Match[str], name: str) -> int:
        self.declare(match, name, "fn")
        within = self.stack[-1]
        generics = self.generics(self.blank[match.end() :])
        start = self.blank.index("(", match.end() + len(generics))
        at = end_of(self.blank, start)
        bound = within.bound | self.parameters(generics) | {"result", "self"}
        for group in re.findall(r"(\w+|\([\w\s,]*\))\s*:(?!:)", self.blank[start:at]):
            bound |= set(re.findall(r"\w+", group))
        names = self.stack[0].names.joined(within.names)
        shown = f"{within.name}::{name}" if within.name else name
        item = Item(f"{self.key}::{shown}", self.crate, self.file, shown, "contract")
        is_public = match[0].startswith("pub ") or within.trait != "" or self.items.get(within.name) == "trait"
        self.contracts.append(Contract(item, name, within, names, bound, is_public, "extern" in match[0]))
        while self.blank[at] not in "{;":
            head = self.CLAUSE.match(self.blank, at)
            if head:
                at = end_of(self.blank, head.end())
                piece = ("member", self.text[head.end() + 1 : at - 1], {head[2]} if head[1] == "ghost" else set())
                text = self.text[head.start() : at]
                item.pieces.append(piece)
                item.text += f"\n{text}"
                if head[2] and self.path[-1:] == ("laws",):
                    clause = Item(f"{item.key}.{head[2]}", self.crate, self.file, f"{shown}.{head[2]}", "contract", text, pieces=[piece])
                    self.contracts.append(Contract(clause, "", within, names, bound))
            else:
                at = end_of(self.blank, at) if self.blank[at] in "([" else at + 1
        return end_of(self.blank, at) if self.blank[at] == "{" else at
