"""The templates of Go that annotations and labels of alerts are: whether Prometheus would take one.

This follows the grammar of Go's package `text/template`, with the functions and variables that Prometheus 2.42 has. A template is not
run, so nothing is told of the types and numbers of arguments, or of fields that are not there.
"""

from __future__ import annotations

import re
from functools import lru_cache
from typing import Iterator, List, NamedTuple, Tuple

FUNCTIONS = frozenset(
    """and or not len index slice print printf println html js urlquery call eq ge gt le lt ne
    query first label value strvalue args reReplaceAll safeHtml match title toUpper toLower graphLink tableLink sortByLabel stripPort
    stripDomain humanize humanize1024 humanizeDuration humanizePercentage humanizeTimestamp toTime pathPrefix externalURL
    parseDuration""".split()
)
_VARIABLES = ("$", "$labels", "$externalLabels", "$externalURL", "$value")
_KEYWORDS = {"block", "break", "continue", "define", "else", "end", "if", "range", "nil", "template", "with"}
_CONTROLS = {"if", "range", "with"}
_OPERANDS = {"bool", "number", "dot", "field", "identifier", "nil", "string", "variable", "("}
# What cannot be called, and so is no later stage of a pipeline; what has no fields.
_CONSTANTS = {"bool", "number", "dot", "nil", "string"}

_LEFT = re.compile(r"\{\{(-(?=[ \t\r\n]))?")
_COMMENT = re.compile(r"[ \t\r\n]?/\*(?:(?!\*/).)*\*/(?:[ \t\r\n]-)?\}\}", re.S)
_RIGHT = re.compile(r"([ \t\r\n]-)?\}\}")
_SPACE = re.compile(r"[ \t\r\n]+")
_TOKEN = re.compile(
    r"""(?P<declare>:=)|(?P<sign>[=|(),]) |(?P<string>"(?:[^"\\\n]|\\[^\n])*"|`[^`]*`)|(?P<char>'(?:[^'\\\n]|\\[^\n])*')
    |(?P<variable>\$\w*)|(?P<number>[+-]|\.?[0-9])|(?P<field>\.\w*)|(?P<word>\w+)""",
    re.X,
)
_NUMBER = re.compile(
    r"""[+-]?(?:0[xX][0-9a-fA-F_]*(?:\.[0-9a-fA-F_]*)?(?:[pP][+-]?[0-9_]*)?|0[oO][0-7_]*(?:\.[0-7_]*)?|0[bB][01_]*(?:\.[01_]*)?
    |[0-9_]*(?:\.[0-9_]*)?(?:[eE][+-]?[0-9_]*)?)i?""",
    re.X,
)
_DIGITS = "[0-9](?:_?[0-9])*"
_WHOLE = re.compile(r"[+-]?(?:0[xX](?:_?[0-9a-fA-F])+|0[oO](?:_?[0-7])+|0[bB](?:_?[01])+|0(?:_?[0-7])*|[1-9](?:_?[0-9])*)")
_FLOAT = re.compile(
    rf"[+-]?(?:(?:{_DIGITS}\.?(?:{_DIGITS})?|\.{_DIGITS})(?:[eE][+-]?{_DIGITS})?i?|0[xX][0-9a-fA-F_.]+[pP][+-]?{_DIGITS})"
)
_ESCAPE = (
    r"\\(?:[abfnrtv\\%s]|[0-3][0-7]{2}|x[0-9a-fA-F]{2}|u(?![dD][89a-fA-F])[0-9a-fA-F]{4}|U00(?:0[0-9a-fA-F]|10)[0-9a-fA-F]{4})"
)
_STRING = re.compile(rf'"(?:[^"\\]|{_ESCAPE % chr(34)})*"|`[^`]*`')
_CHAR = re.compile(rf"'(?:[^'\\]|{_ESCAPE % chr(39)})'")
# What may follow a name.
_TERMINATOR = re.compile(r"[ \t\r\n.,|:)(]|\}\}|\Z")


class TemplateError(Exception):
    """Why a template does not parse."""


class _Token(NamedTuple):
    kind: str
    text: str


_END_OF_TEXT = _Token("end of text", "")


# As many characters as an action takes the time of.
_ACTION = 4
# What most templates have alone.
_VALUE = re.compile(r"(?<!\{)\{\{ ?\$(?:labels\.[A-Za-z_]\w*|value) ?\}\}", re.ASCII)


def size_of(text: str) -> int:
    """How many characters of a template have to be parsed, and more for each action."""
    actions = _VALUE.sub(" ", text).split("{{")[1:] if "{{" in text else ()
    return sum(len(action.partition("}}")[0]) + _ACTION for action in actions)


@lru_cache(maxsize=1024)
def fault_of(text: str) -> str:
    """What is wrong with a template, which may be that of many alerts; or nothing."""
    try:
        _Parser(list(_tokens(text))).parse()
    except TemplateError as error:
        return str(error)
    except RecursionError:
        return "nested too deeply"
    return ""


def _tokens(text: str) -> Iterator[_Token]:
    """The tokens of all actions; what is between two of them has none."""
    at = 0
    while found := _LEFT.search(text, at):
        at = found.end() + bool(found[1])
        if text.startswith("/*", at):
            comment = _COMMENT.match(text, found.end())
            if not comment:
                raise TemplateError("a comment that does not end with `*/}}`")
            at = comment.end()
            continue
        yield _Token("{{", "{{")
        while not (right := _RIGHT.match(text, at)):
            token, at = _next_token(text, at)
            yield token
        yield _Token("}}", "}}")
        at = right.end()


def _next_token(text: str, at: int) -> Tuple[_Token, int]:
    if space := _SPACE.match(text, at):
        # (the last space may begin ` -}}`)
        end = space.end() - 1 if space.end() - at > 1 and _RIGHT.match(text, space.end() - 1) else space.end()
        return _Token(" ", " "), end
    found = _TOKEN.match(text, at)
    if not found:
        raise TemplateError("an action without `}}`" if at == len(text) else f"`{text[at]}` is unexpected")
    kind, token, end = str(found.lastgroup), found[0], found.end()
    if kind == "number":
        return _number(text, at)
    if kind in ("variable", "field", "word"):
        # (`\\w` has more than letters and decimal digits)
        end = next((at + index for index, it in enumerate(token) if not (it in "$._" or it.isalpha() or it.isdecimal())), end)
        if not _TERMINATOR.match(text, end):
            raise TemplateError(f"`{text[end]}` is unexpected after `{text[at:end]}`")
        kind = _kind_of_name(kind, token)
    if (kind == "string" and not _STRING.fullmatch(token)) or (kind == "char" and not _CHAR.fullmatch(token)):
        raise TemplateError(f"{token} is not a text of Go")
    return _Token({"sign": token, "char": "number"}.get(kind, kind), token), end


def _kind_of_name(kind: str, token: str) -> str:
    if kind != "word":
        return "dot" if token == "." else kind
    return "bool" if token in ("true", "false") else token if token in _KEYWORDS else "identifier"


def _number(text: str, at: int) -> Tuple[_Token, int]:
    found = _NUMBER.match(text, at)
    assert found
    after = text[found.end() : found.end() + 1]
    is_number = _WHOLE.fullmatch(found[0]) or _FLOAT.fullmatch(found[0]) and re.search("[.eEpPi]", found[0])
    if after.isalnum() or after in ("_", "+", "-") and after or not is_number:
        raise TemplateError(f"`{found[0]}{after.strip()}` is not a number")
    return _Token("number", found[0]), found.end()


class _Parser:
    """Reads the tokens, and keeps which variables there are."""

    def __init__(self, tokens: List[_Token]) -> None:
        self._tokens = tokens
        self._at = 0
        self._variables: List[str] = list(_VARIABLES)
        self._ranges = 0

    def parse(self) -> None:
        while self._peek() is not _END_OF_TEXT:
            if self._peek_after_space(1).kind == "define":
                for kind in ("{{", "define", "string", "}}"):
                    self._expect(kind)
                self._body_of_its_own()
                continue
            end = self._action()
            if end:
                raise TemplateError(f"`{end}` without its beginning")

    def _peek(self) -> _Token:
        return self._tokens[self._at] if self._at < len(self._tokens) else _END_OF_TEXT

    def _peek_after_space(self, ahead: int = 0) -> _Token:
        at = self._at + ahead
        while at < len(self._tokens) and self._tokens[at].kind == " ":
            at += 1
        return self._tokens[at] if at < len(self._tokens) else _END_OF_TEXT

    def _next(self) -> _Token:
        token = self._peek()
        self._at += 1
        return token

    def _next_after_space(self) -> _Token:
        while self._peek().kind == " ":
            self._at += 1
        return self._next()

    def _expect(self, kind: str) -> None:
        token = self._next_after_space()
        if token.kind != kind:
            raise TemplateError(f"`{token.text}` is unexpected, where {kind if kind.isalpha() else f'`{kind}`'} is to be")

    def _body(self) -> str:
        """Reads to an `end` or `else`, and returns which it is."""
        while self._peek() is not _END_OF_TEXT:
            end = self._action()
            if end:
                return end
        raise TemplateError("`{{ end }}` is missing")

    def _body_of_its_own(self) -> None:
        """The body of a template, which has none of the variables around it."""
        before, self._variables, self._ranges = (self._variables, self._ranges), ["$"], 0
        if self._body() != "end":
            raise TemplateError("`{{ else }}` is unexpected")
        self._variables, self._ranges = before

    def _action(self) -> str:
        """Reads an action, and returns `end` or `else` where it is that."""
        self._expect("{{")
        kind = self._peek_after_space().kind
        if kind not in _KEYWORDS or kind in ("nil", "define"):
            self._pipeline("command", "}}")
            return ""
        self._next_after_space()
        if kind in ("end", "else"):
            if kind == "end" or self._peek_after_space().kind != "if":
                self._expect("}}")
            return kind
        if kind in _CONTROLS:
            self._control(kind)
        elif kind in ("break", "continue"):
            self._expect("}}")
            if not self._ranges:
                raise TemplateError(f"`{kind}` outside of `range`")
        else:
            self._call(kind)
        return ""

    def _call(self, kind: str) -> None:
        """The rest of `template` or `block`."""
        self._expect("string")
        if kind == "block" or self._peek_after_space().kind != "}}":
            self._pipeline(kind, "}}")
        else:
            self._expect("}}")
        if kind == "block":
            self._body_of_its_own()

    def _control(self, kind: str) -> None:
        """The rest of `if`, `range` or `with`, to its `end`."""
        count = len(self._variables)
        self._pipeline(kind, "}}")
        self._ranges += kind == "range"
        end = self._body()
        self._ranges -= kind == "range"
        if end == "else" and kind == "if" and self._peek_after_space().kind == "if":
            self._expect("if")
            self._control("if")
        elif end == "else" and self._body() != "end":
            raise TemplateError("`{{ else }}` after `{{ else }}`")
        del self._variables[count:]

    def _pipeline(self, place: str, end: str) -> None:
        self._declarations(place)
        stages: List[str] = []
        while True:
            kind = self._peek_after_space().kind
            if kind == end:
                self._expect(end)
                break
            if kind not in _OPERANDS:
                text = self._peek_after_space().text
                raise TemplateError(f"`{text}` is unexpected" if text else "an action without `}}`")
            stages.append(self._command())
        if not stages:
            raise TemplateError(f"`{place}` has no value" if place in _KEYWORDS else "an action without a value")
        if set(stages[1:]) & _CONSTANTS:
            raise TemplateError("what is after `|` is not a function")

    def _declarations(self, place: str) -> None:
        """The variables before `:=` or `=`, if there are any; `range` may have two."""
        for number in range(2):
            if self._peek_after_space().kind != "variable":
                return
            begin = self._at
            name, sign = self._next_after_space().text, self._peek_after_space().kind
            if sign not in ("=", "declare", ","):
                self._at = begin
                return
            self._next_after_space()
            self._variables.append(name)
            if sign != ",":
                return
            if place != "range" or number or self._peek_after_space().kind not in ("variable", "}}", ")"):
                raise TemplateError("more variables than are declared here")

    def _command(self) -> str:
        """Reads operands with spaces between them, and returns the kind of the first one."""
        kinds: List[str] = []
        while True:
            kind = self._operand()
            if kind:
                kinds.append(kind)
            token = self._next()
            if token.kind == " ":
                continue
            if token.kind in ("}}", ")"):
                self._at -= 1
            elif token.kind != "|":
                raise TemplateError(f"`{token.text}` is unexpected" if token.text else "an action without `}}`")
            return kinds[0]

    def _operand(self) -> str:
        """Reads an operand with its fields, and returns its kind; nothing where there is none."""
        token = self._peek_after_space()
        if token.kind not in _OPERANDS:
            return ""
        self._next_after_space()
        if token.kind == "identifier" and token.text not in FUNCTIONS:
            raise TemplateError(f"there is no function `{token.text}`")
        if token.kind == "variable" and token.text not in self._variables:
            raise TemplateError(f"there is no variable `{token.text}`")
        if token.kind == "(":
            self._pipeline("parentheses", ")")
        while self._peek().kind == "field":
            if token.kind in _CONSTANTS:
                raise TemplateError(f"`{token.text}` has no fields")
            self._next()
        return token.kind
