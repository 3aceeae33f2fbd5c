"""The tokens of a text with their places, or its lexical fault, typed from docs/reference/tokens.md."""

import re
from typing import NamedTuple

AGGREGATORS = "avg bottomk count count_values group max min quantile stddev stdvar sum topk limitk limit_ratio".split()
WORD_OPERATORS = "and or unless atan2".split()
KEYWORDS = "offset by without on ignoring group_left group_right bool smoothed anchored start end".split()
FILLS = "fill fill_left fill_right".split()
PUNCTUATORS = (b"==", b"!=", b"<=", b">=", *(bytes([b]) for b in b"@,*/%+-^()=<>{["))

SPACE = re.compile(rb"[ \t\n\f\r]*")
TRIVIA = re.compile(rb"(?:[ \t\n\f\r]+|#[^\r\n]*[\r\n]?)*")
NAME = re.compile(rb"[A-Za-z_][A-Za-z0-9_]*")
WORD = re.compile(rb"[A-Za-z_:][A-Za-z0-9_:]*")
NUMBER = re.compile(rb"0[xX][0-9a-fA-F]*(?:\.[0-9a-fA-F]*)?(?:[eE][+-]?[0-9]*)?|[0-9]*(?:\.[0-9]*)?(?:[eE][+-]?[0-9]*)?")
UNITS = re.compile(rb"[smhdwy]s?(?:[0-9]+[smhdw]s?)*(?![A-Za-z0-9_])")
ESCAPES = [bytes([byte]) for byte in b"abfnrtv\\01234567xuU"]


class Token(NamedTuple):
    start: int
    end: int
    kind: str
    text: bytes


class Fault(Exception):
    """A lexical fault: its message and its place, `None` at the end of the text."""

    def __init__(self, message, at=None):
        super().__init__(message)
        self.message, self.at = message, at


def char_end(text, at):
    """The end of the character that begins at this byte."""
    end = at + 1
    while end < len(text) and text[end] & 0xC0 == 0x80:
        end += 1
    return end


def fault_at(text, at, message):
    """A fault whose message shows the character at its place."""
    return Fault(message % text[at : char_end(text, at)].decode(), at)


def string_end(text, at):
    """The end of the string that begins at this byte."""
    quote = text[at : at + 1]
    stop = re.compile(quote if quote == b"`" else quote + rb"|\\")
    place = at + 1
    while found := stop.search(text, place):
        if found[0] == quote:
            return found.end()
        place = found.end() + 1
        if found.end() == len(text):
            raise Fault("escape sequence not terminated")
        if text[found.end() : place] not in (quote, *ESCAPES):
            raise fault_at(text, found.end(), "unknown escape sequence '%s'")
    raise Fault(f"unterminated quoted string {quote.decode()}", at)


def numeral(text, at):
    """The kind and the end of the numeral that begins at this byte."""
    end = NUMBER.match(text, at).end()
    if not re.match(rb"[A-Za-z_.]", text[end : end + 1]):
        return "number", end
    units = UNITS.match(text, end)
    if not units:
        raise Fault("bad number or duration syntax", at)
    return "duration", units.end()


def word_kind(text, start, end):
    word = text[start:end].lower().decode()
    if word in ("inf", "nan"):
        return "number"
    if word in AGGREGATORS:
        return "aggregator"
    if word in WORD_OPERATORS:
        return "operator"
    if word in KEYWORDS:
        return word
    if word in FILLS and text[SPACE.match(text, end).end() :][:1] == b"(":
        return word
    return "metric" if ":" in word else "identifier"


class Lexer:
    def __init__(self, text):
        self.text, self.tokens, self.open = text, [], 0

    def add(self, start, end, kind):
        self.tokens.append(Token(start, end, kind, self.text[start:end]))
        return end

    def outside(self, at):
        """Reads the token outside braces and brackets that begins at this byte, and returns its end."""
        text, byte = self.text, self.text[at : at + 1]
        if re.match(rb"[A-Za-z_:]", byte):
            end = WORD.match(text, at).end()
            return self.add(at, end, word_kind(text, at, end))
        if re.match(rb"\.?[0-9]", text[at : at + 2]):
            kind, end = numeral(text, at)
            return self.add(at, end, kind)
        if byte in (b'"', b"'", b"`"):
            return self.add(at, string_end(text, at), "string")
        if text.startswith(b"=~", at):
            raise Fault("unexpected character after '=': '~'", at + 1)
        for sign in PUNCTUATORS:
            if text.startswith(sign, at):
                return self.punctuator(at, sign)
        raise self.outside_fault(at)

    def punctuator(self, at, sign):
        if sign == b")" and not self.open:
            raise Fault("unexpected right parenthesis ')'", at)
        self.open += (sign == b"(") - (sign == b")")
        kind = sign.decode() if sign in b"@ ( ) , = { [".split() else "operator"
        end = self.add(at, at + len(sign), kind)
        if sign == b"{":
            return self.braces(end)
        return self.brackets(end) if sign == b"[" else end

    def outside_fault(self, at):
        text, rest = self.text, self.text[at:]
        if rest[:1] == b"!":
            return Fault("'!' can not be at the end") if rest == b"!" else fault_at(text, at + 1, "unexpected character after '!': '%s'")
        if rest[:1] == b".":
            return Fault("unexpected character: '.'", at) if rest == b"." else fault_at(text, at + 1, "unexpected character after '.': '%s'")
        if rest[:1] == b"}":
            return Fault("unexpected right brace '}'", at)
        if rest[:1] == b"]":
            return Fault("unexpected right bracket ']'", at)
        return fault_at(text, at, "unexpected character: '%s'")

    def braces(self, at):
        """Reads the tokens from after a `{` through its `}`."""
        text = self.text
        while True:
            at = TRIVIA.match(text, at).end()
            byte = text[at : at + 1]
            if not byte:
                raise Fault("unexpected end of input inside braces")
            if re.match(rb"[A-Za-z_]", byte):
                end = NAME.match(text, at).end()
                is_or = text[at:end].lower() == b"or" and text[end : end + 1] == b" "
                at = self.add(at, end, "or" if is_or else "identifier")
            elif byte in (b'"', b"'", b"`"):
                at = self.add(at, string_end(text, at), "string")
            elif text[at : at + 2] in (b"!=", b"=~", b"!~"):
                at = self.add(at, at + 2, text[at : at + 2].decode())
            elif byte in (b",", b"=", b"}"):
                at = self.add(at, at + 1, byte.decode())
                if byte == b"}":
                    return at
            elif byte == b"!":
                if at + 1 == len(text):
                    raise Fault("'!' can not be at the end")
                raise fault_at(text, at + 1, "unexpected character after '!' inside braces: '%s'")
            elif byte == b"{":
                raise Fault("unexpected left brace '{' inside braces", at)
            else:
                raise fault_at(text, at, "unexpected character inside braces: '%s'")

    def brackets(self, at):
        """Reads the tokens from after a `[` through its `]`."""
        text, has_colon, first = self.text, False, at
        while True:
            at = SPACE.match(text, at).end()
            byte = text[at : at + 1]
            if not byte:
                raise Fault("unexpected end of input inside brackets")
            if byte == b":" and at == first:
                raise Fault("expect duration before first colon(:) in brackets", at)
            if byte == b":" and has_colon:
                raise Fault("unexpected second colon(:) in brackets", at)
            if byte in (b":", b"]"):
                has_colon = has_colon or byte == b":"
                at = self.add(at, at + 1, byte.decode())
                if byte == b"]":
                    return at
            elif byte.isdigit():
                kind, end = numeral(text, at)
                at = self.add(at, end, kind)
            elif byte == b"[":
                raise Fault("unexpected left brace '[' inside brackets", at)
            else:
                raise fault_at(text, at, "unexpected character inside brackets: '%s'")

    def all(self):
        at = 0
        while True:
            at = TRIVIA.match(self.text, at).end()
            if at == len(self.text):
                if self.open:
                    raise Fault("unclosed left parenthesis")
                return
            at = self.outside(at)


def lex(text):
    """The tokens of a text, and its lexical fault or None."""
    lexer = Lexer(text)
    try:
        lexer.all()
    except Fault as fault:
        return lexer.tokens, fault
    return lexer.tokens, None
