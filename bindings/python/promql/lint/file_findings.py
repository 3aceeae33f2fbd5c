"""What is found in the queries of a file, with places there, and the file with its fixes. What was found in a query before is known: in a file
that is read again, or in many files, few are new."""

from __future__ import annotations

import json
import re
from difflib import SequenceMatcher
from itertools import accumulate
from typing import Any, Dict, FrozenSet, Iterator, List, Mapping, NamedTuple, Optional, Sequence, Set, Tuple

import promql

from ..checked_queries import Budget, Document, PlacedSpelling, Store, take, takes
from ..dashboards import JsonString
from ..files import BLANKS, BoundError, Fault, FileError
from ..queries import Edit, Query, edited
from ..rule_files import RuleFile
from ..scalars import Scalar
from . import Explains, found_in, look_at
from .comments import Comment, Ignored, Silences, codes_of, ignored_in, silenced_in
from .findings import Finding, Fix, Severity, Span, TextEdit, Tree
from .fixes import MOST_READS, all_fixed, right_of
from .records import SharedRecords
from .rule_places import MOST_INTERVALS, RulePlace, rules_of
from .subject import IsWritten, RuleContext, always
from .table import LIVE, REJECTED, UNUSED, Selection, known_codes

# How many characters are counted for a finding that is kept.
_FINDING = 500


class KnownLooks:
    """Looks at queries, each once for all rules of which the linter knows the same."""

    def __init__(self) -> None:
        self._recorded: Mapping[str, int] = {}
        self._known = Store()

    def look_at(
        self, query: str, selection: Selection, context: RuleContext, is_written: IsWritten, explains: Explains, budget: Budget
    ) -> List[Finding]:
        """As `look_at` of the linter does, as far as the budget goes. The changes that a fix means to the tree are not kept."""
        if is_written is not always:
            # (what stands for a variable may be another variable elsewhere)
            take(query, budget)
            return look_at(query, selection, context, is_written, explains)
        key = self._key(query, selection, context)
        if key not in self._known:
            for text in (query, *context.template_queries):
                take(text, budget)
            found = look_at(query, selection, context, is_written, explains)
            _count_fixes(query, found, budget)
            self._keep(key, [it._replace(fix=it.fix and it.fix._replace(changes=())) for it in found])
        known: List[Finding] = self._known[key]
        return known

    def keep(self, query: str, selection: Selection, context: RuleContext, found: List[Finding]) -> None:
        """Keeps what was found in a query without variables, where no finding has a fix that would be checked."""
        if not any(finding.fix for finding in found):
            self._keep(self._key(query, selection, context), sorted(found, key=lambda it: it[:3]))

    def _key(self, query: str, selection: Selection, context: RuleContext) -> Tuple[Any, ...]:
        if context.recorded is not self._recorded:
            if context.recorded != self._recorded:
                self._known.forget()
            self._recorded = context.recorded
        return query, selection, context.records.key_of(query), context.twice(query), *context.key

    def _keep(self, key: Tuple[Any, ...], found: List[Finding]) -> None:
        self._known.keep(key, found, len(key[0]) + _FINDING * (1 + len(found)))


LOOKS = KnownLooks()


def _count_fixes(query: str, found: List[Finding], budget: Budget) -> None:
    """Counts a query again that is read to check fixes."""
    if any(it.fix for it in found):
        takes(query, budget)


# A part that changed is written whole where it is longer, or where such parts of a file, each times what is there instead, are too large.
_LONGEST_COMPARED, _MOST_COMPARED = 1_000, 250_000
# What is compared, whole: words, blanks, and each other character.
_PIECE = re.compile(r"\w+|\s+|\W")
# More findings than anyone reads of a file.
MOST_FINDINGS = 5_000
# For so many rules that differ an alias's query is looked at.
MOST_CONTEXTS = 16
# The most characters of changed queries that a report on a file has.
_MOST_FIXED = 4_194_304

_UNUSED = "the comment silences nothing: no such finding is there"
# A query, and the text that is to be there instead.
_Change = Tuple[Query, str]


class FileFinding(NamedTuple):
    """A finding, and the part of the file that it is about."""

    start: int
    end: int
    finding: Finding
    # The changed query, where there is a fix and these are not too long together, and the edits of the file that make it, where it spells
    # the query plainly.
    fixed_query: Optional[str]
    edits: Tuple[Edit, ...]


class FileLinter:
    """Looks at the queries of one file."""

    def __init__(
        self, document: Document, selection: Selection, looks: KnownLooks = LOOKS, shared: Optional[SharedRecords] = None
    ) -> None:
        self._document = document
        self._shared = shared
        self._selection = selection
        self._looks = looks
        source = document.source
        self._silences = Silences(source) if isinstance(document, RuleFile) else None
        # What is not looked at.
        self.left: List[Fault] = []
        # The codes that comments silence of a query, by its identity, and the comments of other files that silence none.
        self._silenced_codes: Dict[int, Set[str]] = {}
        self._unused: List[Comment] = []
        self._fixed_length = 0
        # The queries with their fixes, by what these go by.
        self._fixed: Dict[Tuple[Any, ...], str] = {}
        self._budget, self._compared = document.checker.lint_tokens, Budget(_MOST_COMPARED)
        self._reads = MOST_READS
        # The document that a text with fixes was read as, and the edits that make this text.
        self.fixed_document = document
        self.fixed_edits: List[Edit] = []
        self._rules: Dict[int, List[RulePlace]] = {}
        if isinstance(document, RuleFile):
            self._take_rules(document)

    def over(self, document: Document) -> FileLinter:
        """The same that looks at another document."""
        return FileLinter(document, self._selection, self._looks, self._shared)

    def _take_rules(self, file: RuleFile) -> None:
        budget = Budget(self._budget.most)
        places, cut = rules_of(file, budget, self._shared)
        for rule in places:
            self._rules.setdefault(rule.query_end, []).append(rule)
        for text in file.texts:
            for rule in rules_of(text.document, budget, self._shared)[0] if isinstance(text.document, RuleFile) else ():
                placed = RulePlace(text.at(rule.start), text.at(rule.end), text.at(rule.query_end), rule.context)
                self._rules.setdefault(placed.query_end, []).append(placed)
        if not budget.takes(0):
            message = f"not looked for: all rules in a circle, of which the queries have more than {budget.most:,} tokens (--max-lint-tokens)"
            self.left.append(Fault(0, 0, message))
        message = f"its aliases are in groups of more than {MOST_INTERVALS} intervals: the rule is looked at with {MOST_INTERVALS} of these"
        self.left += [Fault(at, at, message) for at in cut]

    def findings(self) -> List[FileFinding]:
        found: List[FileFinding] = []
        left: List[Query] = []
        checker = self._document.checker
        for query in checker.admitted(self._document.queries, left):
            if len(found) > MOST_FINDINGS:
                self.left.append(query.whole(f"not looked at from here on: there are more than {MOST_FINDINGS:,} findings before"))
                break
            try:
                found += [self._placed(query, it) for it in self._look_at_query(query)]
            except RecursionError:
                self.left.append(query.whole("not looked at: nested too deeply for the linter"))
            except BoundError:
                message = f"not looked at from here on: the queries of the file have more than {self._budget.most:,} tokens together"
                self.left.append(query.whole(f"{message} (--max-lint-tokens)"))
                break
            except ValueError as error:
                self.left.append(checker.rejected(query, error))
        self.left += checker.left(left)
        if not self.left and self._selection.has(UNUSED):
            found += self._unused_comments()
        return sorted(found, key=lambda it: (it.start, it.end, it.finding.code, it.finding.message))

    def silenced(self, query: Query) -> FrozenSet[str]:
        """The codes that comments silence of a query in all rules that have it."""
        return frozenset.intersection(*(ignored for _, ignored in self._contexts(query))) | ignored_in(query.text)

    def _look_at_query(self, query: Query) -> List[Finding]:
        """What is found in a query, for each of the rules that have it."""
        found: Dict[Tuple[int, int, str, str], Finding] = {}
        contexts = self._contexts(query)
        if len(contexts) > MOST_CONTEXTS:
            count = f"{len(contexts):,} rules that differ"
            self.left.append(query.whole(f"an alias has it in {count}: it is looked at for {MOST_CONTEXTS} of these"))
        is_written, explains = self._is_written(query), self._document.checker.explains
        for context, ignored in contexts[:MOST_CONTEXTS]:
            for finding in self._looks.look_at(query.text, self._selection, context, is_written, explains, self._budget):
                if finding.code not in ignored:
                    found[(*finding.span, finding.code, finding.message)] = finding
                else:
                    self._silenced_codes.setdefault(id(query), set()).add(finding.code)
        if any(finding.code == REJECTED for finding in found.values()):
            # (nobody knows what they would silence)
            self._silenced_codes[id(query)] = set(known_codes())
        elif "promql:" in query.text:
            self._look_at_comments(query, [context for context, _ in contexts[:MOST_CONTEXTS]])
        return list(found.values())

    def _look_at_comments(self, query: Query, contexts: Sequence[RuleContext]) -> None:
        """Looks at the comments of a query: what is found without them, and which of them silence nothing of that."""
        for _ in contexts:
            take(query.text, self._budget)
        is_written, tree = self._is_written(query), promql.parse(query.text)
        found = (found_in(query.text, tree, self._selection, context, is_written, frozenset()) for context in contexts)
        codes = {finding.code for findings in found for finding in findings}
        self._silenced_codes.setdefault(id(query), set()).update(codes)
        for comment in silenced_in(query.text) if self._silences is None else ():
            placed = Comment(query.offsets[comment.start], query.offsets[comment.end], comment.words)
            if not placed.silences(codes):
                self._unused.append(placed)

    def _unused_comments(self) -> Iterator[FileFinding]:
        """A finding for each comment that silences nothing, as far as its codes are looked for."""
        if self._silences:
            for query in self._document.queries:
                codes = set(known_codes()) if query.skipped else self._silenced_codes.get(id(query), set())
                for _, start, end in self._places(query) if codes else ():
                    self._silences.use(start, end, codes)
        for comment in (*self._unused, *(self._silences.unused() if self._silences else ())):
            # (what a server tells is not looked for)
            if all(any(it not in LIVE and self._selection.has(it) for it in codes_of(word)) or not codes_of(word) for word in comment.words):
                finding = Finding(Span(0, 0), UNUSED, _UNUSED, Severity.WARNING)
                yield FileFinding(comment.start, comment.end, finding, None, ())

    def _contexts(self, query: Query) -> List[Tuple[RuleContext, Ignored]]:
        """The rules that have a query and differ to the linter, and what comments silence there."""
        silences = self._silences
        found: Dict[Tuple[Any, ...], Tuple[RuleContext, Ignored]] = {}
        for context, start, end in self._places(query):
            ignored = silences.between(start, end) if silences else frozenset()
            found.setdefault((context.key, context.same_query, ignored), (context, ignored))
        return list(found.values())

    def _places(self, query: Query) -> List[Tuple[RuleContext, int, int]]:
        """The rules that have a query, and where they are."""
        end = query.spelling.end if isinstance(query.spelling, (Scalar, PlacedSpelling)) else -1
        rules = [(it.context, it.start, it.end) for it in self._rules.get(end, ())]
        return rules or [(RuleContext(), query.offsets[0], query.offsets[-1])]

    @staticmethod
    def _is_written(query: Query) -> IsWritten:
        variables = query.variables
        if not variables:
            return always
        put_back = variables.put_back
        return lambda part: put_back(part) == part

    def _placed(self, query: Query, finding: Finding) -> FileFinding:
        start, end = (query.offsets[at] for at in finding.span)
        fix = None if query.kept else finding.fix
        edits = self._plain_edits(query, fix.edits) if fix else None
        if query.variables and edits is None:
            fix = None
        made = self._fixed_query(query, fix) if fix else None
        shown = finding._replace(message=_with_variables(query, finding.message), fix=fix)
        return FileFinding(start, end, shown, made, tuple(edits or ()))

    def _fixed_query(self, query: Query, fix: Fix) -> Optional[str]:
        """The query with a fix, as long as those of the file are not too long together."""
        self._fixed_length += len(query.text)
        return _with_variables(query, edited(query.text, fix.edits)) if self._fixed_length <= _MOST_FIXED else None

    def _plain_edits(self, query: Query, edits: Sequence[TextEdit]) -> Optional[List[Edit]]:
        """Edits of the file, where it has the parts of the query as they are."""
        source, made = self._document.source.text, []
        for edit in edits:
            start, end = query.offsets[edit.start], query.offsets[edit.end]
            if edit.start == edit.end and edit.start and not isinstance(query.spelling, JsonString):
                # (nothing is between two characters, where line ends are folded, too)
                start = end = query.offsets[edit.start - 1] + 1
            is_json = isinstance(query.spelling, JsonString)
            # (a block has the indentation of its lines as well)
            if not is_json and source[start:end].split() != query.text[edit.start : edit.end].split():
                return None
            if not self._is_written(query)(edit.text):
                return None
            made.append(Edit(start, end, json.dumps(edit.text, ensure_ascii=source.isascii())[1:-1] if is_json else edit.text))
        return made

    # ---- fixes

    def edits_of(self, found: FileFinding) -> List[Edit]:
        """The edits of the file that make the fix of a finding. Raises where it would not be read as that."""
        query = next(it for it in self._document.queries if it.offsets[0] <= found.start <= it.offsets[-1])
        if not found.finding.fix or self._with([(query, edited(query.text, found.finding.fix.edits))]) is None:
            raise FileError("left as it is: fixed, it would not be read as the same")
        return self.fixed_edits

    def fixed(self) -> Tuple[str, int]:
        """The text of the file with all fixes in it, and how many queries that changes."""
        changes = [change for change in map(self._change, self._document.queries) if change]
        self._reads = MOST_READS
        text = self._with(changes)
        if text is None:
            changes = self._right(changes[: len(changes) // 2]) + self._right(changes[len(changes) // 2 :])
            text = self._with(changes)
        if text is None:
            raise FileError(f"{self._document.source.name}: left as it is: fixed, it would not be read as the same")
        return text, len(changes)

    def _right(self, changes: Sequence[_Change]) -> List[_Change]:
        """Those of some changes with which the file is read as it is to be, as far as the file is read so often to find them."""
        return right_of(changes, lambda some: self._reads > 0 and self._with(some) is not None, lambda: self._reads > 0)

    def _with(self, changes: Sequence[_Change]) -> Optional[str]:
        """The text of the file with these changes, where it is read as that."""
        source = self._document.source
        if not changes:
            return source.text
        wanted = {id(query): text.rstrip(BLANKS) for query, text in changes}
        texts = [wanted.get(id(query), query.text) for query in self._document.queries]
        for plainly in (True, False):
            self._reads -= 1
            edits = [self._edits(query, text, plainly) for query, text in changes]
            self.fixed_edits = [edit for some in edits for edit in some]
            made = edited(source.text, self.fixed_edits)
            if all(edits) and self._has(made, texts):
                return made
        return None

    def _change(self, query: Query) -> Optional[_Change]:
        if query.skipped or query.kept or not self._document.checker.admits(query.text) or not self._budget.takes(0):
            return None
        contexts, is_written = self._contexts(query), self._is_written(query)

        def look(text: str, tree: Tree) -> List[Finding]:
            # (what a fix changes is in all rules that have the query)
            context, _ = contexts[0]
            for it in (text, *context.template_queries):
                take(it, self._budget)
            found = list(found_in(text, tree, self._selection, context, is_written))
            _count_fixes(text, found, self._budget)
            if is_written is always:
                self._looks.keep(text, self._selection, context, found)
            return [it for it in found if not any(it.code in ignored for _, ignored in contexts)]

        key = query.text, *(ignored for _, ignored in contexts), *contexts[0][0].key
        if is_written is not always or key not in self._fixed:
            try:
                self._fixed[key] = all_fixed(query.text, look)
            except (RecursionError, ValueError, BoundError):
                # (as is told by `findings`)
                return None
        return (query, self._fixed[key]) if self._fixed[key] != query.text else None

    def _edits(self, query: Query, text: str, plainly: bool) -> List[Edit]:
        """What writes another text in the place of a query: edits of the parts that differ, or one of the whole. There is none of a whole
        query with variables, since others stand there for them."""
        plain = self._plain_edits(query, _changed_parts(query.text, text, self._compared)) if plainly or query.variables else None
        if plain is None:
            return [] if query.variables else [query.spelling.edit(text)]
        return plain

    def _has(self, text: str, queries: Sequence[str]) -> bool:
        """Whether a text of the file is read as these queries, and all else in it as before."""
        source = self._document.source._replace(text=text)
        try:
            # (a document of any kind is made of a source and a checker)
            self.fixed_document = type(self._document)(source, checker=self._document.checker.anew())
            read = [query.text for query in self.fixed_document.queries]
            return read == list(queries) and self._document.same(text, lambda old, new: True)
        except FileError:
            return False


def _with_variables(query: Query, text: str) -> str:
    return query.variables.put_back(text) if query.variables else text


def _changed_parts(old: str, new: str, budget: Budget) -> List[TextEdit]:
    """The parts of a text that differ from a new one."""
    first = next((at for at, pair in enumerate(zip(old, new)) if pair[0] != pair[1]), min(len(old), len(new)))
    rest = min(len(old), len(new)) - first
    last = next((at for at in range(rest) if old[-1 - at] != new[-1 - at]), rest)
    before, after = old[first : len(old) - last], new[first : len(new) - last]
    pieces, others = _PIECE.findall(before), _PIECE.findall(after)
    if max(len(before), len(after)) > _LONGEST_COMPARED or not budget.takes(len(pieces) * len(others)):
        return [TextEdit(first, first + len(before), after)]
    places = [*accumulate(map(len, pieces), initial=first)]
    parts = SequenceMatcher(None, pieces, others, autojunk=False).get_opcodes()
    return [TextEdit(places[it[1]], places[it[2]], "".join(others[it[3] : it[4]])) for it in parts if it[0] != "equal"]


def fault_of(found: FileFinding) -> Fault:
    """A finding as a message for people."""
    finding = found.finding
    hint = " (--fix)" if finding.fix else ""
    return Fault(found.start, found.end, f"{finding.severity.value} {finding.code}: {finding.message}{hint}")
