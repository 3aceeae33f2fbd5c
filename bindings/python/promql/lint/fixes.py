"""Fixes of a query: each is checked before it is shown or used."""

from __future__ import annotations

from bisect import bisect_left, insort
from typing import Any, Callable, Dict, Iterator, List, Optional, Sequence, Set, Tuple, TypeVar

import promql

from ..queries import edited
from ..token_texts import comments_of
from .findings import Finding, Fix, TextEdit, Tree

Item = TypeVar("Item")
# More rounds of fixes than any query needs.
_MOST_ROUNDS = 20
# Of so few fixes each is checked by itself. More are checked together, by halves where they are not right together.
_FEW = 4
# How often a query is read at most to check what is found in it, and to fix it; and a file, to find which fixes are right.
MOST_READS = 24


def right_of(items: Sequence[Item], are_right: Callable[[Sequence[Item]], bool], goes_on: Callable[[], bool]) -> List[Item]:
    """Those of some that are right together, which are found by halves as long as that is to go on."""
    if are_right(items):
        return list(items)
    half = len(items) // 2
    return right_of(items[:half], are_right, goes_on) + right_of(items[half:], are_right, goes_on) if half and goes_on() else []


# A query that fixes make, with its tree.
Changed = Tuple[str, Tree]


class FixChecker:
    """Checks fixes of a query, which is read at most so often for that: what is not checked then counts as wrong."""

    def __init__(self, query: str, tree: Tree) -> None:
        self._query = query
        self._tree = tree
        self._reads = MOST_READS
        self._comments = comments_of(query)

    def checked(self, fixes: Sequence[Optional[Fix]]) -> List[Optional[Fix]]:
        """The fixes, without those that are wrong."""
        found = [fix for fix in fixes if fix]
        groups = [[fix] for fix in found] if len(found) <= _FEW else _apart(found)
        right = {id(fix) for group in groups for fix in self._right(group)}
        return [fix if fix and id(fix) in right else None for fix in fixes]

    def _right(self, fixes: Sequence[Fix]) -> List[Fix]:
        """Those of some fixes that do not meet which are right."""
        return right_of(fixes, lambda some: self.change(some) is not None, lambda: self._reads > 0)

    def change(self, fixes: Sequence[Fix]) -> Optional[Changed]:
        """What fixes make together, where it has the tree that they mean, and the comments of the query."""
        if not self._reads:
            return None
        self._reads -= 1
        changed = edited(self._query, [edit for fix in fixes for edit in fix.edits])
        try:
            tree = promql.parse(changed)
        except ValueError:
            return None
        if comments_of(changed) != self._comments:
            return None
        changes = {id(old): new for fix in fixes for old, new in fix.changes}
        return (changed, tree) if _is_meant(self._tree, changes, tree) else None

    def best_change(self, fixes: Sequence[Fix]) -> Optional[Changed]:
        """What as many of the fixes make as are right together, as far as that is found."""
        group = next(_apart(fixes))
        while True:
            changed = self.change(group)
            if changed or len(group) == 1:
                return changed
            right = self._right(group[: len(group) // 2]) or self._right(group[len(group) // 2 :])
            group = right or group[:1]
            if not self._reads:
                return None


def _is_meant(tree: Tree, changes: Dict[int, Any], found: Tree) -> bool:
    """Whether a tree is another one with these changes."""
    todo: List[Tuple[Any, Any]] = [(tree, found)]
    while todo:
        old, new = todo.pop()
        while id(old) in changes:
            old = changes[id(old)]
        if type(old) is not type(new):
            return False
        if isinstance(old, dict):
            if old.keys() != new.keys():
                return False
            todo.extend((item, new[key]) for key, item in old.items())
        elif isinstance(old, list):
            kept = [item for item in old if changes.get(id(item), item) is not None]
            if len(kept) != len(new):
                return False
            todo.extend(zip(kept, new))
        elif old != new:
            return False
    return True


def all_fixed(query: str, look: Callable[[str, Tree], List[Finding]]) -> str:
    """A query with the fixes of what is found in it, and of what is found then, until there is none."""
    try:
        tree = promql.parse(query)
    except ValueError:
        return query
    for _ in range(_MOST_ROUNDS):
        fixes = [finding.fix for finding in look(query, tree) if finding.fix]
        changed = FixChecker(query, tree).best_change(fixes) if fixes else None
        if not changed:
            break
        query, tree = changed
    return query


def _apart(fixes: Sequence[Fix]) -> Iterator[List[Fix]]:
    """The fixes in groups of those that do not meet, each as large as may be."""
    left = list(fixes)
    while left:
        group = _Group()
        left = [fix for fix in left if not group.take(fix)]
        yield group.fixes


class _Group:
    """Fixes that do not meet: they change different parts of the text, and of the tree."""

    def __init__(self) -> None:
        self.fixes: List[Fix] = []
        self._edits: List[TextEdit] = []
        self._changed: Set[int] = set()

    def take(self, fix: Fix) -> bool:
        """Takes a fix in, and returns whether that was possible."""
        parts = {id(old) for old, _ in fix.changes}
        if parts & self._changed or any(map(self._meets, fix.edits)):
            return False
        self.fixes.append(fix)
        self._changed |= parts
        for edit in fix.edits:
            insort(self._edits, edit)
        return True

    def _meets(self, edit: TextEdit) -> bool:
        at = bisect_left(self._edits, edit)
        others = self._edits[max(at - 1, 0) : at + 1]
        return any(edit.start < it.end and it.start < edit.end or edit.start == it.start for it in others)
