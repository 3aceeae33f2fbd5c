#!/usr/bin/env python3
"""Writes what is made of the tables of targets/ beside this file: the tables of the packages, the functions of the schema, and the tables
of docs/reference/functions.md and docs/reference/targets.md.

usage: bindings/schema/write_tables.py [--check]   with --check it writes nothing, and fails where something is not what the tables give, or
       where the tables of the crates differ from these (crate_tables.py)
"""

import json
import re
import sys
from pathlib import Path
from typing import Callable, Dict, List, Sequence

import crate_tables
import package_tables
import page_tables
from tables import functions_of

ROOT = Path(__file__).resolve().parents[2]
MOST_COLUMNS = 140
ENUM = re.compile(r'(?<="additionalProperties": false,\n      "enum": \[\n)        .*?(?=\n      \]\n)', re.S)
MARKED = re.compile(r"(<!-- ([^,\n]*), by bindings/schema/write_tables\.py -->\n\n).*?(\n\n<!-- end -->)", re.S)
# Where pages tell how many functions there are.
COUNTS = {"docs/reference/functions.md": r"(?<=There are )\d+(?= functions\.)", "docs/README.md": r"(?<=\| the )\d+(?= functions \|)"}


def schema_function(form: Dict[str, object]) -> str:
    """A function as the schema has it, on one line where that is not too long."""
    line = f"        {json.dumps(form)}"
    if len(line) + 1 < MOST_COLUMNS:
        return line
    members = [f"          {json.dumps(name)}: {json.dumps(value)}" for name, value in form.items()]
    return "\n".join(["        {", ",\n".join(members), "        }"])


def with_functions(schema: str) -> str:
    forms = [
        {"argTypes": it.arguments, "experimental": it.is_experimental, "name": it.name, "returnType": it.value, "variadic": it.variadic}
        for it in functions_of("rules")
    ]
    return ENUM.sub(lambda found: ",\n".join(map(schema_function, forms)), schema)


def with_tables(page: str) -> str:
    """A page with each of its tables."""
    return MARKED.sub(lambda found: f"{found[1]}{page_tables.TABLES[found[2]]()}{found[3]}", page)


def made() -> Dict[str, str]:
    """The text of each file that has something of the tables."""
    texts = {f"bindings/{name}": table() for name, table in package_tables.TABLES.items()}
    changed: Dict[str, Callable[[str], str]] = {"bindings/schema/promql.schema.json": with_functions}
    changed.update(dict.fromkeys(("docs/reference/functions.md", "docs/reference/targets.md"), with_tables))
    for name, change in changed.items():
        texts[name] = change((ROOT / name).read_text(encoding="utf-8"))
    for name, count in COUNTS.items():
        text = texts.get(name) or (ROOT / name).read_text(encoding="utf-8")
        texts[name] = re.sub(count, str(len(functions_of("rules"))), text)
    return texts


def unused_tables(texts: Dict[str, str]) -> List[str]:
    shown = {found[2] for text in texts.values() for found in MARKED.finditer(text)}
    return [f"no page has the table `{name}`" for name in page_tables.TABLES if name not in shown]


def main(words: Sequence[str]) -> int:
    if words not in ([], ["--check"]):
        sys.exit(__doc__)
    texts = made()
    wrong = crate_tables.differences() + unused_tables(texts)
    for name, text in texts.items():
        path = ROOT / name
        if not words:
            path.write_text(text, encoding="utf-8")
        elif not path.is_file() or path.read_text(encoding="utf-8") != text:
            wrong.append(f"{name} is not what the tables give: run bindings/schema/write_tables.py")
    for message in wrong:
        print(f"FAILED {message}")
    return 1 if wrong else 0


if __name__ == "__main__":
    sys.exit(main(sys.argv[1:]))
