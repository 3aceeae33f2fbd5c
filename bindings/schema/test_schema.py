#!/usr/bin/env python3
"""Tests the schema of the JSON form, promql.schema.json beside this file (docs/reference/json.md, "Schema"):

- the form of each query that the rows accept is valid by it;
- a form that was changed in one place is not, but for the changes that a schema does not see (changes.py);
- its objects, their members and their words are those of the page's tables, and its functions those of docs/reference/functions.md.

usage: bindings/schema/test_schema.py   with the program of dist/. The last line is 'N passed, M failed'
"""

import json
import re
import subprocess
import sys
import threading
from importlib.machinery import SourceFileLoader
from importlib.util import module_from_spec, spec_from_loader
from pathlib import Path

import jsonschema

import changes

ROOT = Path(__file__).resolve().parents[2]
sys.path.insert(0, str(ROOT / "bin"))
from checks import Checks, released  # noqa: E402

SCHEMA = json.loads(Path(__file__).with_name("promql.schema.json").read_text(encoding="utf-8"))
# Forms of at most so many bytes are changed.
MOST_BYTES = 1000
# Why a query that is accepted has no form.
NUMBER_TOO_WIDE = 6

checks = Checks(most=20)


def check(is_so, message):
    """Counts one thing that is checked, and says where it fails."""
    checks.check(is_so, message[:300])


# ---- forms


def row_reader():
    """The script bin/rows as a module."""
    sys.dont_write_bytecode = True
    loader = SourceFileLoader("rows", str(ROOT / "bin" / "rows"))
    module = module_from_spec(spec_from_loader("rows", loader))
    loader.exec_module(module)
    return module


def accepted_queries():
    """The queries of all rows that print something, each once."""
    rows = row_reader()
    all_rows = rows.read_rows(sorted((ROOT / "rows").glob("*.tsv")))
    return list(dict.fromkeys(rows.query_of(row.mode, row.text) for row in all_rows if row.code == 0))


def forms_of(queries, places):
    """The form of each query that has one, with places or without."""
    asked = "".join(json.dumps({"query": query, "places": places}) + "\n" for query in queries)
    # (the limits of the stored run, since rows are longer than is allowed by default)
    _, _, *limits = (ROOT / "crates" / "promql" / "args").read_text(encoding="utf-8").split()
    command = [released("promql"), "batch", "json", *limits]
    ran = subprocess.run(command, input=asked.encode(), stdout=subprocess.PIPE, timeout=60)
    answers = [json.loads(line) for line in ran.stdout.splitlines()]
    check(len(answers) == len(queries), f"{len(answers)} answers to {len(queries)} queries")
    for query, answer in zip(queries, answers):
        check("ok" in answer or answer["code"] == NUMBER_TOO_WIDE, f"{query}: {answer}")
    return [answer["ok"] for answer in answers if "ok" in answer]


def shapes_in(form):
    """What each object of a form is like, without its texts and numbers: objects of one shape have the same changes."""
    for path, kind in changes.objects_in(form):
        node = changes.object_at(form, path)
        yield kind, tuple((member, node[member] if member in ("op", "type") else shape(node[member])) for member in node)


def shape(value):
    if isinstance(value, list):
        return tuple(type(item).__name__ for item in value[:2])
    if isinstance(value, dict) and "variadic" in value:
        return len(value["argTypes"]), value["variadic"]
    return type(value).__name__


def forms_to_change(forms):
    """Short forms, which together have an object of each shape."""
    seen = set()
    for form in sorted(forms, key=lambda form: len(json.dumps(form))):
        found = set(shapes_in(form)) if len(json.dumps(form)) <= MOST_BYTES else seen
        if not found <= seen:
            seen |= found
            yield form


def check_forms(validator):
    queries = accepted_queries()
    forms = [*forms_of(queries, places=False), *forms_of(queries, places=True)]
    for form in forms:
        check(validator.is_valid(form), f"not valid: {json.dumps(form)}")
    seen = set()
    for form in forms_to_change(forms):
        for what, changed in changes.changes(form):
            seen.add(what)
            is_valid = validator.is_valid(changed)
            check(is_valid == (what in changes.UNSEEN), f"{what}: {'valid' if is_valid else 'not valid'}: {json.dumps(changed)}")
    for what in changes.UNSEEN:
        check(what in seen, f"no form was changed so: {what}")


# ---- the pages


def rows_of(page, heading):
    """The rows of the tables below a heading whose first cell is code."""
    text = (ROOT / "docs" / "reference" / f"{page}.md").read_text(encoding="utf-8")
    section = re.split(r"^## ", text.split(f"\n## {heading}\n", 1)[1], maxsplit=1, flags=re.M)[0]
    return [[cell.strip() for cell in line.strip("|").split(" |")] for line in section.splitlines() if line.startswith("| `")]


def names_in(cell):
    return re.findall(r"`(.*?)`", cell)


def members_of(definition):
    """The members that an object of the schema may have, with their words."""
    found = {member: schema.get("description") for member, schema in definition.get("properties", {}).items()}
    for part in definition.get("oneOf", ()):
        found.update(members_of(part))
    return found


def check_page():
    objects = {names_in(name)[0]: words for heading in ("Parts", "Nodes") for name, words in rows_of("json", heading)}
    nodes = [names_in(name)[0] for name, _ in rows_of("json", "Nodes")]
    members = {(name, names_in(member)[0]): words for names, member, words in rows_of("json", "Members") for name in names_in(names)}
    definitions = {name: it for name, it in SCHEMA["$defs"].items() if members_of(it) and name != "expression"}
    check(set(definitions) == set(objects), f"the objects of the page: {sorted(set(definitions) ^ set(objects))}")
    check(set(SCHEMA["$defs"]["expression"]["properties"]["type"]["enum"]) == set(nodes) == set(changes.NODES), "the kinds of nodes")
    for name, definition in definitions.items():
        check(definition["description"] == objects.get(name), f"{name}: {definition['description']}")
        for member, words in members_of(definition).items():
            if name in nodes and member == "type":
                check(definition["properties"]["type"] == {"const": name}, f"{name}: its type")
            else:
                check(words == members.pop((name, member), None), f"{name}, {member}: {words}")
    check(not members, f"the schema has not {sorted(members)}")


def check_functions():
    wanted = {}
    for names, types, variadic, value, experimental in rows_of("functions", "The table"):
        arguments = [] if types == "none" else types.split(", ")
        for name in names_in(names):
            wanted[name] = (arguments, int(variadic), value, experimental == "yes")
    functions = SCHEMA["$defs"]["function"]["enum"]
    found = {it["name"]: (it["argTypes"], it["variadic"], it["returnType"], it["experimental"]) for it in functions}
    check(len(found) == len(functions), "a function is there twice")
    check(found == wanted, f"the functions of the page: {sorted(set(found) ^ set(wanted))}")


def main():
    check(SCHEMA["$schema"] == jsonschema.Draft202012Validator.META_SCHEMA["$id"], "it is of 2020-12")
    jsonschema.Draft202012Validator.check_schema(SCHEMA)
    check_page()
    check_functions()
    check_forms(jsonschema.Draft202012Validator(SCHEMA))


# Forms of great heights need many calls within calls.
sys.setrecursionlimit(1_000_000)
threading.stack_size(1 << 30)
thread = threading.Thread(target=main)
thread.start()
thread.join()
sys.exit(checks.end())
