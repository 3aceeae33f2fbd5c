"""Rule files for the tests of the language server."""

import random

LABELS = ("job", "instance", "code", "method", "path", "zone", "team", "cluster")
FORMS = (
    "sum by ({a}, {b}) (rate({name}_total{{{a}=\"x{n}\", {b}=~\"y.*\"}}[5m]))",
    "histogram_quantile(0.{n}, sum by (le, {a}) (rate({name}_seconds_bucket{{{b}!=\"z{n}\"}}[10m])))",
    "avg without ({a}) ({name}_bytes) / on ({b}) group_left ({a}) max by ({b}) ({name}_limit) > {n}",
    "absent({name}_up{{{a}=\"v{n}\"}}) or {name}_down unless on ({b}) {name}_off == {n}",
    "clamp_max(increase({name}_errors_total[{n}m]), {n}) * 100 + label_replace({name}, \"{a}\", \"$1\", \"{b}\", \"(.*)\")",
)


def query(number):
    chance = random.Random(number)
    first, second = chance.sample(LABELS, 2)
    return chance.choice(FORMS).format(a=first, b=second, name=f"service_{number % 97}_requests_{number}", n=number % 60 + 1)


def rule_file(rules):
    """A file of so many rules, no two alike, twenty in a group; every fourth one records, and the one after it uses that."""
    lines = ["groups:"]
    for number in range(rules):
        if number % 20 == 0:
            lines += [f"- name: group {number // 20}", "  interval: 30s", "  rules:"]
        if number % 4 == 0:
            lines += [f"  - record: job:requests_{number}:rate5m", "    expr: |", f"      {query(number)}"]
            lines += ["    labels:", "      team: backend"]
        else:
            text = query(number) if number % 4 != 1 else f"job:requests_{number - 1}:rate5m > {number}"
            lines += [f"  - alert: Alert{number}", "    expr: |-", f"      {text}", "    for: 5m", "    labels:", "      severity: page"]
            lines += ["    annotations:", '      summary: "It is {{ $labels.job }} with {{ $value }}."']
    return "\n".join(lines) + "\n"
