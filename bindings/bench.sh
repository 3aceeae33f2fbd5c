#!/usr/bin/env bash
# bindings/bench.sh [--inner] [RUNS]   what a call costs from C, Rust, Go and Python, for the queries of bench/queries, which are
#                                      checked, and printed on one line, and of trees: a query is read as a tree, and that is printed.
#                                      Nanoseconds a query, the least of RUNS runs (60); and, where
#                                      valgrind is there, instructions a query from C, which no other job disturbs. --inner also
#                                      measures the same within Rattle, by `bench/run.sh queries`: it needs rt, which first proves
#                                      the crates. The tables say how much more each figure is than that, or else than from C
set -u
here=$(cd "$(dirname "$0")" && pwd)
root=${here%/*}
dist=$root/dist
made=$dist/$(uname -m)
queries=$root/bench/queries/queries.txt
work=$(mktemp -d)
trap 'rm -rf "$work"' EXIT
inner=
if [ "${1:-}" = --inner ]; then
    inner=yes
    shift
fi
runs=${1:-60}

# has COMMAND WHAT: whether there is such a command; says what is not measured where there is none.
has() {
    if command -v "$1" >/dev/null; then return; fi
    echo "not measured: $2: there is no $1 here"
    return 1
}

# The programs print 'CALL KIND FIGURE' in lines, and so does each of these functions. The calls are `check`, `line`, `tree` and `text`, of
# which those of C write the JSON text of a tree and print it.

# within_rattle UNIT: the figures of `bench/run.sh queries`. What it calls `parse` is what a check does.
within_rattle() {
    awk -v unit="$1" '
        /^(plain|patterns): / { kind = $1; sub(":", "", kind); of = $2 == "instructions" ? $2 : "nanoseconds" }
        of == unit && ($1 == "parse" || $1 == "line") { print $1 == "parse" ? "check" : $1, kind, $2 }' "$work/inner"
}

from_c() {
    "${CC:-cc}" -std=c11 -O2 -I"$dist" -o "$work/$1" "$here/c/bench.c" "${@:2}" && "$work/$1" "$queries" "$runs"
}

from_rust() {
    CARGO_TARGET_DIR=$work/target cargo build --offline --quiet --release --example bench --manifest-path "$here/rust/Cargo.toml" &&
        "$work/target/release/examples/bench" "$queries" "$runs"
}

from_go() {
    (cd "$here/go" && GOCACHE=$work/go GOFLAGS=-mod=readonly GOPROXY=off CGO_ENABLED=1 go build -o "$work/bench_go" ./internal/bench) &&
        "$work/bench_go" "$queries" "$runs"
}

# from_python [many]: by the extension; where PROMQL_EXTENSION is empty by ctypes.
from_python() {
    PYTHONDONTWRITEBYTECODE=1 PYTHONPATH=$here/python python3 "$here/python/bench.py" "$queries" "$runs" "$@"
}

# A run makes each call 20 times.
instructions_from_c() {
    local kind
    grep -v '[=!]~' "$queries" >"$work/plain"
    grep '[=!]~' "$queries" >"$work/patterns"
    for kind in plain patterns; do
        valgrind --quiet --tool=callgrind --callgrind-out-file="$work/profile" "$work/static" "$work/$kind" 1 >/dev/null &&
            callgrind_annotate --inclusive=yes "$work/profile" | tr -d , |
            awk -v kind="$kind" -v calls="$((20 * $(wc -l <"$work/$kind")))" '
                /:promql_check / { print "check", kind, int($1 / calls) }
                /:promql_canonical / { print "line", kind, int($1 / calls) }
                /:promql_print / { print "tree", kind, int($1 / (calls * 21 / 20)) }
                /:promql_print_tree / { print "text", kind, int($1 / calls) }'
    done
}

# measure UNIT NAME FUNCTION ARGUMENT..: puts the figures of a function into the table of this unit, each with the name before it.
measure() {
    local unit=$1 name=$2
    shift 2
    if "$@" >"$work/figures"; then
        awk -v OFS='\t' -v name="$name" '{ print name, $1, $2, $3 }' "$work/figures" >>"$work/$unit"
    else
        echo "not measured: $name: its program failed"
    fi
}

print_table() {
    awk -F '\t' -v unit="$1" '
        !($1 in seen) { seen[$1] = 1; names[++count] = $1 }
        { figures[$1, $2, $3] = $4 }
        function cell(name, call, kind,    first, figure) {
            figure = figures[name, call, kind]
            if (figure == "") return ""
            first = figures[names[1], call, kind]
            return name == names[1] || !first ? figure "       " : sprintf("%d %+5.0f%%", figure, 100 * (figure / first - 1))
        }
        function row(name, a, b, c, d) { printf "%-24s %18s %18s %18s %18s\n", name, a, b, c, d }
        END {
            row(unit " a query", "check, plain", "line, plain", "check, patterns", "line, patterns")
            for (i = 1; i <= count; i++)
                row(names[i], cell(names[i], "check", "plain"), cell(names[i], "line", "plain"),
                    cell(names[i], "check", "patterns"), cell(names[i], "line", "patterns"))
        }' "$work/$1"
}

# print_trees UNIT: what trees cost, and how many times a line that is.
print_trees() {
    awk -F '\t' -v unit="$1" '
        !($1 in seen) { seen[$1] = 1; names[++count] = $1 }
        { figures[$1, $2, $3] = $4 }
        function cell(name, call, kind,    figure, line) {
            figure = figures[name, call, kind]
            line = figures[name, "line", kind]
            return figure == "" || !line ? figure : sprintf("%d %6.2f x", figure, figure / line)
        }
        function row(name, a, b, c, d) { printf "%-24s %18s %18s %18s %18s\n", name, a, b, c, d }
        END {
            row(unit " a query", "to a tree, plain", "tree to text, plain", "to a tree, patterns", "tree to text, p.")
            for (i = 1; i <= count; i++)
                if ((names[i], "tree", "plain") in figures)
                    row(names[i], cell(names[i], "tree", "plain"), cell(names[i], "text", "plain"),
                        cell(names[i], "tree", "patterns"), cell(names[i], "text", "patterns"))
        }' "$work/$1"
}

touch "$work/nanoseconds" "$work/instructions"
if [ -z "$inner" ]; then
    echo "not measured: within Rattle: --inner does it"
elif has rt 'within Rattle' && "$root/bench/run.sh" queries >"$work/inner"; then
    measure nanoseconds 'within Rattle' within_rattle nanoseconds
    measure instructions 'within Rattle' within_rattle instructions
fi
if has "${CC:-cc}" C; then
    measure nanoseconds 'C, libpromql.a' from_c static "$made/libpromql.a"
    measure nanoseconds 'C, libpromql.so' from_c shared -L"$made" -lpromql -Wl,-rpath,"$made"
    if has valgrind 'instructions from C'; then measure instructions 'C, libpromql.a' instructions_from_c; fi
fi
if has cargo Rust; then measure nanoseconds Rust from_rust; fi
if has go Go; then measure nanoseconds 'Go, cgo' from_go; fi
if has python3 Python; then
    measure nanoseconds 'Python' from_python
    measure nanoseconds 'Python, canonical_many' from_python many
    PROMQL_EXTENSION='' measure nanoseconds 'Python, ctypes' from_python
fi
for unit in nanoseconds instructions; do
    print_table "$unit"
    print_trees "$unit"
done
echo "load of the machine: $(cut -d' ' -f1-3 /proc/loadavg)"
