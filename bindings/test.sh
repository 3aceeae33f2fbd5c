#!/usr/bin/env bash
# bindings/test.sh [--install]   builds the bindings for C, Python, Go and Rust against dist/ and tests them, in some minutes and
#                                without rt, and checks the types of scripts in bin/. Says what it could not try here;
#                                --install first installs by apt-get what is missing of Debian's packages. The last line is
#                                'N passed, M failed'
# bindings/test.sh --attack      attacks on the library, the programs of dist/, the Go proxy, the page and the tools for rule files,
#                                in five minutes (docs/guide/security.md); some of them are among the tests above, and run again
# bindings/test.sh --prometheus  compares what queries give before a Prometheus as they are written, printed and enforced, which it
#                                accepts, and the places of errors, in two minutes (bench/meaning, bench/places, bench/targets), where
#                                Debian's package prometheus is installed; --install does not install it, since Debian starts a service
#                                then
# bindings/test.sh --proxy       holds the Go proxy against a Prometheus with several tenants, and an Alertmanager, in two minutes, where
#                                these are installed (docs/guide/proxy.md); and its cache, with a memcached where there is one
# bindings/test.sh --editor      tries the language server in Neovim, in Emacs, and with the extension for VS Code, in half a minute,
#                                where nvim, emacs and node are installed (docs/guide/editor.md)
# bindings/test.sh --arm         runs what dist/ has for ARM under qemu, in ten minutes: the program as bin/test does, and the library from C,
#                                Go and Rust, where qemu-aarch64-static and aarch64-linux-gnu-gcc are installed; and the programs of
#                                both processors in a root that has nothing else (docs/RELEASE.md, "Processors")
# The variable `most` says in how many seconds each command has to end, which is 240 for most of them: a busy machine needs more.
set -u
here=$(cd "$(dirname "$0")" && pwd)
root=${here%/*}
dist=$root/dist
made=$dist/$(uname -m)
queries=$root/bench/queries/queries.txt
# shellcheck source=bin/lib.sh
. "$root/bin/lib.sh"
passed=0
failed=0
work=$(mktemp -d)
trap 'rm -rf "$work"' EXIT
export here root dist made queries work PYTHONDONTWRITEBYTECODE=1
# shellcheck source=bindings/test_python.sh
. "$here/test_python.sh"
# shellcheck source=bindings/test_install.sh
. "$here/test_install.sh"
# shellcheck source=bindings/test_arm.sh
. "$here/test_arm.sh"

# limited COMMAND..: runs a command, or one of the functions that are exported below, which ends in four minutes at the latest, or in as
# many seconds as the variable `most` says.
limited() {
    timeout "${most:-240}" bash -c '"$@"' limited "$@" >"$work/said" 2>&1
}

# try NAME COMMAND..: counts whether the command ends with 0, and prints what it said where it does not.
try() {
    local name=$1 status
    shift
    limited "$@"
    status=$?
    if [ "$status" = 0 ]; then
        passed=$((passed + 1))
    else
        failed=$((failed + 1))
        printf 'FAILED %s, status %s:\n' "$name" "$status"
        tail -n 20 "$work/said"
    fi
}

# add NAME COMMAND..: runs a command whose last line is 'N passed, M failed', and adds what it came to.
add() {
    local name=$1 last status lost=0
    shift
    limited "$@"
    status=$?
    grep '^not tried: ' "$work/said"
    last=$(tail -n 1 "$work/said")
    if [[ $last =~ ^([0-9]+)\ passed,\ ([0-9]+)\ failed$ ]]; then
        passed=$((passed + BASH_REMATCH[1]))
        lost=${BASH_REMATCH[2]}
        echo "$name: $last"
    fi
    if [ "$status" != 0 ] || [ "$lost" != 0 ]; then
        failed=$((failed + (lost > 0 ? lost : 1)))
        printf 'FAILED %s, status %s:\n' "$name" "$status"
        head -n 20 "$work/said"
    fi
}

# has COMMAND WHAT: whether there is such a command; says what is not tried where there is none.
has() {
    if command -v "$1" >/dev/null; then return; fi
    echo "not tried: $2: there is no $1 here"
    return 1
}

# has_module NAME WHAT: the same for a module of Python.
has_module() {
    if python3 -c "import $1" 2>/dev/null; then return; fi
    echo "not tried: $2: Python has no $1 here"
    return 1
}

# python_with_yaml: prints which Python has a reader of YAML, the first one here or Debian's.
python_with_yaml() {
    local python
    for python in python3 /usr/bin/python3; do
        if "$python" -c 'import ruamel.yaml' 2>/dev/null; then
            echo "$python"
            return
        fi
    done
    return 1
}

# has_libyaml PYTHON: whether this Python has the quick reader of YAML.
has_libyaml() {
    "$1" -c 'from yaml import CSafeLoader' 2>/dev/null
}

# install_missing: installs the packages of Debian whose commands are missing here.
install_missing() {
    local -a missing=()
    command -v go >/dev/null || missing+=(golang-go)
    command -v cargo >/dev/null || missing+=(cargo)
    compgen -G '/usr/share/cargo/registry/serde_json-1.*' >/dev/null || missing+=(librust-serde-json-dev)
    command -v cc >/dev/null || missing+=(gcc libc6-dev)
    command -v valgrind >/dev/null || missing+=(valgrind)
    command -v musl-gcc >/dev/null || missing+=(musl-tools)
    command -v qemu-aarch64-static >/dev/null || missing+=(qemu-user-static)
    # (the compiler alone has no C library, which Debian only recommends with it)
    [ -e "$(aarch64-linux-gnu-gcc -print-file-name=libc.a 2>/dev/null)" ] || missing+=(gcc-aarch64-linux-gnu libc6-dev-arm64-cross)
    command -v make >/dev/null || missing+=(make)
    command -v groff >/dev/null || missing+=(groff)
    command -v fish >/dev/null || missing+=(fish)
    command -v zsh >/dev/null || missing+=(zsh)
    python_with_yaml >/dev/null || missing+=(python3-ruamel.yaml)
    python_with_schemas >/dev/null || missing+=(python3-jsonschema)
    python_with_pip >/dev/null || missing+=(python3-pip python3-venv)
    [ -f "$(python_headers)/Python.h" ] || missing+=(python3-dev)
    [ -f "$(yaml_header)" ] || missing+=(libyaml-dev)
    has_libyaml "$(python_with_yaml || echo /usr/bin/python3)" || missing+=(python3-yaml)
    python3 -c 'import pytest' 2>/dev/null || missing+=(python3-pytest)
    python3 -c 'import mypy' 2>/dev/null || missing+=(mypy)
    command -v flake8 >/dev/null || missing+=(flake8)
    command -v shellcheck >/dev/null || missing+=(shellcheck)
    [ -d /etc/grafana/dashboards ] || missing+=(ceph-grafana-dashboards ceph-prometheus-alerts)
    command -v chromium >/dev/null || missing+=(chromium)
    command -v vim >/dev/null || missing+=(vim)
    command -v nvim >/dev/null || missing+=(neovim)
    command -v parallel >/dev/null || missing+=(parallel)
    /usr/bin/python3 -c 'import dask.distributed' 2>/dev/null || missing+=(python3-distributed)
    [ ${#missing[@]} = 0 ] && return
    apt-get update -q && apt-get install -q -y --no-install-recommends "${missing[@]}"
}

# ---- what dist/ shows

# The names that nm prints all begin with promql_, and there are some.
shows_own_names() {
    local names
    names=$(nm --extern-only --defined-only "$@" | awk 'NF > 2 { print $3 }')
    printf '%s\n' "$names"
    grep -q '^promql_print$' <<<"$names" && ! grep -qv '^promql_' <<<"$names"
}

test_names() {
    has nm 'the names that the libraries show' || return
    try 'the names of libpromql.so' shows_own_names --dynamic "$made/libpromql.so"
    try 'the names of libpromql.a' shows_own_names "$made/libpromql.a"
}

# ---- C

build_c() {
    local cc=${CC:-cc}
    local -a flags=(-O2 -Wall -Wextra -Wpedantic -Werror -I"$dist") tests=("$here/c/tests/test_promql.c" -pthread)
    "$cc" -std=c11 "${flags[@]}" -o "$work/test_static" "${tests[@]}" "$made/libpromql.a" &&
        "$cc" -std=c11 "${flags[@]}" -o "$work/test_shared" "${tests[@]}" -L"$made" -lpromql -Wl,-rpath,"$made" &&
        "$cc" -std=c11 "${flags[@]}" -o "$work/test_memory" "$here/c/tests/test_memory.c" "$made/libpromql.a" \
            -Wl,--wrap=malloc,--wrap=realloc,--wrap=pthread_getattr_np &&
        "$cc" -std=c11 "${flags[@]}" -o "$work/test_form" "$here/c/tests/test_form.c" "$made/libpromql.a" &&
        "$cc" -std=c11 "${flags[@]}" -o "$work/test_loading" "$here/c/tests/test_loading.c" -pthread &&
        "$cc" -std=c11 "${flags[@]}" -o "$work/bench" "$here/c/bench.c" "$made/libpromql.a" &&
        "$cc" -std=c99 "${flags[@]}" -o "$work/example" "$here/c/example.c" "$made/libpromql.a"
}

# bench_prints COMMAND..: whether a program of bench.sh prints its eight figures.
bench_prints() {
    local said
    said=$("$@" "$queries" 1)
    printf '%s\n' "$said"
    [ "$(grep -cE '^(check|line|tree|text) (plain|patterns) [1-9][0-9]*$' <<<"$said")" = 8 ]
}

example_prints() {
    local said wanted
    said=$("$work/example" '1+2' 'rate(foo)' 'a  or b' 2>&1)
    wanted=$(printf '%s\n' '1 + 2' "1:6: expected type matrix in call to function 'rate', got vector" 'rate(foo)' '     ^~~' 'a or b')
    printf '%s\n' "$said"
    [ "$(sort <<<"$said")" = "$(sort <<<"$wanted")" ]
}

# has_sanitizers WHAT: whether the C compiler links programs with AddressSanitizer; says what is not tried where it does not.
has_sanitizers() {
    if "${CC:-cc}" -fsanitize=address,undefined -x c -o "$work/sanitized" - <<<'int main(void) { return 0; }' 2>/dev/null &&
        "$work/sanitized" 2>/dev/null; then return; fi
    echo "not tried: $1: ${CC:-cc} has none here"
    return 1
}

build_sanitized() {
    local -a sanitized=("${CC:-cc}" -std=c11 -g -O1 "-fsanitize=address,undefined" -fno-sanitize-recover=all -I"$dist")
    "${sanitized[@]}" -o "$work/sanitized_tests" "$here/c/tests/test_promql.c" -pthread "$made/libpromql.a" &&
        "${sanitized[@]}" -o "$work/sanitized_memory" "$here/c/tests/test_memory.c" "$made/libpromql.a" \
            -Wl,--wrap=malloc,--wrap=realloc,--wrap=pthread_getattr_np &&
        "${sanitized[@]}" -o "$work/sanitized_form" "$here/c/tests/test_form.c" "$made/libpromql.a" &&
        "${sanitized[@]}" -o "$work/sanitized_overrun" "$here/c/tests/test_overrun.c" "$made/libpromql.a"
}

overrun_is_reported() {
    local said
    said=$("$work/sanitized_overrun" 2>&1) && return 1
    printf '%s\n' "$said"
    grep -q 'AddressSanitizer: heap-buffer-overflow' <<<"$said"
}

under_valgrind() {
    valgrind --quiet --error-exitcode=99 --leak-check=full --errors-for-leak-kinds=all "$@"
}

# The project of CMakeLists.txt, and what it installs.
build_project() {
    cmake -S "$here/c" -B "$work/build" -DCMAKE_BUILD_TYPE=Release && cmake --build "$work/build" -j 2 &&
        (cd "$work/build" && ctest --output-on-failure) && cmake --install "$work/build" --prefix "$work/usr"
}

# The example, with the library that pkg-config finds where the project was installed.
find_installed() {
    local -a flags
    read -r -a flags <<<"$(PKG_CONFIG_PATH=$work/usr/lib/pkgconfig pkg-config --cflags --libs promql)"
    "${CC:-cc}" -o "$work/found" "$here/c/example.c" "${flags[@]}" &&
        [ "$(LD_LIBRARY_PATH=$work/usr/lib "$work/found" '1+2')" = '1 + 2' ]
}

test_c() {
    has "${CC:-cc}" 'the binding for C' || return
    test_kit
    try 'building the tests and the example for C' build_c
    [ -x "$work/example" ] || return
    add 'C, linked to libpromql.a' "$work/test_static"
    add 'C, linked to libpromql.so' "$work/test_shared"
    add 'failing allocations in C' "$work/test_memory"
    add 'forms that are walked in C' "$work/test_form" "$queries"
    add 'C, by dlopen' "$work/test_loading" "$made/libpromql.so"
    add 'C, by dlopen without a key' "$work/test_loading" "$made/libpromql.so" full
    try 'the example for C' example_prints
    try 'the bench for C' bench_prints "$work/bench"
    if has g++ 'the header as C++'; then
        try 'the header as C++' g++ -Wall -Wextra -Wpedantic -Werror -fsyntax-only -x c++ "$dist/promql.h"
        try 'the header of forms as C++' g++ -Wall -Wextra -Wpedantic -Werror -fsyntax-only -x c++ "$dist/promql_form.h"
    fi
    if has python3 'rows and broken texts for C'; then test_rows_in_c; fi
    if has_sanitizers 'the tests for C with sanitizers'; then test_sanitized; fi
    if has musl-gcc 'the library with musl'; then test_musl; fi
    has cmake 'the project of CMakeLists.txt' || return
    try 'the project of CMakeLists.txt' build_project
    has pkg-config 'the file promql.pc' || return
    try 'the file promql.pc' find_installed
}

# build_with_musl COMPILER PROCESSOR NAME: builds the tests as NAME, NAME_shared and NAME_loading. The stacks of threads are 2 MiB.
build_with_musl() {
    local -a flags=(-std=c11 -O2 -Wall -Wextra -Wpedantic -Werror -I"$dist" "-Wl,-z,stack-size=2097152")
    "$1" -static "${flags[@]}" -o "$work/$3" "$here/c/tests/test_promql.c" "$dist/$2/libpromql.a" &&
        "$1" "${flags[@]}" -o "$work/$3_shared" "$here/c/tests/test_promql.c" -L"$dist/$2" -lpromql -Wl,-rpath,"$dist/$2" &&
        "$1" "${flags[@]}" -o "$work/$3_loading" "$here/c/tests/test_loading.c"
}

# with_stack KIB COMMAND..: runs it with a first stack of that size, of which 100 KiB are the environment.
with_stack() {
    local filler
    ulimit -s "$1" && printf -v filler '%0100000d' 0 && filler=$filler "${@:2}"
}

test_musl() {
    try 'building the tests for C with musl' build_with_musl musl-gcc "$(uname -m)" test_musl
    [ -x "$work/test_musl_loading" ] || return
    add 'C with musl' "$work/test_musl"
    add 'C with musl, linked to libpromql.so' "$work/test_musl_shared"
    add 'C with musl, by dlopen' "$work/test_musl_loading" "$made/libpromql.so"
    add 'C with musl, by dlopen without a key' "$work/test_musl_loading" "$made/libpromql.so" full
    for size in 600 1000 1280; do add "C with musl and $size KiB of stack" with_stack $size "$work/test_musl" stack small; done
    for size in 1500 4096 unlimited; do add "C with musl and $size KiB of stack" with_stack $size "$work/test_musl" stack large; done
    [ -f "$work/calls" ] || return
    add 'broken texts for C with musl' "$work/test_musl" random "$work/calls" 10000 4
    try 'rows for C with musl, and again in two threads' "$work/test_musl" rows "$work/calls" 2
}

test_rows_in_c() {
    add 'rows for C, and again in eight threads' python3 "$here/rows.py" c "$work/test_static" 8
    try 'the calls of the rows' python3 "$here/rows.py" write "$work/calls"
    try 'the calls of some rows' python3 "$here/rows.py" write "$work/some" 400
    add 'broken texts for C' "$work/test_static" random "$work/calls" 10000 1
    has valgrind 'the tests for C under valgrind' || return
    add 'C under valgrind' under_valgrind "$work/test_static"
    add 'forms that are walked in C under valgrind' under_valgrind "$work/test_form" "$queries"
    add 'failing allocations in C under valgrind' under_valgrind "$work/test_memory"
    add 'broken texts for C under valgrind' under_valgrind "$work/test_static" random "$work/some" 300 2
    try 'some rows for C under valgrind, and again in two threads' under_valgrind "$work/test_static" rows "$work/some" 2
}

# The library is not instrumented: what is seen of it is told in docs/guide/bindings.md.
test_sanitized() {
    try 'building the tests for C with sanitizers' build_sanitized
    [ -x "$work/sanitized_overrun" ] || return
    try 'an overrun is reported' overrun_is_reported
    add 'C with sanitizers' "$work/sanitized_tests"
    add 'failing allocations in C with sanitizers' "$work/sanitized_memory"
    add 'forms that are walked in C with sanitizers' "$work/sanitized_form" "$queries"
    [ -f "$work/calls" ] || return
    add 'broken texts for C with sanitizers' "$work/sanitized_tests" random "$work/calls" 10000 3
    try 'rows for C with sanitizers' "$work/sanitized_tests" rows "$work/calls"
}

# ---- Python

# in_python FOLDER ARGUMENT..: Python, or the one that the variable python names, which finds the package in this folder.
in_python() {
    local folder=$1
    shift
    (cd "$work" && PYTHONPATH=$folder exec "${python:-python3}" "$@")
}

# unit_tests FOLDER [FILE [-k WORD]..]: the tests of the package in this folder, or those of one file that is not among them, or
# those with a word in their names; with 'N passed, M failed' as the last line.
unit_tests() {
    local said status ran lost skipped
    said=$(in_python "$1" -m unittest discover -s "$here/python/tests" -p "${2:-test*.py}" "${@:3}" 2>&1)
    status=$?
    printf '%s\n' "$said"
    ran=$(sed -n 's/^Ran \([0-9]*\) tests\{0,1\} .*/\1/p' <<<"$said")
    lost=$(grep -cE '^(FAIL|ERROR): ' <<<"$said")
    skipped=$(sed -n '$s/.*skipped=\([0-9]*\).*/\1/p' <<<"$said")
    # (as valgrind ends it, which found an error)
    if [ "$status" != 0 ] && [ "$lost" = 0 ]; then lost=1; fi
    # (where all are skipped, nothing was tried)
    print_counts "$((${ran:-0} - lost - ${skipped:-0}))" "$lost" && [ "${ran:-0}" -gt "${skipped:-0}" ]
}

# add_unit_tests NAME FOLDER: adds all tests of the package in this folder, in runs that each end in time.
add_unit_tests() {
    local names
    for names in a-f g-l m-q r-z; do add "$1, test_[$names]*" unit_tests "$2" "test_[$names]*.py"; done
}

# The tests of rule files, which those of Python skip where python3 has no reader of YAML.
test_rule_files() {
    local python
    if ! python=$(python_with_yaml); then
        echo 'not tried: rule files for Python: no Python here has ruamel.yaml'
    elif [ "$python" != python3 ]; then
        export python
        add "rule files for Python, by $python" unit_tests "$here/python" test_rule_files.py
        add "the readers of YAML for Python, by $python" unit_tests "$here/python" test_quick_yaml.py
        add "checks of rules for Python, by $python" unit_tests "$here/python" test_rule_checks.py
        add "files with rules for Python, by $python" unit_tests "$here/python" test_rule_documents.py
        add "queries that pass unseen, by $python" unit_tests "$here/python" test_unseen.py
        add "reports on files, by $python" unit_tests "$here/python" test_reports.py
        add "settings of a team, by $python" unit_tests "$here/python" test_team_settings.py
        add "the linter for Python, by $python" unit_tests "$here/python" test_lint_command.py
        add "the language server with rule files, by $python" unit_tests "$here/python" test_lsp_rules.py
        add "bounds of the tools for files, by $python" unit_tests "$here/python" test_bounds.py
        add "files that fail, and signals, by $python" unit_tests "$here/python" test_failures.py
    fi
    has promtool 'verdicts on rule files beside those of promtool' && { promtool --version 2>&1 | grep -q 'version 2\.42\.' ||
        echo 'not tried: verdicts on rule files beside those of promtool: promtool is not of 2.42'; }
    if [ -n "$python" ] && ! has_libyaml "$python"; then
        echo "not tried: the readers of YAML side by side: $python has no PyYAML with libyaml"
    fi
}

test_python() {
    has python3 'the binding for Python' || return
    add_unit_tests 'Python' "$here/python"
    PROMQL_EXTENSION='' add_unit_tests 'Python by ctypes' "$here/python"
    test_extension
    test_rule_files
    test_schema
    if has_module pytest 'the tests for Python by pytest'; then
        try 'the tests for Python by pytest' in_python "$here/python" -m pytest -q -p no:cacheprovider "$here/python/tests"
    fi
    if has_module mypy 'the types of the package'; then
        try 'the types of the package' in_python "$here/python" -m mypy --strict --cache-dir "$work/mypy" "$here/python/promql" "$here/python/build_backend.py"
    fi
    [ -d /etc/grafana/dashboards ] || echo 'not tried: dashboards of packages: ceph-grafana-dashboards is not installed'
    try 'the bench for Python' bench_prints in_python "$here/python" "$here/python/bench.py"
    PROMQL_EXTENSION='' try 'the bench for Python by ctypes' bench_prints in_python "$here/python" "$here/python/bench.py"
    if has "${CHROMIUM:-chromium}" 'the page in Chromium'; then add 'the page in Chromium' unit_tests "$here/python" browser.py; fi
    add 'rows for Python, and again in eight threads' in_python "$here/python" "$here/rows.py" python 8
    PROMQL_EXTENSION='' add 'rows for Python by ctypes' in_python "$here/python" "$here/rows.py" python
    try 'the tables of targets' python3 "$here/schema/write_tables.py" --check
    add 'what the tables of targets say' in_python "$here/python" "$here/schema/test_tables.py"
    add 'trees of the rows for Python' in_python "$here/python" "$here/trees.py" rows
    add 'changed trees for Python' in_python "$here/python" "$here/trees.py" changed 10000 1
    add 'queries with comments, formatted' python3 "$root/bench/format/formatted.py" --made 100000
    test_wheel
}

# ---- scripts of bin/

# checked_by_shellcheck: whether shellcheck has nothing to say of the scripts for a shell; that a variable is set in a subshell is meant.
checked_by_shellcheck() {
    (cd "$root" && git ls-files | xargs grep -lE '^#!.*(bash|/sh)$' | xargs shellcheck -x -e SC2030,SC2031)
}

# checked_by_flake8: whether flake8 finds a name in the modules and scripts of Python that is not there, or that nothing uses.
checked_by_flake8() {
    (cd "$root" && { git ls-files '*.py' && git ls-files | grep -vE '\.(py|md)$' | xargs grep -lIE '^#!.*python3'; } |
        xargs flake8 --isolated --select E9,F)
}

# sizes_have_each_crate: whether `bin/count_definitions --sizes` has a line for each crate that is not of tests, and their sums.
sizes_have_each_crate() {
    local crate sizes
    sizes=$("$root/bin/count_definitions" --sizes) || return
    while read -r crate; do
        if ! [ -f "$root/crates/$crate/src/tests.rt" ]; then
            grep -qE "^$crate +[0-9,]+ +[0-9,]+ +[0-9,]+$" <<<"$sizes" || return
        fi
    done < <(sed -nE 's/^([a-z_]+)[ :].*/\1/p' "$root/crates.txt")
    awk 'NR > 1 && $1 != "together" { gsub(",", ""); for (at = 2; at <= 4; at++) sums[at] += $at }
        $1 == "together" { gsub(",", ""); same = $2 == sums[2] && $3 == sums[3] && $4 == sums[4] }
        END { exit !same }' <<<"$sizes"
}

test_scripts() {
    local script
    try 'bin/count_definitions --sizes' sizes_have_each_crate
    if has shellcheck 'scripts for a shell'; then try 'scripts for a shell' checked_by_shellcheck; fi
    if has flake8 'the names in Python'; then try 'the names in Python' checked_by_flake8; fi
    has mypy 'the types of the scripts' || return
    for script in checks.py count_definitions list_edits manuals prove test_expected test_vendor vendor; do
        MYPYPATH=$root/bin try "the types of bin/$script" mypy --strict --cache-dir "$work/mypy" "$root/bin/$script"
    done
    MYPYPATH=$here/schema try 'the types of what writes tables' mypy --strict --cache-dir "$work/mypy" "$here/schema/write_tables.py"
}

# ---- Rust

in_cargo() {
    CARGO_TARGET_DIR=$work/target cargo "$1" --offline --quiet --manifest-path "$here/rust/Cargo.toml" "${@:2}"
}

# print_cargo_counts SAID: prints how many tests passed and failed by what cargo said, and fails where none passed.
print_cargo_counts() {
    local passed lost
    read -r passed lost < <(awk '/^test result:/ { passed += $4; lost += $6 } END { print passed + 0, lost + 0 }' <<<"$1")
    print_counts "$passed" "$lost" && [ "$passed" -gt 0 ]
}

# cargo_tests [NAME]: the tests of the crate and of its documents, or those of this name, with 'N passed, M failed' as the last line.
cargo_tests() {
    local said
    said=$(in_cargo test "$@" 2>&1)
    printf '%s\n' "$said"
    print_cargo_counts "$said"
}

build_rust() {
    in_cargo build --release --examples
}

cache_keys() {
    [ "$("$work/target/release/examples/cache_key" '1+2' 'a  or b')" = $'1 + 2\na or b' ] &&
        ! "$work/target/release/examples/cache_key" '1 +' 2>/dev/null
}

test_rust() {
    has cargo 'the binding for Rust' || return
    add 'Rust' cargo_tests
    test_serde
    test_habits_of_rust
    try 'the examples for Rust' build_rust
    [ -x "$work/target/release/examples/rows" ] || return
    try 'the example for Rust' cache_keys
    try 'the bench for Rust' bench_prints "$work/target/release/examples/bench"
    has python3 'rows and broken texts for Rust' || return
    add 'rows for Rust, and again in eight threads' python3 "$here/rows.py" c "$work/target/release/examples/rows" 8
    try 'the calls of the rows' python3 "$here/rows.py" write "$work/calls"
    add 'broken texts for Rust' "$work/target/release/examples/rows" random "$work/calls" 10000 1
    try 'the queries of the rows' python3 "$here/trees.py" write "$work/queries"
    add 'trees of the rows for Rust' "$work/target/release/examples/rows" trees "$work/queries"
    add 'changed trees for Rust' "$work/target/release/examples/rows" changed "$work/queries" 10000 1
}

# The crate for serde, where Debian has the crates that it needs.
debian_crates=/usr/share/cargo/registry
cargo_tests_with_serde() {
    local said
    said=$(CARGO_TARGET_DIR=$work/target cargo test --offline --quiet --manifest-path "$here/rust/serde/Cargo.toml" \
        --config 'source.crates-io.replace-with="debian"' --config "source.debian.directory=\"$debian_crates\"" 2>&1)
    printf '%s\n' "$said"
    print_cargo_counts "$said"
}

test_serde() {
    if compgen -G "$debian_crates/serde_json-1.*" >/dev/null; then
        add 'trees by serde' cargo_tests_with_serde
    else
        echo 'not tried: trees by serde: librust-serde-json-dev is not installed'
    fi
}

# formatted_rust: whether the crates for Rust are in the layout of rustfmt, which knows `style_edition` from 1.85 on.
formatted_rust() {
    cargo fmt --check --manifest-path "$here/rust/Cargo.toml" && cargo fmt --check --manifest-path "$here/rust/serde/Cargo.toml"
}

test_habits_of_rust() {
    has cargo 'habits of Rust' || return
    if cargo fmt --version 2>/dev/null | grep -qE ' 1\.([89]|[1-9][0-9])\.'; then
        try 'the layout of Rust' formatted_rust
    else
        echo 'not tried: the layout of Rust: there is no rustfmt from 1.8 on'
    fi
    if cargo clippy --version >/dev/null 2>&1; then
        try 'clippy' in_cargo clippy --all-targets -- -D warnings
    else
        echo 'not tried: clippy: cargo has none here'
    fi
    RUSTDOCFLAGS=-Dwarnings try 'the documents of the crate' in_cargo doc --no-deps
}

# ---- Go

# in_go FOLDER ARGUMENT..: go, or the one that the variable go names, in this folder of the module, which fetches nothing.
in_go() {
    local folder=$1
    shift
    (cd "$here/go/$folder" && GOCACHE=$work/go GOFLAGS=-mod=readonly GOPROXY=off GOTOOLCHAIN=local CGO_ENABLED=1 exec "${go:-go}" "$@")
}

# go_tests [PACKAGE [-run NAMES]]: the tests of the module, its examples among them, or those of a package, with 'N passed, M failed' as the
# last line.
go_tests() {
    local said passed lost
    said=$(in_go . test -v "${@:-./...}" 2>&1)
    printf '%s\n' "$said"
    passed=$(grep -c '^--- PASS: ' <<<"$said")
    lost=$(grep -cE '^--- FAIL: |^FAIL' <<<"$said")
    print_counts "$passed" "$lost" && [ "$passed" -gt 0 ]
}

# formatted_go: whether gofmt has nothing to change.
formatted_go() {
    local left
    left=$(gofmt -l "$here/go")
    printf '%s\n' "$left"
    [ -z "$left" ]
}

# go_with_iterators: prints a go from 1.23 on, the first one here or one of Debian's others.
go_with_iterators() {
    local go
    for go in go /usr/lib/go-1.*/bin/go; do
        if GOTOOLCHAIN=local "$go" version 2>/dev/null | grep -qE ' go1\.(2[3-9]|[3-9][0-9])'; then
            echo "$go"
            return
        fi
    done
    return 1
}

# A test asks for iterators of the language, and is not built by an older Go.
test_iterators() {
    local go
    if ! go=$(go_with_iterators); then
        echo 'not tried: iterators of Go: there is no Go from 1.23 on, as bookworm-backports has in golang-1.23-go'
    elif [ "$go" != go ]; then
        export go
        add "Go, by $go" go_tests .
    fi
}

test_go() {
    has go 'the binding for Go' || return
    try 'the layout of Go' formatted_go
    try 'go vet' in_go . vet ./...
    add 'Go' go_tests
    test_iterators
    try 'the proxy in Go by the race detector' in_go . test -race ./cmd/promql-proxy/...
    try 'broken texts for Go by its fuzzer' in_go . test -run '^$' -fuzz FuzzQueries -fuzztime 10000x .
    test_go_modules
    try 'the programs for Go' in_go . build -o "$work/go_programs/" ./internal/rows ./internal/bench ./examples/change_queries
    [ -x "$work/go_programs/rows" ] || return
    try 'the bench for Go' bench_prints "$work/go_programs/bench"
    has python3 'rows and broken texts for Go' || return
    add 'rows for Go, and again in eight goroutines' python3 "$here/rows.py" c "$work/go_programs/rows" 8
    try 'the calls of the rows' python3 "$here/rows.py" write "$work/calls"
    add 'broken texts for Go' "$work/go_programs/rows" random "$work/calls" 10000 1
    try 'the queries of the rows' python3 "$here/trees.py" write "$work/queries"
    add 'trees of the rows for Go' "$work/go_programs/rows" trees "$work/queries"
    add 'changed trees for Go' "$work/go_programs/rows" changed "$work/queries" 10000 1
}

# The ways in which the module becomes a dependency; two of them take it from a commit.
test_go_modules() {
    local way
    try 'the module for Go, replaced' env GOCACHE="$work/go" "$here/go/test_modules.sh" replaced "$work/go_replaced"
    has git 'the module for Go, proxied and forked' || return
    if ! git -C "$root" rev-parse --quiet --verify HEAD >/dev/null; then
        echo 'not tried: the module for Go, proxied and forked: this is not a checkout of git'
        return
    fi
    for way in proxied forked; do
        try "the module for Go, $way" env GOCACHE="$work/go" "$here/go/test_modules.sh" "$way" "$work/go_$way"
    done
}

# ---- examples

test_examples() {
    has python3 'the examples' || return
    has vim 'the commands of docs/guide/formatter.md in vim'
    add 'the commands of docs/guide/formatter.md' python3 "$here/editor.py"
    if has parallel 'a log of queries by parallel'; then
        add 'a log of queries by parallel' python3 "$root/examples/query_log/test_query_log.py" answer
    fi
    test_dask
    test_change_queries
}

# The examples that change queries, those that were built above.
test_change_queries() {
    local program
    local -a programs=()
    if ! nm --defined-only "$made/libpromql.a" | grep -q ' promql_print_tree$'; then
        echo 'not tried: the examples that change queries: the library has no promql_print_tree'
        return
    fi
    printf '#!/bin/sh\nPYTHONPATH=%s exec python3 %s "$@"\n' "$here/python" "$here/python/examples/change_queries.py" >"$work/change_queries_py"
    chmod +x "$work/change_queries_py"
    if [ -x "$work/example" ]; then
        try 'building the example that changes queries for C' "${CC:-cc}" -std=c99 -O2 -Wall -Wextra -Wpedantic -Werror -I"$dist" \
            -o "$work/change_queries" "$here/c/change_queries.c" "$made/libpromql.a"
    fi
    for program in change_queries_py change_queries go_programs/change_queries target/release/examples/change_queries; do
        if [ -x "$work/$program" ]; then programs+=("$work/$program"); fi
    done
    add "queries that ${#programs[@]} languages change" python3 "$here/change_queries.py" "${programs[@]}"
}

# Debian has Dask for its own Python.
test_dask() {
    local python
    for python in python3 /usr/bin/python3; do
        if "$python" -c 'import dask.bag, dask.distributed' 2>/dev/null; then
            add 'a log of queries by Dask' env PYTHONPATH="$here/python" "$python" "$root/examples/query_log/test_query_log.py" count
            return
        fi
    done
    echo "not tried: a log of queries by Dask: no Python has it here"
}

# ---- attacks

# Those that are tests of a binding, and the others (bindings/attack.py).
test_attacks() {
    local python part
    if has "${CC:-cc}" 'small stacks for C'; then
        try 'building the tests for C' build_c
        if [ -x "$work/test_shared" ]; then add 'small stacks for C, among its tests' "$work/test_shared"; fi
    fi
    if has cargo 'trees and small stacks for Rust'; then
        add 'small stacks for Rust' cargo_tests a_small_stack
        add 'trees for Rust' cargo_tests --test attacks
        add 'trees for Rust, optimized' cargo_tests --test attacks --release
    fi
    if has go 'the proxy in Go'; then
        add 'small stacks for Go' go_tests . -run TestStacks
        add 'trees for Go' go_tests . -run 'High|Many|Large|UTF8|Missing|BelowThemselves|FaultAbove'
        try 'forms for Go by its fuzzer' in_go . test -run '^$' -fuzz FuzzForms -fuzztime 10000x .
        add 'the proxy in Go' go_tests ./cmd/promql-proxy/...
        try 'requests for the proxy by its fuzzer' in_go . test -run '^$' -fuzz FuzzRequests -fuzztime 20000x ./cmd/promql-proxy/internal/front
        try 'silences for the proxy by its fuzzer' in_go . test -run '^$' -fuzz FuzzSilences -fuzztime 20000x ./cmd/promql-proxy/internal/front
        try 'entries of the cache by its fuzzer' in_go . test -run '^$' -fuzz FuzzEntries -fuzztime 20000x ./cmd/promql-proxy/internal/cache
    fi
    has python3 'the page, the tools for rule files and the programs' || return
    add 'small stacks for Python' unit_tests "$here/python" test_promql.py -k Stacks
    add 'trees for Python' unit_tests "$here/python" test_tree_attacks.py
    add 'requests to the page' unit_tests "$here/python" test_page.py -k Slow -k Requests -k Queries
    add 'dashboards' unit_tests "$here/python" test_dashboards.py -k Boards
    if python=$(python_with_yaml); then
        export python
        add 'rule files' unit_tests "$here/python" test_rule_files.py -k Checks -k Writing -k test_many_signs
        add 'names, labels and templates of rules' unit_tests "$here/python" test_rule_checks.py -k Attacks -k test_deep
        add 'bounds of the tools for files' unit_tests "$here/python" test_bounds.py
        add 'files that fail, and signals' unit_tests "$here/python" test_failures.py
        for part in 0 1 2 3; do
            add "large files, every fourth from $part" in_python "$here/python" "$here/attack.py" --files "$part"
        done
    fi
    add 'attacks on the programs, the library, rule files and the page' in_python "$here/python" "$here/attack.py"
}

# ---- Prometheus

# The servers are in the group of processes that `limited` ends.
test_prometheus() {
    has prometheus 'queries before a Prometheus' || return
    has promtool 'queries before a Prometheus' || return
    has python3 'queries before a Prometheus' || return
    local python
    add 'queries before a Prometheus' in_python "$here/python" "$root/bench/meaning/compare.py" --rows 500 --random 500
    add 'the linter before a Prometheus' in_python "$here/python" "$root/bench/meaning/lint.py" 500
    add 'places of errors before a Prometheus' in_python "$here/python" "$root/bench/places/prometheus.py"
    add 'classes of meanings before a Prometheus' in_python "$here/python" "$root/bench/targets/meanings.py" --made 300 --changed 200
    add 'when queries read, before a Prometheus' in_python "$here/python" "$root/bench/when/compare.py" --count 300
    add 'kinds of verdicts before a Prometheus' in_python "$here/python" "$root/bench/targets/verdicts.py" --count 5000
    add 'the tables of targets before a Prometheus' in_python "$here/python" "$root/bench/targets/table_rows.py"
    if python=$(python_with_yaml); then
        python=$python add 'selectors and metrics before a Prometheus' in_python "$here/python" "$here/live.py"
    else
        echo 'not tried: selectors and metrics before a Prometheus: no Python here has ruamel.yaml'
    fi
}

# The servers and the proxies are in the group of processes that `limited` ends.
test_proxy() {
    local command
    for command in go prometheus promtool python3; do
        has "$command" 'the proxy before a Prometheus' || return
    done
    try 'building the proxy' in_go . build -o "$work/promql-proxy" ./cmd/promql-proxy
    [ -x "$work/promql-proxy" ] || return
    add 'the proxy before a Prometheus' in_python "$here/python" "$here/proxy.py" "$work/promql-proxy"
    add 'the cache of the proxy before a Prometheus' in_python "$here/python" "$here/proxy_cache.py" "$work/promql-proxy"
}

# ---- an editor

# The editor and the server are in the group of processes that `limited` ends.
test_editor() {
    local python
    if has node 'the extension for VS Code'; then
        mkdir -p "$work/bin" && printf '#!/bin/sh\nexec python3 -m promql "$@"\n' >"$work/bin/promql-rules" && chmod +x "$work/bin/promql-rules"
        add 'the extension for VS Code' env PATH="$work/bin:$PATH" PYTHONPATH="$here/python" node "$here/lsp_vscode.js" "$root/editors/vscode"
    fi
    has nvim 'the language server in Neovim' || return
    if ! python=$(python_with_yaml); then
        echo 'not tried: the language server in Neovim: no Python here has ruamel.yaml'
        return
    fi
    add 'the language server in Neovim' "$python" "$here/lsp_editor.py"
    if has emacs 'the language server in Emacs' && emacs --batch --eval "(require 'eglot)" 2>/dev/null; then
        add 'the language server in Emacs' python3 "$here/lsp_emacs.py"
    else
        echo 'not tried: the language server in Emacs: there is no Eglot here'
    fi
}

export -f build_kit_tests kit_folder shows_own_names build_c bench_prints example_prints build_sanitized overrun_is_reported build_with_musl with_stack under_valgrind build_project
export -f find_installed in_python unit_tests print_counts print_cargo_counts sizes_have_each_crate
export debian_crates
export -f formatted_rust formatted_go checked_by_shellcheck checked_by_flake8 in_cargo cargo_tests cargo_tests_with_serde build_rust cache_keys in_go go_tests

parts=(names c install python scripts rust go examples)
case "${1:-}" in
'') ;;
--install) install_missing ;;
--attack) parts=(attacks) ;;
--prometheus) parts=(prometheus) ;;
--proxy) parts=(proxy) ;;
--editor) parts=(editor) ;;
--arm) parts=(arm) ;;
*)
    echo 'usage: bindings/test.sh [--install | --attack | --prometheus | --proxy | --editor | --arm]' >&2
    exit 64
    ;;
esac

stale=$(why_library_stale "$(kit_line)")
if [ -n "$stale" ]; then
    printf '%s\n' "######## libpromql: $stale." \
        "######## What follows says nothing of the sources here. bin/release makes the release anew."
fi
for part in "${parts[@]}"; do "test_$part"; done
print_counts "$passed" "$failed"
