# shellcheck shell=bash
# Functions of bindings/test.sh, which sources this file: the tests of what is built for Python, the extension and the wheel, and of the
# schema of the JSON form, which Python reads.
: "${here:?}" "${root:?}" "${dist:?}" "${work:?}"

# python_with_schemas: prints which Python has a validator for JSON Schema of 2020-12.
python_with_schemas() {
    local python
    for python in python3 /usr/bin/python3; do
        if "$python" -c 'from jsonschema import Draft202012Validator' 2>/dev/null; then
            echo "$python"
            return
        fi
    done
    return 1
}

# python_with_pip: prints which Python can build a wheel of the package.
python_with_pip() {
    local python
    for python in python3 /usr/bin/python3; do
        if "$python" -c 'import pip, venv' 2>/dev/null; then
            echo "$python"
            return
        fi
    done
    return 1
}

# pythons: each Python 3 from 3.8 on that is here, those of pyenv among them, by its version.
pythons() {
    local python version
    local -A seen=()
    for python in python3 /usr/bin/python3 python3.{8..14} "${PYENV_ROOT:-$HOME/.pyenv}"/versions/3.*/bin/python3; do
        version=$("$python" -c 'import sys, pip, venv; assert sys.version_info >= (3, 8); print(sys.version_info[1])' 2>/dev/null) || continue
        if [ -z "${seen[$version]:-}" ]; then printf '%s %s\n' "$version" "$python"; fi
        seen[$version]=1
    done | sort -n
}

# ---- the extension

# The extension that is built here is that of dist/, for each processor that there is a compiler for, if both are made with the same tools of
# the same sources.
extension_agrees() {
    local processor built
    for processor in $(processor_names); do
        compiler_for "$processor" >/dev/null || continue
        built=$work/extension/$processor
        mkdir -p "$built" && "$root/bin/link_extension" "$processor" "$built" || return
        [ "$(extension_tools)" != "$(sed -n 2p "$dist/_native.made_from")" ] || [ -n "$(why_extension_stale "$processor")" ] ||
            cmp "$built/_native.abi3.so" "$dist/$processor/_native.abi3.so" || return
    done
}

build_sanitized_extension() {
    mkdir -p "$work/sanitized_extension" &&
        "$root/bin/link_extension" "$(uname -m)" "$work/sanitized_extension" -g -O1 "-fsanitize=address,undefined" -fno-sanitize-recover=all
}

# write_python FILE COMMAND..: makes the file a Python that runs under a command, its memory from malloc.
write_python() {
    local file=$1
    shift
    printf '#!/bin/sh\nPYTHONMALLOC=malloc exec %s "%s" "$@"\n' "$*" "$(python3 -c 'import sys; print(sys.executable)')" >"$file"
    chmod +x "$file"
}

# The sanitizers do not see what Python itself reads, such as an object that the extension gave back too often; valgrind does. What it
# says of values without a beginning is about Python.
test_extension() {
    local stale header
    stale=$(why_extension_stale)
    if [ -n "$stale" ]; then echo "######## The extension for Python: $stale. bin/release makes it anew."; fi
    for header in "$(python_headers)/Python.h" "$(yaml_header)"; do
        if ! [ -f "$header" ]; then
            echo "not tried: building the extension for Python: there is no $header"
            return
        fi
    done
    try 'the extension for Python is what its source builds to' extension_agrees
    if has_sanitizers 'the extension for Python with sanitizers'; then
        try 'building the extension for Python with sanitizers' build_sanitized_extension
        write_python "$work/python_sanitized" "env LD_PRELOAD=$("${CC:-cc}" -print-file-name=libasan.so) ASAN_OPTIONS=detect_leaks=0"
        python=$work/python_sanitized PROMQL_EXTENSION=$work/sanitized_extension/_native.abi3.so PROMQL_BROKEN=5000 \
            add 'the extension for Python with sanitizers' unit_tests "$here/python" 'test_[cpny]*.py'
    fi
    has valgrind 'the extension for Python under valgrind' || return
    write_python "$work/python_valgrind" "valgrind --quiet --undef-value-errors=no --error-exitcode=99"
    python=$work/python_valgrind PROMQL_BROKEN=500 \
        add 'the extension for Python under valgrind' unit_tests "$here/python" test_calls.py -k Same -k Many -k Memory
    python=$work/python_valgrind PROMQL_CHANGED=50 PROMQL_EXTENSION=$work/extension/$(uname -m)/_native.abi3.so \
        add 'nodes of the extension for Python under valgrind' unit_tests "$here/python" test_node_calls.py -k changed -k queries -k no_nodes -k learn
    python=$work/python_valgrind PROMQL_EXTENSION=$work/extension/$(uname -m)/_native.abi3.so \
        add 'events of YAML of the extension for Python under valgrind' unit_tests "$here/python" test_yaml_events.py -k told -k bound -k parts
}

# ---- the schema

# The schema of the JSON form.
test_schema() {
    local python
    if python=$(python_with_schemas); then
        # (it takes three minutes of one processor)
        most=900 add 'the schema of the JSON form' "$python" "$here/schema/test_schema.py"
    else
        echo 'not tried: the schema of the JSON form: no Python here has jsonschema 4'
    fi
}

# ---- the wheel

# The package as pip installs it, in a folder of its own, which another user finds, too.
install_wheel() {
    chmod 711 "$work"
    "$python" -m pip wheel --quiet --no-deps --no-index --wheel-dir "$work/wheels" "$here/python" &&
        "$python" -m pip install --quiet --no-deps --no-index --target "$work/site" "$work"/wheels/promql-*.whl
}

# imports_all PYTHON: compiles each module of the package that this Python has, and imports it; those of rule files ask for a reader of YAML
# only when they run.
imports_all() {
    "$1" -W error -c 'import compileall, promql; raise SystemExit(not compileall.compile_dir(promql.__path__[0], quiet=1))' &&
        "$1" - <<'END'
import importlib, pkgutil, promql
names = [it.name for it in pkgutil.walk_packages(promql.__path__, "promql.") if not it.name.endswith((".libpromql", "._native"))]
for name in names:
    importlib.import_module(name)
assert len(names) > 60, names
END
}

# A Python of this version installs the package from the checkout, without a network and without anything else, and makes its calls.
installs() {
    local venv=$work/venv_$1 python=$work/venv_$1/bin/python
    "$2" -m venv "$venv" && "$python" -m pip install --quiet --no-index "$here/python" && "$python" -m pip check && imports_all "$python" &&
        (cd "$here/python/tests" && env -u PYTHONPATH "$python" -m unittest test_promql test_calls) &&
        "$venv/bin/promql-rules" check "$here/python/tests/files/board.json" && "$python" -m pip uninstall --quiet --yes promql &&
        ! "$python" -c 'import promql' 2>/dev/null
}

test_wheel() {
    local python version other
    if ! python=$(python_with_pip); then
        echo 'not tried: the wheel: no Python here has pip and venv'
        return
    fi
    export python
    most=600 add "the wheel, by $python" unit_tests "$here/python" wheels.py
    while read -r version other; do try "Python 3.$version, from the checkout" installs "$version" "$other"; done < <(pythons)
    try "installing the wheel, by $python" install_wheel
    if [ -d "$work/site" ]; then PROMQL_BROKEN=1000 add_unit_tests "Python, as pip installs it, by $python" "$work/site"; fi
}

export -f install_wheel installs imports_all extension_agrees build_sanitized_extension
# What these call of bin/lib.sh.
export -f extension_tools python_headers yaml_header why_extension_stale why_other extension_fingerprint is_listed file_sum processor_names compiler_for tools_for
