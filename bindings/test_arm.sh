# shellcheck shell=bash
# Functions of bindings/test.sh, which sources this file: the tests of what dist/ has for ARM, under qemu, and of programs in a root that has
# nothing else.
: "${here:?}" "${root:?}" "${dist:?}" "${work:?}" "${queries:?}"
arm=$dist/aarch64
arm_cc=aarch64-linux-gnu-gcc
# Where qemu finds the glibc for what is linked to a shared library: that of this machine, where Debian has it for ARM beside its own, or that
# of the cross compiler. A loader of the one with libraries of the other starts no thread.
arm_root=/
if ! [ -e /lib/ld-linux-aarch64.so.1 ]; then arm_root=/usr/aarch64-linux-gnu; fi
rust_target=aarch64-unknown-linux-gnu

# write_for_arm FILE PROGRAM: makes the file a script that runs a program for ARM.
write_for_arm() {
    printf '#!/bin/sh\nexec qemu-aarch64-static -L %s "%s" "$@"\n' "$arm_root" "$2" >"$1"
    chmod +x "$1"
}

# ---- the heap and the process for ARM

# What the kit has of C for this machine alone: ours for ARM does the same.
build_kit_tests() {
    local -a flags=(-std=c11 -O2 -Wall -Wextra -Wpedantic -Werror -pthread "$here/c/tests/test_kit.c")
    "${CC:-cc}" "${flags[@]}" -o "$work/test_kit" "$root/bin/kit_heap.c" "$root/bin/kit_process.c" || return
    ! kit_folder >/dev/null || "${CC:-cc}" "${flags[@]}" -o "$work/test_kit_own" "$(kit_folder)/c/libos_c.a" "$(kit_folder)/c/liblibc_c.a"
}

# Arguments of each kind: none, bytes that are not UTF-8, a long one, and one of two lines.
kit_arguments=(a '' $'\xff\xfe' "$(printf '%05000d' 0)" $'two\nlines')
test_kit() {
    try 'building the tests of the heap and the process for ARM' build_kit_tests
    if [ -x "$work/test_kit" ]; then add 'the heap and the process for ARM, on this machine' "$work/test_kit" "${kit_arguments[@]}"; fi
    if [ -x "$work/test_kit_own" ]; then add "the kit's own heap and process" "$work/test_kit_own" "${kit_arguments[@]}"; fi
}

# ---- programs in an empty root

# in_empty_root FOLDER COMMAND..: the command in a root that is this folder, which has nothing else.
in_empty_root() {
    local program=unshare
    local -a words=(--user --map-root-user --root="$1")
    if [ "$(id -u)" = 0 ]; then
        program=chroot
        words=("$1")
    fi
    env -i "$(command -v "$program")" "${words[@]}" "${@:2}"
}

# runs_alone PROCESSOR: whether its program is static, and runs on an input and on a file where there is nothing but it.
runs_alone() {
    local folder=$work/alone_$1 program=$dist/$1/promql
    local -a words=(/promql)
    ! readelf -lW "$program" | grep -q INTERP && readelf -lW "$program" | grep -qE 'GNU_STACK .* RW ' && mkdir -p "$folder" &&
        cp "$program" "$folder/promql" && printf '1 +(foo - 2)' >"$folder/query" || return
    if [ "$1" != "$(uname -m)" ]; then
        cp "$(command -v "qemu-$1-static")" "$folder/qemu" || return
        words=(/qemu /promql)
    fi
    [ "$(in_empty_root "$folder" "${words[@]}" line <<<'1+2')" = '1 + 2' ] &&
        [ "$(in_empty_root "$folder" "${words[@]}" pretty /query)" = '1 + (foo - 2)' ] &&
        [ "$(in_empty_root "$folder" "${words[@]}" check /nothing 2>&1)" = '/nothing: No such file or directory (os error 2)' ]
}

# ---- ARM

build_c_for_arm() {
    local -a flags=(-O2 -Wall -Wextra -Wpedantic -Werror -I"$dist") tests=("$here/c/tests/test_promql.c" -pthread)
    "$arm_cc" -std=c11 "${flags[@]}" -static -o "$work/arm_static" "${tests[@]}" "$arm/libpromql.a" &&
        "$arm_cc" -std=c11 "${flags[@]}" -o "$work/arm_shared" "${tests[@]}" -L"$arm" -lpromql -Wl,-rpath,"$arm" &&
        "$arm_cc" -std=c11 "${flags[@]}" -static -o "$work/arm_memory" "$here/c/tests/test_memory.c" "$arm/libpromql.a" \
            -Wl,--wrap=malloc,--wrap=realloc,--wrap=pthread_getattr_np &&
        "$arm_cc" -std=c11 "${flags[@]}" -static -o "$work/arm_form" "$here/c/tests/test_form.c" "$arm/libpromql.a" &&
        "$arm_cc" -std=c11 "${flags[@]}" -o "$work/arm_loading" "$here/c/tests/test_loading.c" -pthread &&
        "$arm_cc" -std=c99 "${flags[@]}" -static -o "$work/arm_example" "$here/c/example.c" "$arm/libpromql.a" &&
        "$arm_cc" -std=c11 "${flags[@]}" -static -o "$work/arm_kit" "$here/c/tests/test_kit.c" "$root/bin/kit_heap.c" "$root/bin/kit_process.c" \
            -pthread
}

test_c_for_arm() {
    local name
    try 'building the tests for C for ARM' build_c_for_arm
    [ -x "$work/arm_kit" ] || return
    for name in static shared memory form loading example kit; do write_for_arm "$work/run_$name" "$work/arm_$name"; done
    add 'the heap and the process for ARM' "$work/run_kit" "${kit_arguments[@]}"
    add 'C for ARM, linked to libpromql.a' "$work/run_static"
    add 'C for ARM, linked to libpromql.so' "$work/run_shared"
    add 'failing allocations in C for ARM' "$work/run_memory"
    add 'forms that are walked in C for ARM' "$work/run_form" "$queries"
    add 'C for ARM, by dlopen' "$work/run_loading" "$arm/libpromql.so"
    try 'the example for C for ARM' prints_for_arm "$work/run_example" '1 + 2' '1+2'
    has python3 'rows and broken texts for C for ARM' || return
    most=1800 add 'rows for C for ARM, and again in two threads' python3 "$here/rows.py" c "$work/run_static" 2
    try 'the calls of the rows' python3 "$here/rows.py" write "$work/calls"
    add 'broken texts for C for ARM' "$work/run_static" random "$work/calls" 2000 5
}

# Debian's musl-dev:arm64 has the compiler, and musl:arm64 the loader.
test_musl_for_arm() {
    local name
    has aarch64-linux-musl-gcc 'C with musl for ARM' || return
    try 'building the tests for C with musl for ARM' build_with_musl aarch64-linux-musl-gcc aarch64 arm_musl
    [ -x "$work/arm_musl_loading" ] || return
    for name in musl musl_shared musl_loading; do write_for_arm "$work/run_$name" "$work/arm_$name"; done
    add 'C with musl for ARM' "$work/run_musl"
    add 'C with musl for ARM, linked to libpromql.so' "$work/run_musl_shared"
    add 'C with musl for ARM, by dlopen' "$work/run_musl_loading" "$arm/libpromql.so"
    [ -f "$work/calls" ] || return
    add 'broken texts for C with musl for ARM' "$work/run_musl" random "$work/calls" 2000 6
    most=1800 try 'rows for C with musl for ARM, and again in two threads' "$work/run_musl" rows "$work/calls" 2
}

# prints_for_arm COMMAND WANTED WORD..: whether the command prints this of the words.
prints_for_arm() {
    [ "$("$1" "${@:3}")" = "$2" ]
}

# in_go_for_arm ARGUMENT..: go in the folder of the module, which builds for ARM.
in_go_for_arm() {
    (cd "$here/go" && GOCACHE=$work/go GOFLAGS=-mod=readonly GOPROXY=off CGO_ENABLED=1 GOARCH=arm64 CC=$arm_cc exec go "$@")
}

# Tests start themselves again, so the system has to know programs for ARM.
go_tests_for_arm() {
    local said
    said=$(QEMU_LD_PREFIX=$arm_root in_go_for_arm test -v -exec "$here/arm_root.sh run /" "$@" 2>&1)
    printf '%s\n' "$said"
    print_counts "$(grep -c '^--- PASS: ' <<<"$said")" "$(grep -cE '^--- FAIL: |^FAIL' <<<"$said")" && grep -q '^--- PASS: ' <<<"$said"
}

test_go_for_arm() {
    has go 'the binding for Go for ARM' || return
    try 'go vet for ARM' in_go_for_arm vet ./...
    if "$here/arm_root.sh" run / true 2>/dev/null; then
        most=900 add 'Go for ARM' go_tests_for_arm .
    else
        echo 'not tried: Go for ARM: programs for ARM can be made known to no part of the system here'
    fi
    try 'the programs for Go for ARM' in_go_for_arm build -o "$work/go_arm/" ./internal/rows ./examples/change_queries ./cmd/promql-proxy
    [ -x "$work/go_arm/rows" ] || return
    write_for_arm "$work/run_go" "$work/go_arm/rows"
    has python3 'rows for Go for ARM' || return
    most=1800 add 'rows for Go for ARM, and again in four goroutines' python3 "$here/rows.py" c "$work/run_go" 4
}

# rust_for_arm: prints the folder of a cargo whose compiler has its own library for ARM, the first one here or Debian's.
rust_for_arm() {
    local folder
    for folder in "$(dirname "$(command -v cargo)")" /usr/bin; do
        if [ -x "$folder/cargo" ] && [ -d "$("$folder/rustc" --print target-libdir --target $rust_target 2>/dev/null)" ]; then
            echo "$folder"
            return
        fi
    done
    return 1
}

# in_cargo_for_arm SUBCOMMAND ARGUMENT..: cargo of the folder in the variable rust, which builds for ARM, optimized: qemu is slow.
in_cargo_for_arm() {
    PATH=$rust:$PATH CARGO_TARGET_AARCH64_UNKNOWN_LINUX_GNU_LINKER=$arm_cc \
        CARGO_TARGET_AARCH64_UNKNOWN_LINUX_GNU_RUNNER="qemu-aarch64-static -L $arm_root" in_cargo "$1" --release --target $rust_target "${@:2}"
}

# The tests but for those that bound a time, which qemu says nothing of.
rust_tests_for_arm() {
    local said
    said=$(in_cargo_for_arm test --no-fail-fast -- --skip quickly 2>&1)
    printf '%s\n' "$said"
    print_cargo_counts "$said"
}

test_rust_for_arm() {
    local rust
    has cargo 'the crate for Rust for ARM' || return
    if ! rust=$(rust_for_arm); then
        echo "not tried: the crate for Rust for ARM: rustc has no library for $rust_target here, as Debian has in libstd-rust-dev:arm64"
        return
    fi
    export rust
    most=1800 add "Rust for ARM, by $("$rust/rustc" --version)" rust_tests_for_arm
    most=900 try 'the examples for Rust for ARM' in_cargo_for_arm build --examples
    [ -x "$work/target/$rust_target/release/examples/rows" ] || return
    write_for_arm "$work/run_rust" "$work/target/$rust_target/release/examples/rows"
    write_for_arm "$work/run_cache_key" "$work/target/$rust_target/release/examples/cache_key"
    try 'the example for Rust for ARM' prints_for_arm "$work/run_cache_key" '1 + 2' '1+2'
    has python3 'rows for Rust for ARM' || return
    most=1800 add 'rows for Rust for ARM, and again in two threads' python3 "$here/rows.py" c "$work/run_rust" 2
}

# readme_for_arm: installs as README.md says in the root of the variable ARM_ROOT, a Debian for ARM, and runs its commands there.
readme_for_arm() {
    local clone=$ARM_ROOT/tmp/promql status
    rm -rf "$clone" && git clone -q "$root" "$clone" || return
    "$here/arm_root.sh" run "$ARM_ROOT" /usr/bin/env -i HOME=/root PATH=/usr/bin:/bin LANG=C.UTF-8 /tmp/promql/bin/test_clone --installed
    status=$?
    rm -rf "$clone"
    return $status
}

test_arm() {
    local processor stale
    has readelf 'programs in an empty root' || return
    for processor in $(processor_names); do
        if [ "$processor" != "$(uname -m)" ]; then has "qemu-$processor-static" "the program for $processor" || continue; fi
        if ! [ -f "$dist/$processor/promql" ]; then
            echo "not tried: the program for $processor: dist/ has none"
        elif ! in_empty_root / /bin/true 2>/dev/null; then
            echo "not tried: the program for $processor in an empty root: no other root can be had here"
        else
            try "the program for $processor in an empty root" runs_alone "$processor"
        fi
    done
    has qemu-aarch64-static 'what is for ARM' && has "$arm_cc" 'what is for ARM' || return
    if ! [ -f "$arm/libpromql.a" ]; then
        echo "not tried: what is for ARM: dist/ has no folder for it"
        return
    fi
    stale=$(why_library_stale "$(kit_line)" aarch64)
    if [ -n "$stale" ]; then echo "######## libpromql for ARM: $stale. bin/release makes the release anew."; fi
    try 'the names of libpromql.so for ARM' shows_own_names --dynamic "$arm/libpromql.so"
    try 'the names of libpromql.a for ARM' shows_own_names "$arm/libpromql.a"
    write_for_arm "$work/promql_arm" "$arm/promql"
    most=1800 add 'the program for ARM, as bin/test does' "$root/bin/test" --program "$work/promql_arm"
    test_c_for_arm
    test_musl_for_arm
    test_go_for_arm
    test_rust_for_arm
    if [ -n "${ARM_ROOT:-}" ]; then
        most=1800 add 'README.md in a Debian for ARM' readme_for_arm
    else
        echo 'not tried: README.md in a Debian for ARM: ARM_ROOT names none (bindings/arm_root.sh makes one)'
    fi
}

export arm arm_cc arm_root rust_target
export -f write_for_arm in_empty_root runs_alone readme_for_arm build_c_for_arm prints_for_arm in_go_for_arm go_tests_for_arm
export -f in_cargo_for_arm rust_tests_for_arm
