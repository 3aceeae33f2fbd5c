# shellcheck shell=bash
# Functions that the scripts of bin/ share. A script sets `root`, the top of the repository, and then sources this file.
# None of them needs the command rt, but for the kit's line, which a file of a release keeps.
: "${root:?}"

# print_counts PASSED FAILED: prints the last line of a script of tests, and fails where a test did.
print_counts() {
    echo "$1 passed, $2 failed"
    [ "$2" = 0 ]
}

# exec_bound COMMAND..: becomes the command, in the background of a script. It ends with the script, also where that is killed
# outright, if there is setpriv.
exec_bound() {
    if command -v setpriv >/dev/null; then exec setpriv --pdeathsig TERM -- "$@"; fi
    exec "$@"
}

# The processors that a release is for: each has a folder in dist/, by the name that `uname -m` gives it. The first one is the kit's.
processor_names() {
    echo x86_64
    echo aarch64
}

# this_processor: the name of this machine's, or a message and a failure where no release is for it.
this_processor() {
    local name
    name=$(uname -m)
    if ! processor_names | grep -qxF "$name"; then
        echo "no release is for the processor $name: there are those for $(processor_names | paste -sd, | sed 's/,/ and /')" >&2
        return 1
    fi
    echo "$name"
}

# target_of PROCESSOR: how the prover names what is built for it.
target_of() {
    echo "$1-unknown-linux-gnu"
}

# tools_for PROCESSOR: what the names of the linker's tools begin with; nothing for this machine's own.
tools_for() {
    if [ "$1" != "$(uname -m)" ]; then echo "$1-linux-gnu-"; fi
}

# compiler_for PROCESSOR: the C compiler, or a message and a failure where there is none here.
compiler_for() {
    local compiler
    compiler=$(tools_for "$1")
    compiler=${compiler:+${compiler}gcc}
    compiler=${compiler:-${CC:-cc}}
    if ! command -v "$compiler" >/dev/null; then
        echo "there is no $compiler, the C compiler for $1, which Debian has in gcc-${1/_/-}-linux-gnu" >&2
        return 1
    fi
    echo "$compiler"
}

# kit_code PROCESSOR FOLDER NAME/FILE..: what has the functions of C that the proved code calls, a file a line: of each pair the kit's
# archive lib NAME.a, or, for another processor than the kit's, bin/FILE.c, which is compiled in the folder.
kit_code() {
    local pair processor=$1 folder=$2 compiler
    shift 2
    compiler=$(compiler_for "$processor") || return
    for pair in "$@"; do
        if [ "$processor" = "$(processor_names | head -n 1)" ]; then
            echo "$(kit_folder)/c/lib${pair%/*}.a"
        else
            "$compiler" -std=c11 -O2 -fPIC -fno-ident -fstack-clash-protection -Wall -Wextra -Wpedantic -Werror -c \
                -o "$folder/${pair#*/}.o" "$root/bin/${pair#*/}.c" || return
            echo "$folder/${pair#*/}.o"
        fi
    done
}

# The crates of crates.txt that are programs, in the file's order.
program_names() {
    local name
    awk -F: '!/^#/ && NF { split($1, words, " "); print words[1] }' "$root/crates.txt" | while read -r name; do
        if [ -f "$root/crates/$name/src/main.rt" ]; then printf '%s\n' "$name"; fi
    done
}

# The crates of crates.txt that are static libraries: promql_c, of which the library for C is made.
library_names() {
    awk -F: '!/^#/ && NF && split($1, words, " ") > 1 && words[2] == "staticlib" { print words[1] }' "$root/crates.txt"
}

# The files of dist/ that are copies of sources, which nothing is built of.
copied_files() {
    echo bindings/schema/promql.schema.json
    echo bindings/c/promql_form.h
}

# crate_lines CRATE..: these crates and those of the repository below them, lowest first, as 'NAME: DEP ..', where each DEP
# is a crate of the repository.
crate_lines() {
    awk -F: -v wanted="$*" '
        !/^#/ && NF { split($1, words, " "); uses[words[1]] = $2 }
        function visit(name,    parts, count, i, deps) {
            if (name in seen) return
            seen[name] = 1
            count = split(uses[name], parts, " ")
            for (i = 1; i <= count; i++) if (parts[i] in uses) { visit(parts[i]); deps = deps " " parts[i] }
            print name ":" deps
        }
        END {
            count = split(wanted, all, " ")
            for (k = 1; k <= count; k++) {
                if (!(all[k] in uses)) { print "crates.txt has no crate " all[k] >"/dev/stderr"; exit 1 }
                visit(all[k])
            }
        }' "$root/crates.txt"
}

# listing_of CRATE..: the lines that these crates have in crates.txt.
listing_of() {
    awk -F: -v wanted="$*" '
        BEGIN { count = split(wanted, all, " "); for (k = 1; k <= count; k++) is_wanted[all[k]] = 1 }
        !/^#/ && NF { split($1, words, " "); if (words[1] in is_wanted) print }' "$root/crates.txt"
}

# fingerprint KIT CRATE..: the checksum of what these crates are made from: the kit's line, HANDLES, and of these crates and
# those below them the line of crates.txt and the files of src/, specs/ and proofs/.
fingerprint() {
    local kit=$1 names part name
    local -a folders=()
    shift
    names=$(crate_lines "$@" | cut -d: -f1) || return
    for name in $names; do
        for part in src specs proofs; do
            if [ -d "$root/crates/$name/$part" ]; then folders+=("crates/$name/$part"); fi
        done
    done
    (
        cd "$root" || exit
        printf '%s\n' "$kit"
        if [ -f HANDLES ]; then cat HANDLES; fi
        # shellcheck disable=SC2086 # the names are words
        listing_of $names | LC_ALL=C sort
        find "${folders[@]}" -type f -print0 | LC_ALL=C sort -z | xargs -0 sha256sum
    ) | sha256sum | cut -d' ' -f1
}

# release_fingerprint KIT: the checksum of what the programs of dist/ are made from: all programs, as above, and the C for ARM.
release_fingerprint() {
    local sum
    local -a programs
    mapfile -t programs < <(program_names)
    sum=$(fingerprint "$1" "${programs[@]}") || return
    (
        cd "$root" || exit
        printf '%s\n' "$sum"
        sha256sum bin/kit_heap.c bin/kit_process.c
    ) | sha256sum | cut -d' ' -f1
}

# The SONAME of libpromql.so, which has a number (docs/RELEASE.md, "The number of the shared library").
library_soname() {
    sed -n 's/^soname=//p' "$root/bindings/c/promql.pc"
}

# library_fingerprint KIT: the checksum of what the library for C is made from: its crate, as above, its files of bindings/c, and the heap
# for ARM.
library_fingerprint() {
    local sum
    local -a crates
    mapfile -t crates < <(library_names)
    sum=$(fingerprint "$1" "${crates[@]}") || return
    (
        cd "$root" || exit
        printf '%s\n' "$sum"
        sha256sum bindings/c/promql.c bindings/c/promql.h bindings/c/promql.map bindings/c/promql.pc bin/kit_heap.c
    ) | sha256sum | cut -d' ' -f1
}

# The checksum of what the extension for Python is made from.
extension_fingerprint() {
    (
        cd "$root" || exit
        sha256sum bindings/python/promql/_native{,_nodes,_read,_write,_yaml}.c bindings/python/promql/_native.h bindings/c/promql.h
    ) | sha256sum | cut -d' ' -f1
}

# The folder of the headers of Python: PYTHON names another one than python3.
python_headers() {
    "${PYTHON:-python3}" -c 'import sysconfig; print(sysconfig.get_path("include"))'
}

# The header of libyaml, whose structs the extension for Python reads.
yaml_header() {
    echo /usr/include/yaml.h
}

# What the extension is made with here, which decides its bytes: the C compilers, and the version of Python's headers.
extension_tools() {
    local headers processor compiler
    for processor in $(processor_names); do
        compiler=$(compiler_for "$processor" 2>/dev/null) && printf '%s, ' "$("$compiler" --version | head -n 1)"
    done
    headers=$(python_headers)
    printf '%s\n' "${headers##*/}"
}

# link_tools PROCESSOR: what a program is linked with here, which decides its bytes: the C compiler, its linker, and the C library.
link_tools() {
    local compiler
    compiler=$(compiler_for "$1") || return
    printf '%s: %s, %s, libc.a %.16s\n' "$1" "$("$compiler" --version | head -n 1)" "$("$(tools_for "$1")ld" --version | head -n 1)" \
        "$(file_sum "$("$compiler" -print-file-name=libc.a)")"
}

# The folder of the kit that has the command rt.
kit_folder() {
    local rt
    rt=$(command -v rt) || return
    rt=$(readlink -f "$rt")
    printf '%s\n' "${rt%/*/*}"
}

# The kit's line, or nothing where there is no rt. The file beside rt is read where it is there: rt itself takes half a second.
kit_line() {
    local kit
    kit=$(kit_folder) || return 0
    cat "$kit/KIT-ID" 2>/dev/null || rt version
}

# write_made_from FILE KIT PROGRAM-FILE..: what these programs, which are beside FILE, were made from: the checksum, the kit's line, and a
# line with the checksum of each program.
write_made_from() {
    local file=$1 kit=$2 program
    local -a names=()
    shift 2
    for program in "$@"; do names+=("${program##*/}"); done
    write_sums "$file" "$(fingerprint "$kit" "${names[@]}")" "$kit" "$@"
}

# write_library_made_from FILE KIT LIBRARY-FILE..: the same for the files of the library for C.
write_library_made_from() {
    local file=$1 kit=$2
    shift 2
    write_sums "$file" "$(library_fingerprint "$kit")" "$kit" "$@"
}

# write_release_made_from FILE KIT PROGRAM-FILE..: the same for the programs of dist/, whose files are named by their places beside FILE.
# Below are the checksums of what was built of the proved code, by its place in crates/, and what the programs were linked with.
write_release_made_from() {
    local file=$1 kit=$2 program built processor
    shift 2
    write_sums "$file" "$(release_fingerprint "$kit")" "$kit" "$@"
    {
        for program in $(program_names); do
            for built in $(built_files "$program"); do
                printf '%s  %s\n' "$(file_sum "$root/$built")" "$built"
            done
        done
        for processor in $(processor_names); do link_tools "$processor"; done
    } >>"$file"
}

# built_files PROGRAM: what bin/prove builds of it: as the kit links it, and its object for each processor.
built_files() {
    printf 'crates/%s/out/%s\n' "$1" "$1"
    built_object "$1" x86_64
    built_object "$1" aarch64
}

# built_object NAME PROCESSOR, built_archive NAME PROCESSOR: where bin/prove leaves the object of a program, and a static library.
built_object() {
    printf 'crates/%s/out/%s%s.o\n' "$1" "$(place_for "$2")" "$1"
}

built_archive() {
    printf 'crates/%s/out/%slib%s.a\n' "$1" "$(place_for "$2")" "$1"
}

place_for() {
    if [ "$1" != "$(processor_names | head -n 1)" ]; then echo "$1/"; fi
}

# write_sums FILE SUM KIT MADE-FILE..: the two lines, and a line with the checksum of each file that was made, by its place beside FILE.
write_sums() {
    local file=$1 made
    printf '%s\n' "$2" "$3" >"$file.new"
    shift 3
    for made in "$@"; do
        printf '%s  %s\n' "$(file_sum "$made")" "${made#"${file%/*}/"}" >>"$file.new"
    done
    mv -f "$file.new" "$file"
}

file_sum() {
    sha256sum <"$1" | cut -d' ' -f1
}

# why_other FILE KIT FUNCTION WORD..: why FILE isn't about what the sources here make, or nothing where it is. KIT is the kit's
# line of this machine, or empty where there is no rt; `FUNCTION KIT WORD..` prints the checksum of the sources.
why_other() {
    local file=$1 kit=$2 sum=$3
    local -a lines=()
    shift 3
    if [ -f "$file" ]; then mapfile -t lines <"$file"; fi
    if [ "${#lines[@]}" -lt 3 ]; then
        echo "there is no release of it here"
    elif [ -n "$kit" ] && [ "$kit" != "${lines[1]}" ]; then
        echo "the kit is another one than the release was made with"
    elif [ "$("$sum" "${lines[1]}" "$@")" != "${lines[0]}" ]; then
        echo "the sources are newer than the release"
    fi
}

# is_listed FILE MADE-FILE [FOLDER]: whether FILE has the checksum of this file, by its place beside FILE or in another folder.
is_listed() {
    tail -n +3 "$1" | grep -qxF "$(file_sum "$2")  ${2#"${3:-${1%/*}}/"}"
}

# why_stale FILE PROGRAM-FILE KIT CRATE..: why the program isn't what FILE says was made from these crates as they are
# here, or nothing where it is. KIT is the kit's line of this machine, or empty where there is no rt.
why_stale() {
    local file=$1 program=$2 kit=$3 why="there is no release of it here"
    shift 3
    if [ -x "$program" ]; then why=$(why_other "$file" "$kit" fingerprint "$@"); fi
    if [ -n "$why" ]; then
        echo "$why"
    elif ! is_listed "$file" "$program"; then
        echo "${program##*/} is not the program that was released"
    fi
}

# why_release_stale NAME KIT [PROCESSOR]: the same for a program of dist/, for this machine or another processor.
why_release_stale() {
    local processor file=$root/dist/MADE_FROM program why="there is no release of it here"
    processor=${3:-$(uname -m)}
    program=$root/dist/$processor/$1
    if [ -x "$program" ]; then
        why=$(why_other "$file" "$2" release_fingerprint)
    elif ! processor_names | grep -qxF "$processor"; then
        why="no release is for the processor $processor"
    fi
    if [ -n "$why" ]; then
        echo "$why"
    elif ! is_listed "$file" "$program"; then
        echo "$1 is not the program that was released"
    fi
}

# release_listing NAME KIT: the kit's line, and for each file that decides which program of this name is run its path, its size, its inode and
# when it changed. No program can set that time.
release_listing() {
    printf '%s\n' "$2"
    (
        cd "$root" || exit
        find bin/lib.sh bin/run_program bin/kit_heap.c bin/kit_process.c HANDLES crates.txt dist/MADE_FROM "dist/$(uname -m)/$1" \
            "crates/$1/out/$1" "crates/$1/out/$1.made_from" crates/*/src crates/*/specs crates/*/proofs \
            -type f -printf '%p %s %i %C@\n' 2>/dev/null
    )
}

# stamped_program FILE LISTING: prints the program that was found for this listing, by its path from the top; fails where there is none.
stamped_program() {
    local stamp
    [ -f "$1" ] || return
    stamp=$(<"$1")
    [ "${stamp#*$'\n'}" = "$2" ] && printf '%s\n' "${stamp%%$'\n'*}"
}

# write_stamp FILE PROGRAM LISTING: keeps which program was found. A file that changed in the last two seconds may change again at what the
# system calls the same time, so then nothing is kept.
write_stamp() {
    local newest
    newest=$(awk 'NR > 1 && $NF > newest { newest = $NF } END { printf "%d", newest }' <<<"$3")
    if [ "$newest" -lt "$(($(date +%s) - 2))" ] && mkdir -p "${1%/*}"; then
        printf '%s\n' "$2" "$3" >"$1.$$" && mv -f "$1.$$" "$1"
    fi
}

# why_extension_stale [PROCESSOR]: the same for the extension for Python of dist/.
why_extension_stale() {
    local made=$root/dist/_native.made_from extension why
    extension=$root/dist/${1:-$(uname -m)}/_native.abi3.so
    why=$(why_other "$made" '' extension_fingerprint)
    if [ -z "$why" ] && ! { [ -f "$extension" ] && is_listed "$made" "$extension"; }; then
        why="_native.abi3.so is not the file that was released"
    fi
    printf '%s' "$why"
}

# library_files PROCESSOR: the files of the library for C, by their places in dist/.
library_files() {
    printf '%s\n' "$1/libpromql.a" "$1/libpromql.so" "$1/$(library_soname)" promql.h
}

# why_library_stale KIT [PROCESSOR]: the same for the library for C of dist/.
why_library_stale() {
    local made=$root/dist/libpromql.made_from name why
    why=$(why_other "$made" "$1" library_fingerprint)
    for name in $(library_files "${2:-$(uname -m)}"); do
        if [ -z "$why" ] && ! { [ -f "$root/dist/$name" ] && is_listed "$made" "$root/dist/$name"; }; then
            why="${name##*/} is not the file that was released"
        fi
    done
    printf '%s' "$why"
}
