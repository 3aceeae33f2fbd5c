# shellcheck shell=bash
# Functions of bindings/test.sh, which sources this file: the tests of `make install`, and of what pkg-config, CMake, man and the shells
# find then.
: "${here:?}" "${root:?}" "${dist:?}" "${made:?}" "${work:?}" "${queries:?}"
prefix=$work/prefix
share=$prefix/share
both=$work/both

# make_for TARGET VARIABLE..: make in the checkout.
make_for() {
    make -s -C "$root" "$@"
}

# files_in FOLDER: its files and links, by their names in it, in order.
files_in() {
    (cd "$1" && find . ! -type d | sort)
}

# What is installed is the same with DESTDIR; others can read it, whatever the umask; and `make uninstall` removes it all, the
# folders that have its name, too.
install_all() {
    (umask 077 && make_for install PREFIX="$prefix" && make_for install PREFIX='/usr a' DESTDIR="$work/image") || return
    cmp "$made/promql" "$prefix/bin/promql" || return
    [ "$("$prefix/bin/promql" line <<<'1+2')" = '1 + 2' ] || return
    [ -z "$(find "$prefix" -type f ! -perm -444)" ] || return
    diff <(files_in "$prefix") <(files_in "$work/image/usr a") || return
    make_for uninstall PREFIX='/usr a' DESTDIR="$work/image" || return
    [ -z "$(files_in "$work/image")" ] && [ -z "$(find "$work/image" -name promql)" ]
}

# pkg_config WORD..: what pkg-config says of the library that was installed.
pkg_config() {
    PKG_CONFIG_PATH=$prefix/lib/pkgconfig pkg-config "$@" promql
}

# The file of the shared library has its version, and the links to it are its SONAME and the name that a linker looks for.
names_of_library() {
    local link
    for link in libpromql.so "$(pkg_config --variable=soname)"; do
        [ "$(readlink "$prefix/lib/$link")" = "libpromql.so.$(pkg_config --modversion)" ] || return
    done
}

has_soname() {
    objdump -p "$prefix/lib/libpromql.so" | grep -qE "^ +SONAME +$(pkg_config --variable=soname)\$"
}

# build_linked NAME WORD..: builds the example as NAME, with these words for the compiler.
build_linked() {
    "${CC:-cc}" -o "$work/$1" "$here/c/example.c" "${@:2}"
}

# prints_line NAME [VARIABLE..]: whether this example runs, with these variables alone.
prints_line() {
    [ "$(env -i "${@:2}" "$work/$1" '1+2')" = '1 + 2' ]
}

# The shared library of a prefix where the system does not look for one: by an rpath, and by a variable.
linked_to_shared() {
    local libraries
    local -a flags
    libraries=$(pkg_config --variable=libdir) && read -r -a flags <<<"$(pkg_config --cflags --libs)" || return
    build_linked by_rpath "${flags[@]}" -Wl,-rpath,"$libraries" && prints_line by_rpath || return
    build_linked by_variable "${flags[@]}" && prints_line by_variable LD_LIBRARY_PATH="$libraries"
}

# The static library: the program needs no other file.
linked_to_static() {
    local -a flags
    read -r -a flags <<<"$(pkg_config --cflags)"
    build_linked by_archive "${flags[@]}" "$(pkg_config --variable=libdir)/libpromql.a" && prints_line by_archive &&
        ! ldd "$work/by_archive" | grep promql
}

# The header of forms lies beside the other one, and needs nothing but the flags of pkg-config.
walked_by_installed() {
    local -a flags
    cmp "$here/c/promql_form.h" "$prefix/include/promql_form.h" && read -r -a flags <<<"$(pkg_config --cflags)" || return
    "${CC:-cc}" -o "$work/walked" "$here/c/tests/test_form.c" "${flags[@]}" "$(pkg_config --variable=libdir)/libpromql.a" &&
        "$work/walked" "$queries"
}

# The names of the shared library, and programs that are linked as docs/guide/bindings.md says.
test_linking() {
    has pkg-config 'the library that was installed' || return
    try 'the names of the shared library' names_of_library
    if [ -n "$stale" ]; then
        echo "not tried: the SONAME of the shared library: $stale"
    elif has objdump 'the SONAME of the shared library'; then
        try 'the SONAME of the shared library' has_soname
    fi
    has "${CC:-cc}" 'programs linked to the library that was installed' || return
    try 'a program linked to the shared library of a prefix' linked_to_shared
    try 'a program linked to the static library of a prefix' linked_to_static
    add 'forms that are walked by the header of a prefix' walked_by_installed
}

# The page is without a warning of groff, and has what the help of each subcommand says of its options and statuses.
manual_is_read() {
    local page=$share/man/man1/promql.1 said
    said=$(groff -man -ww -z "$page" 2>&1) && [ -z "$said" ] || return
    said=$(groff -man -Tascii "$page" | sed 's/.\x08//g; s/\x1b\[[0-9]*m//g')
    printf '%s\n' "$said"
    [ "$(grep -c "^ *0 *[a-z]" <<<"$said")" = 5 ] && [ "$(grep -c "^ *64 *wrong arguments" <<<"$said")" = 5 ] &&
        tr -s ' \n' ' ' <<<"$said" | grep -q -- 'promql format .*\[--max-len N\]'
}

# completed WORD BEFORE SUBCOMMAND..: what bash completes a word to after the one before it and after these words.
completed() {
    (
        # shellcheck disable=SC1091 # it is installed
        . "$share/bash-completion/completions/promql"
        COMP_WORDS=(promql "${@:3}" "$1")
        COMP_CWORD=$((${#COMP_WORDS[@]} - 1))
        _promql promql "$1" "$2" && echo "${COMPREPLY[*]}"
    )
}

bash_completes() {
    [ "$(completed p promql)" = pretty ] && [ "$(completed l batch batch)" = line ] && [ -z "$(completed l check check)" ] &&
        [ "$(completed --max check check)" = '--max-len --max-patterns' ] &&
        [ "$(completed --k format format)" = --keep-spelling ] && [ -z "$(completed '' --width format --width)" ] &&
        [ "$(completed a --color check --color)" = 'always auto' ] && [ -z "$(completed '' --max-len enforce --max-len)" ] &&
        [ -z "$(completed name enforce enforce)" ]
}

fish_completes() {
    local -a in_fish=(env HOME="$work" PATH="$prefix/bin:$PATH" fish -c "set -p fish_complete_path '$share/fish/vendor_completions.d'; complete -C \$argv[1]")
    [ "$("${in_fish[@]}" 'promql batch --max-l')" = --max-len ] &&
        [ "$("${in_fish[@]}" 'promql ' | sort | tr '\n' ' ')" = 'batch check enforce format json line pretty ' ]
}

zsh_completes() {
    zsh -n "$share/zsh/site-functions/_promql" &&
        [ "$(zsh -fc "fpath=('$share/zsh/site-functions' \$fpath); autoload -Uz compinit; compinit -u -D; echo \$_comps[promql]")" = _promql ]
}

# cmake_user FOLDER LINE..: builds a project that uses the library by these lines, and runs its two programs.
cmake_user() {
    local folder=$1 name
    shift
    mkdir -p "$folder"
    printf '%s\n' 'cmake_minimum_required(VERSION 3.13)' 'project(user LANGUAGES C)' 'enable_testing()' "$@" \
        "add_executable(shared \"$here/c/example.c\")" 'target_link_libraries(shared PRIVATE promql::promql)' \
        "add_executable(static \"$here/c/example.c\")" 'target_link_libraries(static PRIVATE promql::static)' >"$folder/CMakeLists.txt"
    cmake -S "$folder" -B "$folder/build" -DCMAKE_PREFIX_PATH="$prefix" && cmake --build "$folder/build" || return
    for name in shared static; do [ "$("$folder/build/$name" '1+2')" = '1 + 2' ] || return; done
}

found_by_cmake() {
    cmake_user "$work/finds" 'find_package(promql 0.10 REQUIRED)' 'find_package(promql REQUIRED)' &&
        ! cmake_user "$work/finds_other" 'find_package(promql 0.9 REQUIRED)' && ! cmake_user "$work/finds_later" 'find_package(promql 0.11 REQUIRED)'
}

# A project that has this one as a part gets neither its tests nor its example.
part_of_another() {
    cmake_user "$work/has" "add_subdirectory(\"$here/c\" promql)" && [ -z "$(find "$work/has/build" -name 'test_*' -o -name 'promql_example*')" ] &&
        ctest --test-dir "$work/has/build" -N | grep -q '^Total Tests: 0$'
}

# put_in MAKE-OR-PIP, take_out MAKE-OR-PIP: installs what make does, or the package for Python, below the prefix `both`, or uninstalls it.
put_in() {
    case $1 in
    make) make_for install PREFIX="$both" ;;
    pip) "$both/bin/python" -m pip install --quiet --no-deps --no-index "$work"/both_wheels/*.whl ;;
    esac
}

take_out() {
    case $1 in
    make) make_for uninstall PREFIX="$both" ;;
    pip) "$both/bin/python" -m pip uninstall --quiet --yes promql ;;
    esac
}

# runs_in MAKE-OR-PIP: whether the command that it installs works.
runs_in() {
    case $1 in
    make) [ "$("$both/bin/promql" line <<<'1+2')" = '1 + 2' ] ;;
    pip) "$both/bin/promql-rules" check "$here/python/tests/files/board.json" | grep -q ' no errors$' ;;
    esac
}

# make_and_pip PYTHON: what make and pip install below one prefix has no file in common, works in either order, and goes without the other.
make_and_pip() {
    local empty order first second by_make gone
    "$1" -m venv --system-site-packages --without-pip "$both" &&
        "$1" -m pip wheel --quiet --no-deps --no-index --wheel-dir "$work/both_wheels" "$here/python" || return
    empty=$(files_in "$both")
    put_in make && by_make=$(comm -13 <(echo "$empty") <(files_in "$both")) && take_out make && put_in pip || return
    [ -n "$by_make" ] && [ -z "$(comm -12 <(echo "$by_make") <(files_in "$both"))" ] && take_out pip || return
    for order in 'make pip make' 'make pip pip' 'pip make make' 'pip make pip'; do
        echo "installed and uninstalled: $order"
        read -r first second gone <<<"$order"
        put_in "$first" && put_in "$second" && runs_in make && runs_in pip && take_out "$gone" || return
        if [ "$gone" = "$first" ]; then first=$second; fi
        ! runs_in "$gone" 2>/dev/null && runs_in "$first" && take_out "$first" && [ "$(files_in "$both")" = "$empty" ] || return
    done
}

test_install() {
    local python
    has make 'make install' && has python3 'make install' || return
    try 'make install' install_all
    [ -d "$share" ] || return
    if has groff 'the manual page'; then try 'the manual page' manual_is_read; fi
    test_linking
    if python=$(python_with_pip); then
        PYTHONPATH='' try "make install beside pip install, by $python" make_and_pip "$python"
    else
        echo 'not tried: make install beside pip install: no Python here has pip and venv'
    fi
    try 'completions of bash' bash_completes
    if has fish 'completions of fish'; then try 'completions of fish' fish_completes; fi
    if has zsh 'completions of zsh'; then try 'completions of zsh' zsh_completes; fi
    has cmake 'find_package(promql)' || return
    try 'find_package(promql)' found_by_cmake
    try 'the project of CMakeLists.txt as a part of another one' part_of_another
}

export prefix share both
export -f make_for files_in install_all pkg_config names_of_library has_soname build_linked prints_line linked_to_shared linked_to_static walked_by_installed
export -f manual_is_read completed bash_completes fish_completes zsh_completes
export -f cmake_user found_by_cmake part_of_another put_in take_out runs_in make_and_pip
