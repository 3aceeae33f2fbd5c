#!/bin/sh
# `bench/run.sh FOLDER [FILE]` runs the benchmark of that folder as a crate of its own over a copy of the repository, with the
# crates that it uses, on the file, or else on the folder's file `stdin` if there is one. The copy and its proofs are kept in
# ${XDG_CACHE_HOME:-~/.cache}/promql-bench, so that a second run proves only what changed. A folder with a script `run` has that
# script run the program that was built, on the file.
set -e
top=$(cd "$(dirname "$0")/.." && pwd)
folder=$top/bench/$1
input=${2:-$folder/stdin}
main=$(echo "$folder"/*.rt.txt)
name=$(basename "$main" .rt.txt)
work=${BENCH_WORK:-${XDG_CACHE_HOME:-$HOME/.cache}/promql-bench}
mkdir -p "$work/crates/$name/src"
find "$work/crates" -mindepth 2 -maxdepth 2 ! -name out -exec rm -rf {} +
(cd "$top/crates" && tar cf - --exclude=./*/out .) | (cd "$work/crates" && tar xf -)
cp "$top/HANDLES" "$work/HANDLES"
mkdir -p "$work/crates/$name/src"
cp "$main" "$work/crates/$name/src/main.rt"
if [ -d "$folder/proofs" ]; then
    cp -r "$folder/proofs" "$work/crates/$name/proofs"
    find "$work/crates/$name/proofs" -name '*.antt.txt' -exec sh -c 'mv "$1" "${1%.txt}"' _ {} \;
fi
used=$(sed -n 's/^use \(promql_[a-z_]*\)::.*/\1/p' "$main" | sort -u | tr '\n' ' ')
{ cat "$top/crates.txt"; echo "$name: $used"; } > "$work/crates.txt"
cd "$work/crates/$name"
rt run < /dev/null > run.log 2>&1 || { cat run.log >&2; exit 1; }
if [ -x "$folder/run" ]; then
    exec "$folder/run" "$PWD/out/$name" "$input"
fi
if [ -f "$input" ]; then
    exec "out/$name" < "$input"
fi
exec "out/$name"
