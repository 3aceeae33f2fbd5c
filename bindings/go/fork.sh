#!/usr/bin/env bash
# bindings/go/fork.sh MODULE   makes bindings/go a module of this path, which `go get` takes from a fork: the module and its imports get the
#                              path, and the folder gets the libraries and their header of dist/. Commit what it changed and tag it
#                              bindings/go/vVERSION; the path is that of the repository and /bindings/go, as in
#                              github.com/YOU/promql/bindings/go
set -eu
if [ $# != 1 ] || [[ ! $1 =~ ^[A-Za-z0-9._~/-]+$ ]]; then
    sed -n '2,5s/^# //p' "$0" >&2
    exit 64
fi
module=$1
cd "$(dirname "$0")"
old=$(sed -n 's/^module //p' go.mod)
cp ../../dist/promql.h .
for library in ../../dist/*/libpromql.a; do
    processor=$(basename "$(dirname "$library")")
    cp "$library" "internal/$processor"
done
sed -i "s|^module .*|module $module|" go.mod
find . -name '*.go' -exec sed -i -E "s|^(\t\|import \|import _ )\"$old(/[^\"]*)?\"\$|\1\"$module\2\"|" {} +
