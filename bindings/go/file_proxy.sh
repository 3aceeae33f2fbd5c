#!/usr/bin/env bash
# bindings/go/file_proxy.sh FOLDER   puts the module of the commit that is checked out into a folder, with the libraries and their header of dist/.
#                                    `go get` takes it from there, with GOPROXY=file://FOLDER; docs/guide/bindings.md shows it
set -eu
if [ $# != 1 ] || [ -z "$1" ]; then
    sed -n '2,3s/^# //p' "$0" >&2
    exit 64
fi
here=$(cd "$(dirname "$0")" && pwd)
module=$(sed -n 's/^module //p' "$here/go.mod")
version=v$(sed -n 's/^Version: //p' "$here/../c/promql.pc")
# In such a folder a capital letter of a path is a mark and the small letter.
# shellcheck disable=SC2001 # a substitution of the shell changes no case
versions=$1/$(sed 's/[A-Z]/!\L&/g' <<<"$module")/@v
mkdir -p "$versions"
versions=$(cd "$versions" && pwd)
cd "$here/../.."
# (a file that is added has the prefix before it, and those of the commit have the last one)
added=()
for library in dist/*/libpromql.a; do
    processor=$(basename "$(dirname "$library")")
    added+=(--prefix="$module@$version/internal/$processor/" --add-file="$library")
done
git archive --format=zip "${added[@]}" --prefix="$module@$version/" --add-file=dist/promql.h --add-file=LICENSE --add-file=NOTICE \
    --output="$versions/$version.zip" HEAD:bindings/go
git show HEAD:bindings/go/go.mod >"$versions/$version.mod"
printf '{"Version":"%s"}\n' "$version" >"$versions/$version.info"
(cd "$versions" && for file in *.info; do echo "${file%.info}"; done) >"$versions/list"
