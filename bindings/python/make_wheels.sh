#!/usr/bin/env bash
# bindings/python/make_wheels.sh FOLDER   makes a wheel for each processor that dist/ has, and the source distribution, by pip and without a
#                                         network; PYTHON names another Python than python3
set -eu
if [ $# != 1 ] || [ -z "$1" ] || [ "${1#-}" != "$1" ]; then
    sed -n '2,3s/^# //p' "$0" >&2
    exit 64
fi
mkdir -p "$1"
folder=$(cd "$1" && pwd)
cd "$(dirname "$0")"
for library in ../../dist/*/libpromql.so; do
    processor=$(basename "$(dirname "$library")")
    "${PYTHON:-python3}" -m pip wheel --quiet --no-deps --no-index --config-settings "processor=$processor" --wheel-dir "$folder" .
done
"${PYTHON:-python3}" -c 'import sys; from build_backend import build_sdist; print(build_sdist(sys.argv[1]))' "$folder"
