#!/usr/bin/env bash
# answer.sh MODE [JOBS [BLOCK]] <LOG >ANSWERS   the answers of promql batch to a log of queries, a JSON string a line, in the order of
#                                               the log, by JOBS processes of promql batch side by side (as many as there are
#                                               processors), each of which gets BLOCK bytes (4M)
set -euo pipefail
mode=$1
jobs=${2:-100%}
block=${3:-4M}
PROMQL=${PROMQL:-$(cd "$(dirname "$0")/../.." && pwd)/dist/$(uname -m)/promql}
export PROMQL PARALLEL_SHELL=$BASH

# (4 says that some query was rejected, which its answer says, too)
answer() {
    "$PROMQL" batch "$1" || [ $? = 4 ]
}
export -f answer

exec parallel --pipe --block "$block" --keep-order --jobs "$jobs" answer "$mode"
