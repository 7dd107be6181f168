#!/bin/sh
# Tests what stands around the program: the plain judges, the scripts, and the Python package, with the program where it is built.
set -u
usage="usage: test_scripts.sh [PROGRAM]

PROGRAM is the one that ./connect builds, where it is left out; what wants it is skipped where it isn't there, as is what
wants networkx or Graphviz. Says on standard error what fails, and ends with 1 then."

case ${1:-} in
    -h | --help) echo "$usage"; exit 0 ;;
    -*) echo "$usage" >&2; exit 2 ;;
esac
here=$(CDPATH='' cd -- "$(dirname -- "$0")" && pwd -P) || exit 1
program=${1:-$here/../crates/connect/out/connect}
said=$(mktemp) || exit 1
trap 'rm -f "$said"' EXIT

failed=0
try() {
    (cd "$1" && shift && "$@") >"$said" 2>&1 && return
    failed=1
    printf 'failed: %s\n' "$*" >&2
    tail -n 40 "$said" >&2
}

for test in "$here"/test_*.py; do try "$here" python3 "$test"; done
try "$here" python3 "$here/theorem_files.py"
if [ -x "$program" ]; then
    CONNECT=$program
    export CONNECT
    try "$here/../python" python3 -m unittest discover -q tests
    try "$here" python3 "$here/try_examples.py" "$program"
    try "$here" python3 "$here/try_guide.py" "$program"
fi
exit "$failed"
