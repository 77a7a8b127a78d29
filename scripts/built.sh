#!/usr/bin/env bash
# Builds what stands outside the proofs: with no name the static library, as target/staticlib/libcapi.a, and for each name of a program
# target/bin/NAME. What is not proved is not built.
set -eu
cd "$(dirname "$0")/.."
top=$PWD
log=$(mktemp)
trap 'rm -f "$log"' EXIT

made() {
    cd "$top/crates/$1"
    "${@:2}" < /dev/null > "$log" 2>&1 || { cat "$log" >&2; exit 1; }
    cd "$top"
}

if [ $# = 0 ]; then
    made capi_c rt lib
    mkdir -p target/staticlib
    cp crates/capi_c/out/libcapi_c.a target/staticlib/libcapi.a
fi
for name in "$@"; do
    # (a program that is run with nothing to read stays as out/NAME)
    made "$name" rt run
    mkdir -p target/bin
    cp "crates/$name/out/$name" "target/bin/$name"
done
