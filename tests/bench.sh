#!/bin/bash
# Measures the library, through its C interface, against the same rules and loops in Rust: prints the tables of docs/PERFORMANCE.md.
# The table on comma separated text has a third side, a tuned Rust import and export that are not in the library's loops.
# Usage: tests/bench.sh [texts | logs | stack | once library|rust FAMILY|CALL | once tuned CALL | beside ARCHIVE]; the library is
# target/staticlib/libcuerisk.a, built first, or the libcuerisk.a in the folder that CUE_RISK_LIB names. `beside` measures the archive
# of another build and the library, in turn; not on comma separated text or logs, so that the archive may be older than these calls. Of a
# version before 6 its runs take no mode: it is asked for runs by distance alone.
set -e
here=$(realpath "$(dirname "$0")")
if [ -z "$CUE_RISK_LIB" ]; then
    "$here/../build.sh" cuerisk
fi
if [ "$1" = beside ]; then
    made=$here/bench/target/beside
    mkdir -p "$made"
    # One program has both: the other's symbols are renamed, and all functions aligned, so that their places in it make no difference.
    renamed=$(nm "$2" | sed -n 's/.* T \(.*\)/--redefine-sym=\1=other_\1/p')
    objcopy --set-section-alignment '.text.*=64' $renamed "$2" "$made/libother.a"
    objcopy --set-section-alignment '.text.*=64' "${CUE_RISK_LIB:-$here/../target/staticlib}/libcuerisk.a" "$made/libcuerisk.a"
    export CUE_RISK_LIB=$made CARGO_TARGET_DIR=$made
    set -- beside
fi
cd "$here/.."
exec cargo run --quiet --release --offline --manifest-path tests/bench/Cargo.toml --bin bench -- "$@"
