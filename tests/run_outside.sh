#!/bin/bash
# Sets the library, linked through its C interface, beside the reference, over seeded cases: every answer, every place of every
# tree, every byte written. Usage: tests/run_outside.sh [--seed N] [--long] [--trace]; a case that fails is left in target/outside, and
# with --trace the last case of each family too, each step before it is made, should a call never return.
set -e
cd "$(dirname "$0")/.."
./build.sh cuerisk
mkdir -p target/outside
cargo run --quiet --release --offline --manifest-path tests/outside/Cargo.toml -- --folder target/outside "$@"
