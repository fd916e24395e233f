#!/bin/bash
# Proves and builds crates by their names: a program to target/bin/NAME, a static library to target/staticlib/libNAME.a.
# Usage: ./build.sh NAME.., as ./build.sh cue_risk cuerisk.
set -e
cd "$(dirname "$0")"
mkdir -p target/bin target/staticlib
for name in "$@"; do
    if [ -f "crates/$name/src/main.rt" ]; then
        # A program is built to be run: here on no input.
        (cd "crates/$name" && rt run < /dev/null > /dev/null)
        cp -p "crates/$name/out/$name" target/bin/
    else
        (cd "crates/$name" && rt lib)
        cp -p "crates/$name/out/lib$name.a" target/staticlib/
    fi
done
