#!/bin/bash
# Holds include/cue_risk.h to figures that are written out in tests/header, as C11 and as C++17: every constant, every field, every
# prototype with the names of its parameters, the words of the refusals, and what each call answers. Usage: tests/run_header.sh.
set -eo pipefail
cd "$(dirname "$0")/.."
./build.sh cuerisk
archive=target/staticlib/libcuerisk.a
built=target/header
strict="-Wall -Wextra -Werror -pedantic -Iinclude"
mkdir -p "$built"

# Each declaration of a function on a line of its own, with one blank wherever there are some.
declarations() {
    tr '\n' ' ' | tr -s ' ' | grep -o '[A-Za-z0-9_]* cue_[a-z_]*([^)]*);'
}
cc -E -P -Iinclude include/cue_risk.h | declarations | diff - <(declarations < tests/header/prototypes.txt)

echo '#include "cue_risk.h"' | cc -std=c99 $strict -x c -fsyntax-only -
cc -std=c11 $strict tests/header/*.c "$archive" -o "$built/c"
g++ -std=c++17 $strict -x c++ tests/header/*.c -x none "$archive" -o "$built/cpp"
"$built/c"
"$built/cpp"
echo "the header is as tests/header has it, in C11 and in C++17"
