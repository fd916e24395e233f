#!/bin/bash
# The examples over the static library, after the header that they rest on. The C and the Rust example print examples/table.txt:
# figures worked out by hand, and the sample show as samples/README.md has it. The pictures of examples/tree.c are well-formed and
# show every node of the records once; docs/finale.svg is one of them. Usage: tests/run_examples.sh.
set -eo pipefail
cd "$(dirname "$0")/.."
tests/run_header.sh
archive=target/staticlib/libcuerisk.a
built=target/examples
strict="-std=c11 -Wall -Wextra -Werror -pedantic -Iinclude"
export LC_ALL=C
mkdir -p "$built"

fail() {
    echo "$@"
    exit 1
}

cc $strict examples/table.c "$archive" -o "$built/table_c"
rustc --edition 2021 -D warnings examples/table.rs -L target/staticlib -l static=cuerisk -o "$built/table_rs"
for example in table_c table_rs; do
    "$built/$example" samples/show.sheet | cmp - examples/table.txt
done
echo "both examples print what examples/table.txt has"

cc $strict examples/tree.c "$archive" -o "$built/tree"
cc $strict tests/picture/nodes.c "$archive" -o "$built/nodes"
cc $strict tests/picture/wellformed.c -o "$built/wellformed"

# The nodes of a page, as tests/picture/nodes.c prints them, of the boxes that have the colour of their node.
shown() {
    sed -n 's/^<g class="\([a-z]*\)">/\1/p' "$1" | sed 's/<[^>]*>/|/g; s/||*/|/g; s/|$//' | awk -F'|' '
        $1 == "open" && $2 == "open leaf" || $1 == "closed" && $2 == "closed leaf" || $1 == "fault" && $2 ~ /^fault / ||
        $1 == "apart" && $2 == "independence" || $1 == "common" && $2 == "common part" {
            path = ""; for (i = 5; i <= NF; i++) path = path $i; print path, $2, $3, $4 }' | sort
}

# No two boxes of a page on one level overlap, and every node but the root has its line.
spaced() {
    grep -o '^<g class="[a-z]*"><rect x="[0-9]*" y="[0-9]*" width="[0-9]*"' "$1" | tr -c '0-9\n' ' ' | sort -k2n -k1n |
        awk '$2 == y && $1 < end { exit 1 } { y = $2; end = $1 + $3 }' || fail "boxes overlap in $1"
    [ "$(grep -c '^<path ' "$1")" = $(($(grep -c '^<g ' "$1") - 1)) ] || fail "lines are missing in $1"
}

# Both pages of a cue show what the records have. Usage: drawn SHEET CUE BUDGET.
drawn() {
    "$built/tree" "$@" > "$built/page.svg"
    "$built/tree" --text "$@" > "$built/page.txt"
    "$built/nodes" "$@" | sort > "$built/nodes.txt"
    "$built/wellformed" < "$built/page.svg" || fail "not well-formed: $*"
    shown "$built/page.svg" | cmp - "$built/nodes.txt"
    sed '1d; s/^ *//' "$built/page.txt" | sort | cmp - "$built/nodes.txt"
    spaced "$built/page.svg"
    pages=$((pages + 1))
}

# A page with this heading in both forms. Usage: headed HEADING SHEET CUE BUDGET.
headed() {
    drawn "${@:2}"
    [ "$(head -1 "$built/page.txt")" = "$1" ] && grep -qF ">$1</text>" "$built/page.svg" || fail "the heading is not: $1"
}

# A number as so many bytes, the lowest first. Usage: number BYTES N.
number() {
    local i byte
    for ((i = 0; i < $1; i++)); do
        printf -v byte '\\x%02x' $(($2 >> 8 * i & 255))
        printf "$byte"
    done
}

# A sheet of one cue, number 9, whose faults have one weight and whose ways name no fault absent. Usage: sheet ALLOWANCE
# FAULTS WEIGHT PRESENT.., a word for each way.
sheet() {
    local i word
    number 2 "$2" && number 2 1 && number 4 "$1" && number 2 255 && number 2 0
    number 2 9 && number 2 $(($# - 3)) && number 4 $((20 + 4 * $2))
    for ((i = 0; i < $2; i++)); do number 4 "$3"; done
    for word in "${@:4}"; do number 8 "$word" && number 8 0; done
}

pages=0
for cue in 1 2 3 5 8 12; do
    for budget in 0 1 3 8 255; do
        drawn samples/show.sheet $cue $budget
    done
done
headed "Cue 12: about 77469685 billionths, 77396690 to 77542680, after 8 refinements, spent" samples/show.sheet 12 8
cmp "$built/page.svg" docs/finale.svg
headed "Cue 12: about 76586114 billionths, 75598492 to 77573737, after 6 refinements, met" samples/near.sheet 12 20

# How many boxes of the last page are common parts. Usage: common_parts COUNT.
common_parts() {
    [ "$(grep -c '^<g class="common">' "$built/page.svg")" = "$1" ] || fail "not $1 common parts"
}

# The cues whose ways have faults in common, as samples/README.md tells them: all but cue 5 take them out first.
for cue in 1 2 3 4 5 6 7 8; do
    for budget in 0 1 2 255; do
        drawn samples/common.sheet $cue $budget
    done
    common_parts $((cue != 5))
done
headed "Cue 6: about 533333333 billionths, 533333332 to 533333334, after 2 refinements, done" samples/common.sheet 6 255
headed "Cue 8: about 281250000 billionths, 250000000 to 312500000, after 2 refinements, spent" samples/common.sheet 8 2

# Small chances, asked for within a hundredth of the chance or within a hundredth, as samples/README.md tells them: by share there
# are refinements, and no figure.
for cue in 1 2 4 9; do
    for budget in 0 1 40; do
        drawn samples/share.sheet $cue $budget
        drawn samples/faint.sheet $cue $budget
    done
done
headed "Cue 2: 6494 to 6497 billionths, after 1 refinement, met" samples/share.sheet 2 40
headed "Cue 4: 12280 to 12290 billionths, after 2 refinements, met" samples/share.sheet 4 40
headed "Cue 9: 0 to 1 billionths, after 0 refinements, done" samples/share.sheet 9 40
headed "Cue 4: about 8899 billionths, 5499 to 12300, after 0 refinements, met" samples/faint.sheet 4 40

# Five faults of 0.5 in a row, each two neighbours a way: of the 32 combinations 19 have two neighbours. With an allowance of 0.1
# fewer refinements are made.
sheet 100000000 5 500000000 3 6 12 24 > "$built/five.sheet"
drawn "$built/five.sheet" 9 255
sheet 0 5 500000000 3 6 12 24 > "$built/five.sheet"
for budget in 0 1 2 3 4 5; do
    drawn "$built/five.sheet" 9 $budget
done
headed "Cue 9: about 593750000 billionths, 593750000 to 593750000, after 5 refinements, met" "$built/five.sheet" 9 255

# All 511 nodes: 24 faults in a ring, each paired with the next four; the figures are those of tests/reference (`ring`, paper.rs).
pairs=()
for ((i = 0; i < 96; i++)); do
    pairs+=($((1 << i / 4 | 1 << (i / 4 + i % 4 + 1) % 24)))
done
sheet 0 24 111111111 "${pairs[@]}" > "$built/ring.sheet"
headed "Cue 9: about 548601474 billionths, 522915350 to 574287599, after 255 refinements, full" "$built/ring.sheet" 9 255
[ "$(wc -l < "$built/nodes.txt")" = 511 ] || fail "the ring does not fill its tree"

# The longest paths: 64 faults, a way for each, fall apart one by one.
singles=()
for ((i = 0; i < 64; i++)); do
    singles+=($((1 << i)))
done
sheet 0 64 500000000 "${singles[@]}" > "$built/singles.sheet"
drawn "$built/singles.sheet" 9 255
[ "$(cut -d' ' -f1 "$built/nodes.txt" | awk 'length > n { n = length } END { print n }')" = 63 ] || fail "the paths are short"

# Way k, up to 30, has the faults 0 to k and 31 + k, the last two have 0 to 30 and 62 or 63: the common part and independence in turn.
nested=()
for ((k = 0; k < 31; k++)); do
    nested+=($(((2 << k) - 1 | 1 << 31 + k)))
done
nested+=($(((1 << 31) - 1 | 1 << 62)) $(((1 << 31) - 1 | 1 << 63)))
sheet 0 64 900000000 "${nested[@]}" > "$built/nested.sheet"
drawn "$built/nested.sheet" 9 255
common_parts 31
[ "$(cut -d' ' -f1 "$built/nodes.txt" | awk 'length > n { n = length } END { print n }')" = 63 ] || fail "the paths are short"

# Pages that are not well-formed: cut short, a tag gone, a quote gone, a mark in the text, an attribute twice, two elements.
for damage in '$d' '0,/<.g>/s///' '0,/"/s///' '0,/root/s//a \& b/' '0,/ rx=/s// x="1" rx=/' '$s/$/<g><\/g>/'; do
    sed "$damage" docs/finale.svg | "$built/wellformed" > "$built/place.txt" && fail "taken for well-formed: $damage"
done

# A call that fails: nothing on standard output, one line on standard error, exit status 1. Usage: wrong LINE ARGUMENT..
wrong() {
    local status=0
    "$built/tree" "${@:2}" > "$built/out.txt" 2> "$built/error.txt" || status=$?
    [ $status = 1 ] && [ ! -s "$built/out.txt" ] && [ "$(cat "$built/error.txt")" = "tree: $1" ] || fail "not: $1"
}
head -c 419 samples/show.sheet > "$built/cut.sheet"
show=samples/show.sheet
wrong "usage: tree [--text] SHEET CUE BUDGET"
wrong "usage: tree [--text] SHEET CUE BUDGET" --text $show 12
wrong "usage: tree [--text] SHEET CUE BUDGET" $show 12 8 8
wrong "cannot read no/such.sheet" no/such.sheet 12 8
wrong "cannot read samples" samples 12 8
wrong "refused 1: the sheet is shorter than 12 bytes" /dev/null 12 8
wrong "refused 8: the sheet's length is not the end of its last body" "$built/cut.sheet" 12 8
wrong "the sheet has no cue 4" $show 4 8
wrong "the sheet has no cue 0" $show 0 8
wrong "BUDGET is a number from 0 to 255, not '256'" $show 12 256
for text in '' x -1 +1 ' 1' 1x 65536 99999999999999999999; do
    wrong "CUE is a number from 0 to 65535, not '$text'" $show "$text" 8
done
if "$built/tree" $show 12 8 > /dev/full 2> "$built/error.txt"; then fail "a page that cannot be written"; fi
[ "$(cat "$built/error.txt")" = "tree: cannot write" ] || fail "no word on a page that cannot be written"
echo "$pages pictures are well-formed and show every node of the records once, and every wrong call is told in a line"
