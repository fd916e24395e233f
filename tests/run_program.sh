#!/bin/bash
# Compares the built programs with the reference, byte for byte, in a stack of 2 MiB. The report: seeded sheets, sound and damaged ones,
# every beginning of six sheets, and inputs of 0 to 60,000 bytes that are no sheets. Import and export: the typed and the stored texts,
# every beginning of the show, seeded texts and sheets, sound and damaged ones, both ways, and the longest of all. Weights: the typed logs
# and seeded lists of logs, each in two orders. Then inputs of other kinds, the README's line that puts a text right, and logs of billions
# of packets. Usage: tests/run_program.sh [COUNT [ROUNDS [LISTS]]]; COUNT is the number of seeded sheets for the report, ROUNDS that of
# seeded rounds of import and export, LISTS that of seeded lists of logs. The programs are target/bin/cue_risk, cue_import, cue_export and
# cue_weight, built first; an input that fails is left in target/failed.sheet or target/failed.input, logs in target/failed.logs.
set -e
cd "$(dirname "$0")/.."
./build.sh cue_risk cue_import cue_export cue_weight
programs=target/bin
reference="--quiet --release --offline --manifest-path tests/reference/Cargo.toml"
cargo build $reference --bins
ulimit -s 2048
cargo run $reference --bin run_program -- $programs/cue_risk "${1:-3000}" target/failed.sheet
cargo run $reference --bin run_texts -- $programs/cue_import $programs/cue_export "${2:-300}" target/failed.input
cargo run $reference --bin run_weights -- $programs/cue_weight "${3:-300}" target/failed.logs

made=target/programs
mkdir -p $made
echo "refused 1" > $made/refused

# Holds what a program writes to standard output to a file, and what it writes to standard error to a line, or to nothing.
# Usage: writes PROGRAM OUTPUT [LINE] < INPUT.
writes() {
    $programs/"$1" > $made/output 2> $made/error || { echo "$1 does not end well"; exit 1; }
    cmp $made/output "$2"
    printf "${3:+%s\n}" "$3" > $made/line
    cmp $made/error $made/line
}
# Hands a file over in pieces.
pieces() {
    { head -c 5; sleep 0.1; head -c 30; sleep 0.1; cat; } < "$1"
}
# All programs on an input without a byte, or without one that can be read, which is taken for the end.
nothing() {
    writes cue_risk $made/refused
    writes cue_import /dev/null "refused 23 at record 1"
    writes cue_export /dev/null "refused 1"
}
writes cue_risk crates/cue_risk/stdout < samples/paper.sheet
writes cue_import samples/show.sheet < samples/show.csv
writes cue_export samples/show.csv < samples/show.sheet
writes cue_import samples/share.sheet < samples/share.csv
writes cue_export samples/share.csv < samples/share.sheet
pieces samples/paper.sheet | writes cue_risk crates/cue_risk/stdout
pieces samples/show.csv | writes cue_import samples/show.sheet
pieces samples/show.sheet | writes cue_export samples/show.csv
nothing < /dev/null
nothing < /
nothing <&-
echo "from a file, in pieces and from nothing: the same"

# Each text is refused at this record, and the README's own line makes the show of it. Usage: tidied RECORD < TEXT.
tidied() {
    cat > $made/list.csv
    writes cue_import /dev/null "refused 23 at record $1" < $made/list.csv
    (cd $made && eval "$tidy")
    cmp $made/tidy.csv samples/show.csv
}
tidy=$(grep '^ *LC_ALL=C awk .* list.csv > tidy.csv$' README.md)
mark='\357\273\277'
# What LibreOffice saves. Line feeds alone; a byte order mark; empty fields behind a row; all of these, as wide as the widest row, and an
# empty row behind them; and a text that is right.
tidied 1 < tests/texts/spreadsheet/show.csv
tr -d '\r' < samples/show.csv | tidied 1
{ printf $mark; cat samples/show.csv; } | tidied 1
sed '4s/\r/,,\r/' samples/show.csv | tidied 4
{ printf $mark; tr -d '\r' < samples/show.csv | awk -F, -v OFS=, '{ NF = 11; print }'; echo ,,,,,,,,,,; } | tidied 1
cp samples/show.csv $made/list.csv
(cd $made && eval "$tidy")
cmp $made/tidy.csv samples/show.csv
echo "the README's line puts a text right"

# Holds what cue_weight prints for logs to a line, and its standard error to nothing. Usage: weighs LINE LOG..
weighs() {
    $programs/cue_weight "${@:2}" > $made/output 2> $made/error || { echo "cue_weight does not end well"; exit 1; }
    echo "$1" > $made/line
    cmp $made/output $made/line
    cmp $made/error /dev/null
}
# A log that cannot be had: nothing on standard output, and one line that names it on standard error. Usage: lacks NAME LOG..
lacks() {
    $programs/cue_weight "${@:2}" > $made/output 2> $made/error || { echo "cue_weight does not end well"; exit 1; }
    [ ! -s $made/output ] && [ "$(wc -l < $made/error)" = 1 ] && grep -qF -- "$1: " $made/error ||
        { echo "cue_weight does not say that $1 is lacking"; exit 1; }
}
# The samples.
weighs "4 240 16666667" samples/monday.log
weighs "3 160 18750000" samples/tuesday.log
weighs "7 400 17500000" samples/tuesday.log samples/monday.log
# 10 10 247 246 246 3, twenty times: of each six 10, 247 and 246 are discarded, and the first of all is not judged.
for i in {1..20}; do printf '\12\12\367\366\366\3'; done > $made/a.log
weighs "60 119 504201681" $made/a.log
pieces $made/a.log | weighs "60 119 504201681" /dev/stdin
pieces $made/a.log | weighs "120 238 504201681" $made/a.log /dev/stdin
weighs "refused 24"
weighs "refused 24" /dev/null /dev/null
weighs "refused 24" /dev/stdin < /dev/null
lacks $made/no.log $made/no.log
lacks $made/no.log $made/a.log $made/no.log
lacks $made/no.log $made/no.log $made/a.log
lacks $made $made/a.log $made
lacks "the name of a log" "$(printf '%5000s' | tr ' ' a)"
# The most packets that are judged, more than 32 bits count, and no end of them; the program need not read all of what it refuses.
head -c 4000000001 /dev/zero | weighs "4000000000 4000000000 1000000000" /dev/stdin
head -c 5000000000 /dev/zero | weighs "refused 25" /dev/stdin
yes | weighs "refused 25" /dev/stdin
echo "logs in pieces, of none, not there and of billions: as they should be"
