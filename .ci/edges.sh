#!/bin/sh
# Runs the proved program against what no contract reaches: the standard streams, the words and the
# exit status. Each case compares the status, standard output and the line on standard error with
# texts that are written here, or made by awk. Prints each difference, and ends with 1 if there is one.
#
#     .ci/edges.sh [PROGRAM]
#
# PROGRAM is the build that `rt ci` or `rt run` leaves, where none is given. Without one, or without
# a tool that a case needs, that is told and skipped.
root=$(cd "$(dirname "$0")/.." && pwd) || exit 1
program=${1:-$root/crates/ipvsd/out/ipvsd}

if [ ! -x "$program" ]; then
    echo "edges: skipped, no proved program at $program"
    exit 0
fi
for tool in awk cmp head mktemp sed; do
    if ! command -v "$tool" >/dev/null; then
        echo "edges: skipped, there is no $tool"
        exit 0
    fi
done

room=$(mktemp -d) || exit 1
trap 'rm -rf "$room"' EXIT
failures=0
cases=0

# differ CASE WHAT: counts a difference.
differ() {
    echo "edges: $1: $2"
    failures=$((failures + 1))
}

# expect CASE STATUS LINE: compares the status file and standard error with these, an empty LINE with
# no line, and standard output with the file `wanted`.
expect() {
    cases=$((cases + 1))
    status=$(cat "$room/status")
    [ "$status" = "$2" ] || differ "$1" "the status is $status, and not $2"
    if [ -n "$3" ]; then printf '%s\n' "$3"; fi >"$room/line"
    cmp -s "$room/line" "$room/error" || differ "$1" "standard error has '$(head -c 200 "$room/error")', and not '$3'"
    cmp -s "$room/wanted" "$room/output" || differ "$1" "standard output isn't the text that was expected"
}

# run WORD..: runs the program on standard input.
run() {
    "$program" "$@" >"$room/output" 2>"$room/error"
    echo $? >"$room/status"
}

# A script of so many packets of one connection, and its report.
write_script() {
    awk -v count="$1" 'BEGIN {
        print "at 0"
        print "ipvs -A -t 10.0.0.1:80 -s rr"
        print "ipvs -a -t 10.0.0.1:80 -r 192.168.0.1 -g"
        for (k = 0; k < count; k++)
            print "in 0 4500002800014000400684b5ac1000090a0000019c4000500000000000000000500220003d380000"
    }'
}
write_report() {
    awk -v count="$1" 'BEGIN {
        print "round 0 at 0 workers 1 buckets 1"
        print "2 1.0 ok"
        print "3 1.1 ok"
        for (k = 0; k < count; k++)
            printf "%d 3.%d fwd direct 192.168.0.1 4500002800014000400684b5ac1000090a0000019c4000500000000000000000500220003d380000\n", k + 4, k
    }'
}

write_script 2000 >"$room/script"
write_report 2000 >"$room/wanted"
run serial <"$room/script"
expect "a long script in a file" 0 ""

awk '{ print }' "$room/script" | run serial
expect "a long script through a pipe" 0 ""

"$program" serial <"$room/script" 2>"$room/error" | awk '{ print }' >"$room/output"
echo 0 >"$room/status"
expect "a long report through a pipe" 0 ""

: >"$room/wanted"
run serial </dev/null
expect "an empty script" 0 ""

run <"$room/script"
expect "no word" 2 "ipvsd: words refused, word 0"

run serial 4 <"$room/script"
expect "a word too many" 2 "ipvsd: words refused, word 1"

run "$(printf 'serial\377')" <"$room/script"
expect "a word that isn't text" 2 "ipvsd: words refused"

printf 'at 0\nLIST\n' | run serial
expect "a line that is refused" 1 "ipvsd: script refused, line 2: UnknownLine"

{ printf '#' && head -c 16777215 /dev/zero; } | run serial
expect "an input of the greatest length" 0 ""

head -c 16777217 /dev/zero | run serial
expect "an input that is too long" 6 "ipvsd: script too long"

run serial <"$room"
expect "a folder for standard input" 3 "ipvsd: read fault"

run serial <&-
expect "no standard input" 3 "ipvsd: read fault"

run capture 192.168.0.0 16 <"$room/script"
expect "a missing number" 2 "ipvsd: words refused, word 3"

run capture 192.168.0.0 33 1 <"$room/script"
expect "a number that is too great" 2 "ipvsd: words refused, word 2"

{ cat "$root/examples/capture.ipvs" && echo capture && head -c 540 "$root/examples/capture.pcap"; } | run capture 192.168.0.0 16 1
expect "a capture that is cut" 8 "ipvsd: capture refused, record 7: RecordShort"

write_script 2 >"$room/script"
write_report 2 >"$room/report"
echo legal >"$room/wanted"
{ cat "$room/script" && echo report && cat "$room/report"; } | run check
expect "a legal report" 0 ""

echo "unreadable line 4" >"$room/wanted"
{ cat "$room/script" && echo report && head -n 3 "$room/report"; } | run check
expect "a report that is cut" 7 "ipvsd: illegal report"

{
    echo "illegal line 2"
    echo "expected 2 1.0 ok"
    echo "found 2 1.0 refused exists"
} >"$room/wanted"
{ cat "$room/script" && echo report && sed 's/^2 1.0 ok$/2 1.0 refused exists/' "$room/report"; } | run check
expect "a report with another reply" 7 "ipvsd: illegal report"

write_script 2000 >"$room/script"
: >"$room/wanted"
if [ -w /dev/full ]; then
    "$program" serial <"$room/script" >/dev/full 2>"$room/error"
    echo $? >"$room/status"
    : >"$room/output"
    expect "a full device" 4 "ipvsd: write fault"
else
    echo "edges: a full device was skipped, there is no /dev/full"
fi

"$program" serial <"$room/script" >&- 2>"$room/error"
echo $? >"$room/status"
: >"$room/output"
expect "no standard output" 4 "ipvsd: write fault"

# The report is longer than a pipe holds, so that some write meets the closed end. Where the signal
# for that isn't ignored it ends the program, as it does other filters.
printf r >"$room/wanted"
{
    trap '' PIPE
    "$program" serial <"$room/script" 2>"$room/error"
    echo $? >"$room/status"
} | head -c 1 >"$room/output"
expect "a pipe that is closed" 4 "ipvsd: write fault"

if [ "$failures" -ne 0 ]; then
    echo "edges: $failures differences in $cases cases"
    exit 1
fi
echo "edges: $cases cases"
