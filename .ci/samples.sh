#!/bin/sh
# Runs the proved program on every sample of examples/ and compares what it writes with the report beside
# it, asks `check` about that report and about the reports of threads, and runs the sample of a capture and
# a demonstration, twice. Prints each difference, and ends with 1 if there is one.
#
#     .ci/samples.sh [PROGRAM]
#
# PROGRAM is the build that `rt ci` or `rt run` leaves, where none is given. Without one that is told.
root=$(cd "$(dirname "$0")/.." && pwd) || exit 1
program=${1:-$root/crates/ipvsd/out/ipvsd}
cd "$root/examples" || exit 1

if [ ! -x "$program" ]; then
    echo "samples: skipped, no proved program at $program"
    exit 0
fi
room=$(mktemp -d) || exit 1
trap 'rm -rf "$room"' EXIT
failures=0
count=0

# differ SAMPLE WHAT: counts a difference.
differ() {
    echo "samples: $1: $2"
    failures=$((failures + 1))
}

for script in *.ipvs; do
    name=${script%.ipvs}
    count=$((count + 1))
    "$program" serial <"$script" >"$room/report" 2>"$room/error" || differ "$name" "$(head -n 1 "$room/error")"
    cmp -s "$name.report" "$room/report" || differ "$name" "the report isn't the one beside it"
    { cat "$script"; echo report; cat "$name.report"; } | "$program" check >"$room/verdict" 2>"$room/error"
    [ "$(cat "$room/verdict")" = legal ] || differ "$name" "the report beside it isn't legal"
    for crew in "1 1" "4 1" "4 16" "16 256"; do
        # The words of a crew are to be split.
        # shellcheck disable=SC2086
        "$program" run $crew <"$script" >"$room/report" 2>"$room/error" || differ "$name" "$(head -n 1 "$room/error")"
        { cat "$script"; echo report; cat "$room/report"; } | "$program" check >"$room/verdict" 2>"$room/error"
        [ "$(cat "$room/verdict")" = legal ] || differ "$name" "the report of run $crew isn't legal"
    done
done

# A printed sample gives the report of the sample: a capture of no packets, the head of a file, adds nothing.
printer=$root/crates/ipvsd_script/out/ipvsd_script
if [ -x "$printer" ]; then
    head -c 24 capture.pcap >"$room/none"
    for script in *.ipvs; do
        { cat "$script"; echo capture; cat "$room/none"; } | "$printer" 0.0.0.0 0 1 >"$room/printed" 2>"$room/error" || differ "$script" "$(head -n 1 "$room/error")"
        "$program" serial <"$room/printed" >"$room/report"
        cmp -s "${script%.ipvs}.report" "$room/report" || differ "$script" "printed and run it gives another report"
        { cat "$room/printed"; echo capture; cat "$room/none"; } | "$printer" 0.0.0.0 0 1 >"$room/again"
        cmp -s "$room/printed" "$room/again" || differ "$script" "printed twice it differs"
    done
fi

{ cat capture.ipvs; echo capture; cat capture.pcap; } | "$program" capture 192.168.0.0 16 1 >"$room/sent" 2>"$room/error"
cmp -s capture.sent.pcap "$room/sent" || differ capture "what was sent isn't capture.sent.pcap"

for run in first second; do
    "$program" demo 20000 >"$room/$run" 2>"$room/error" || differ demo "$(head -n 1 "$room/error")"
done
cmp -s "$room/first" "$room/second" || differ demo "two runs have two summaries"
grep -q '^forwarded 40000$' "$room/first" || differ demo "not every packet was sent on"

if [ "$failures" -ne 0 ]; then
    echo "samples: $failures differences in $count samples"
    exit 1
fi
echo "samples: $count samples"
