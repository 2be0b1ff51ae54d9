#!/usr/bin/env bash
# Prints what `rfb play` needs for a picture of 1,920 by 1,080 in each encoding: instructions a place
# of the whole program, its start taken off, which is that of a recording of one place that ends with
# the handshake. Then the memory that it has at 4,096 by 4,096. The program is ../crates/rfb/out/rfb,
# or the one that is named by its path. What it plays is made by recording/recording.py; what it
# shows is compared with what a script draws. Needs valgrind and Python.
set -euo pipefail
program=$(realpath "${1:-$(dirname "$0")/../crates/rfb/out/rfb}")
cd "$(dirname "$0")"
room=$(mktemp -d)
trap 'rm -rf "$room"' EXIT

recording() { python3 recording/recording.py "$@"; }

# How many instructions the program needs for the recording on standard input.
instructions() {
  valgrind --tool=callgrind --callgrind-out-file=/dev/null "$program" play 2>&1 > /dev/null \
    | awk '/Collected/ {print $4}'
}

gunzip -c office.fills.gz > "$room/fills"
{
  printf 'screen 1920 1080\n'
  cat "$room/fills"
  printf 'settle\nrequest full 0 0 1920 1080\nsettle\ncompose\nsettle\n'
} | "$program" script > "$room/drawn"

recording 1 1 none > "$room/start"
start=$(instructions < "$room/start")
for encoding in raw rre hextile; do
  recording 1920 1080 "$encoding" < "$room/fills" > "$room/$encoding"
  "$program" play < "$room/$encoding" | cmp - "$room/drawn"
  whole=$(instructions < "$room/$encoding")
  awk -v what="$encoding" -v a="$whole" -v b="$start" -v n=$((1920 * 1080)) \
    'BEGIN {printf "play of the office picture, %s, a place: %.1f\n", what, (a - b) / n}'
done

echo 'fill 0 0 4096 4096 306090' | recording 4096 4096 raw > "$room/largest"
printf 'play, '
python3 resident.py "$program" play < "$room/largest"
