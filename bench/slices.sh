#!/usr/bin/env bash
# Prints what `Painter::feed` needs for a whole picture of fill lines (office.fills.gz, or the file
# that is named) in slices: instructions a place, and of slices of one byte also a byte. The cells
# are those of our own encoders; `foreign` is all lines as subrectangles of one RRE rectangle, and
# `tiles` the picture as raw tiles of one Hextile rectangle. The program (slices/main.txt) is proved
# and built over copies of the crates, some ten minutes without their `out/`. Needs valgrind and
# Python.
set -euo pipefail
cd "$(dirname "$0")/.."
. bench/scratch.sh
program slices 'rfb_pixel rfb_picture rfb_wire rfb_codec byteorder anyhow' \
  "${1:-bench/office.fills.gz}"
mkdir -p "$copy/crates/slices/proofs/feed_all"
cp bench/slices/Invariants.txt "$copy/crates/slices/proofs/feed_all/Invariants.antt"
cd "$copy/crates/slices"
rt run < /dev/null > build.log 2>&1 || true # it ends with a fault, since it has nothing to read
codecs=(Raw RRE Hextile foreign tiles)
formats=(rgb888 rgb565 bgr233)

# codec, format and size of slices
measure() {
  feeds "${codecs[$1]} at ${formats[$2]}, slices of $3" out/slices \
    "bytes([$1, $2, 1, 0]) + struct.pack('>H', $3)"
}

for format in 0 1 2; do
  for codec in 0 1 2 3 4; do
    measure $codec $format 4096
  done
  measure 4 $format 32768
done
for codec in 0 1 2; do
  measure $codec 0 1
done
