#!/usr/bin/env bash
# Prints what `Viewer::feed` needs for a whole picture of fill lines (office.fills.gz, or the file
# that is named), sent as one update at rgb888 in the cells of our own encoders: instructions a
# place and a byte, in slices of 4,096 bytes and of one, the measuring loop included. The program
# (viewer/main.txt) is proved and built over copies of the crates. Needs valgrind and Python.
set -euo pipefail
cd "$(dirname "$0")/.."
. bench/scratch.sh
program viewer 'rfb_pixel rfb_picture rfb_wire rfb_codec rfb_hello rfb_viewer arrayvec byteorder anyhow' \
  "${1:-bench/office.fills.gz}"
cp -a crates/rfb_hello crates/rfb_viewer "$copy/crates"
grep '^rfb_hello:\|^rfb_viewer:' crates.txt >> "$copy/crates.txt"
cd "$copy/crates/viewer"
rt run < /dev/null > build.log 2>&1 || true # it ends with a fault, since it has nothing to read
codecs=(Raw RRE Hextile)

for size in 4096 1; do
  for codec in 0 1 2; do
    feeds "${codecs[$codec]}, slices of $size" out/viewer \
      "bytes([$codec, 0]) + struct.pack('>H', $size)"
  done
done
