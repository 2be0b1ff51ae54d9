#!/usr/bin/env bash
# Prints how many bytes the picture of office.fills.gz, or of the file that is named, needs as one
# update in RRE and in Hextile. The program (pictures/main.txt) runs unproved, over copies of the
# crates. Needs Python.
set -euo pipefail
cd "$(dirname "$0")/.."
. bench/scratch.sh
program pictures 'rfb_pixel rfb_picture rfb_codec arrayvec byteorder anyhow' \
  "${1:-bench/office.fills.gz}"
cd "$copy/crates/pictures"
rt try --seconds 100 < "$copy/fills" 2> /dev/null | grep '^rre'
