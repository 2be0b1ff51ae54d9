#!/usr/bin/env bash
# Prints what a server needs for one changed place, with the request for all and the composing, and
# for a request that finds nothing drawn: instructions, the calls and the loop around them included,
# as the difference of 1,100 rounds and 100. The place is in the middle of a cell. The program
# (server/main.txt) is proved and built over copies of the crates. Needs valgrind and Python.
set -euo pipefail
cd "$(dirname "$0")/.."
. bench/scratch.sh
low_crates
cp -a crates/rfb_hello crates/rfb_server "$copy/crates"
grep '^rfb_hello:\|^rfb_server:' crates.txt >> "$copy/crates.txt"
echo 'server: rfb_pixel rfb_picture rfb_wire rfb_codec rfb_hello rfb_server byteorder anyhow' \
  >> "$copy/crates.txt"
mkdir -p "$copy/crates/server/src"
cp bench/server/main.txt "$copy/crates/server/src/main.rt"
cd "$copy/crates/server"
rt run < /dev/null > build.log 2>&1 || true # it ends with a fault, since it has nothing to read

# width, height, whether a place is drawn, rounds
count() {
  python3 -c "import struct, sys; sys.stdout.buffer.write(struct.pack('>4H', $1, $2, $3, $4))" > input
  valgrind --tool=callgrind --callgrind-out-file=/dev/null out/server < input 2>&1 \
    | awk '/Collected/ {print $4}'
}

for size in '4096 4096' '1920 1080'; do
  for drawn in 1 0; do
    few=$(count $size $drawn 100)
    many=$(count $size $drawn 1100)
    echo "${size/ / by }, $drawn place drawn: $(((many - few) / 1000))"
  done
done
