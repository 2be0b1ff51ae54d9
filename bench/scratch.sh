# Sourced by the scripts that prove and build over copies of the low crates.

# Makes the folder $copy, with copies of these crates. It goes when the script ends.
low_crates() {
  copy=$(mktemp -d)
  trap 'rm -rf "$copy"' EXIT
  mkdir "$copy/crates"
  cp HANDLES "$copy"
  cp -a crates/rfb_pixel crates/rfb_picture crates/rfb_wire crates/rfb_codec "$copy/crates"
  grep '^rfb_pixel:\|^rfb_picture:\|^rfb_wire:\|^rfb_codec:' crates.txt > "$copy/crates.txt"
}

# program NAME LIBRARIES FILE: the same with the crate NAME, whose program is bench/NAME/main.txt,
# and `fills`, the fill lines of the gzipped FILE, whose colours have six digits: of each its four
# numbers, two bytes each, the three bytes of its colour, and a 0.
program() {
  local lines
  lines=$(realpath "$3")
  low_crates
  echo "$1: $2" >> "$copy/crates.txt"
  mkdir -p "$copy/crates/$1/src"
  cp "bench/$1/main.txt" "$copy/crates/$1/src/main.rt"
  python3 - "$lines" > "$copy/fills" <<'END'
import gzip, struct, sys
for line in gzip.open(sys.argv[1], "rt"):
    word, *rest = line.split()
    place = struct.pack(">4H", *map(int, rest[:4]))
    sys.stdout.buffer.write(place + bytes.fromhex(rest[4]) + b"\0")
END
}

# feeds WHAT PROGRAM HEAD: runs the program on the bytes that the Python expression HEAD makes, and
# the fills after them; prints as WHAT the instructions of its `feed_all`, a place and a byte, and
# what it told.
feeds() {
  local told
  python3 -c "import struct, sys; sys.stdout.buffer.write($3)" | cat - "$copy/fills" > input
  told=$("$2" < input)
  valgrind --tool=callgrind --callgrind-out-file=/dev/null --toggle-collect='*feed_all*' \
    "$2" < input 2>&1 \
    | awk -v what="$1" -v told="$told" '/Collected/ {
        split(told, t)
        printf "%s: %.2f a place, %.1f a byte; %s\n", what, $4 / 2073600, $4 / t[6], told
      }'
}
