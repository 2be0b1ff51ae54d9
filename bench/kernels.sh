#!/usr/bin/env bash
# Prints how many instructions single calls of the low crates and of the codecs need. They are made by
# tests that this adds to copies of the crates (kernels/*.txt), which are proved and built there.
# Needs valgrind.
set -euo pipefail
cd "$(dirname "$0")/.."
. bench/scratch.sh
low_crates
cat bench/kernels/rfb_picture.txt >> "$copy/crates/rfb_picture/src/tests.rt"
sed -i "0,/^use std::alloc/s//use std::test::Fail;\nuse std::alloc/" "$copy/crates/rfb_picture/src/tests.rt"
cat bench/kernels/rfb_pixel.txt >> "$copy/crates/rfb_pixel/src/format/tests.rt"
cat bench/kernels/rfb_codec.txt >> "$copy/crates/rfb_codec/src/codec/tests.rt"
# The test's own look at the pixels, which else is left out where nothing is encoded after it, is kept
# in both sides of a difference.
sed -i 's/^fn fits(/#[inline(never)]\n&/' "$copy/crates/rfb_codec/src/codec/tests.rt"
for crate in rfb_pixel rfb_picture rfb_codec; do
  (cd "$copy/crates/$crate" && rt test > "$copy/$crate.log" 2>&1) || { grep -A3 'error\|FAILED' "$copy/$crate.log"; exit 1; }
done

# How many instructions a test needs in all.
instructions() {
  valgrind --tool=callgrind --callgrind-out-file=/dev/null "$copy/crates/$1/out/$1_tests" "$2" 2>&1 > /dev/null | awk '/Collected/ {print $4}'
}

# How many of them a function needs, with all that it calls.
within() {
  valgrind --tool=callgrind --callgrind-out-file=/dev/null --toggle-collect="$3" "$copy/crates/$1/out/$1_tests" "$2" 2>&1 > /dev/null | awk '/Collected/ {print $4}'
}

# A line: what, the instructions that the first test needs more than the second, over the number of
# places.
difference() {
  awk -v what="$1" -v a="$(instructions "$2" "$3")" -v b="$(instructions "$2" "$4")" -v n="$5" \
    'BEGIN {printf n == 1 ? "%s: %d\n" : "%s, a place: %.1f\n", what, (a - b) / n}'
}

difference 'pack_row at rgb888' rfb_pixel format::tests::pack_row_rgb888 format::tests::pack_row_none 16384
difference 'pack_row at rgb565' rfb_pixel format::tests::pack_row_rgb565 format::tests::pack_row_none 16384
difference 'first_diff of equal rows' rfb_pixel format::tests::diff_first format::tests::diff_none 16384
difference 'last_diff of equal rows' rfb_pixel format::tests::diff_last format::tests::diff_none 16384
difference 'Picture::copy down by a row' rfb_picture tests::picture_copy_down tests::picture_new $((1024 * 1023))
difference 'Picture::copy aside by a place' rfb_picture tests::picture_copy_aside tests::picture_new $((1024 * 1023))
difference 'Picture::fill of places of six bytes' rfb_picture tests::picture_fill tests::picture_new $((1024 * 1023))
difference 'Picture::fill of places of four bytes' rfb_picture tests::picture_fill_words tests::picture_new_words $((1024 * 1023))
difference 'Area::add of all' rfb_picture tests::area_add_all tests::area_new 1
difference 'Area::add of all but a border' rfb_picture tests::area_add_most tests::area_new 1
difference 'Area::clear' rfb_picture tests::area_clear tests::area_new 1
for what in all place nothing; do
  difference "PlaceSet::take_away of $what" rfb_picture "tests::set_take_$what" "tests::set_take_${what}_none" 1
done
difference 'PlaceSet::has_all of all but a border' rfb_picture tests::set_all_most tests::set_all_none 1
difference 'PlaceSet::has_all of cells that are in it whole' rfb_picture tests::set_all_inside tests::set_all_none 1
difference 'PlaceSet::row_bits of 64 rows of a cell in part' rfb_picture tests::set_bits tests::set_bits_none 64
for cell in unused full part; do
  echo "Area::bounds_in, cell $cell: $(within rfb_picture "tests::area_bounds_$cell" '*bounds_in*')"
done
for format in rgb888 rgb565 bgr233; do
  for codec in raw rre hextile; do
    difference "$codec of an office cell at $format" rfb_codec "codec::tests::cell_office_${format}_$codec" "codec::tests::cell_office_${format}_none" 65536
  done
done
for cell in noise_rgb888_raw noise_rgb888_rre noise_rgb888_hextile speckles_rgb888_rre speckles_rgb888_hextile; do
  difference "${cell##*_} of a cell of ${cell%%_*} at rgb888" rfb_codec "codec::tests::cell_$cell" "codec::tests::cell_${cell%_*}_none" 65536
done
for kinds in 65535 1366; do
  for codec in rre hextile; do
    difference "$codec of a cell of up to $kinds pixels of one slot" rfb_codec "codec::tests::cell_chosen_${kinds}_$codec" "codec::tests::cell_chosen_${kinds}_none" 65536
  done
done
difference 'Block::pack of a cell at rgb888' rfb_codec codec::tests::pack_cell codec::tests::pack_none 65536
difference 'Block::pack of one place' rfb_codec codec::tests::pack_place codec::tests::pack_none 16
for codec in raw rre hextile; do
  difference "$codec of an office tile at rgb888" rfb_codec "codec::tests::tile_office_rgb888_$codec" codec::tests::tile_office_rgb888_none 4096
done
