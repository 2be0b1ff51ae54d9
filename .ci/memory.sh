#!/usr/bin/env bash
# Runs a program, named by its path, on the calls of .ci/program and the rows that .ci/written.py
# writes, and refuses it one allocation in each run: the first, the second, and so on to the last.
# Such a run must end with status 1, print nothing on standard output, and end its standard error with
# the line 'fault 30 NoMemory'; or end as a run does where none is refused, if it could do without it,
# sentences of --explain aside. A command that prints as it goes, `serve` or `view`, may have printed
# a beginning; `share` may tell it of one of its owner's lines, and go on. A call with a file `as`,
# which names another, asks for memory as often as that one, and so for none in what it has more.
#
#   .ci/memory.sh crates/rfb/out/rfb crates
#
# Calls whose memory or output is limited, or whose input is made up, are left out. In the folder
# that the next word names are the crates, with their test programs: these are refused each allocation
# of the tests that are named below, which reach growths that no call of the program does. Such a test
# must pass whatever is refused. Only where its own set-up is, it may end with that error.
#
# It needs a C compiler, for malloc and realloc in the place of libc's; where there is none it says
# so, and tries nothing.
# The last line is 'N passed, M failed'.
set -u
export LC_ALL=C
here=$(cd "$(dirname "$0")" && pwd)
program=$(realpath "$1")
crates=$(realpath "$2")
room=$(mktemp -d)
trap 'rm -rf "$room"' EXIT

# A crate, a test of it, and how many allocations come first that are the test's own set-up.
tests='
rfb_server tests::memory::an_update_that_was_refused_memory_is_composed_by_the_next_call 0
rfb_server tests::memory::a_text_that_was_refused_memory_fails_the_server_for_good 0
rfb_server tests::late::a_session_that_was_refused_memory_is_ready_by_the_same_byte 0
rfb_viewer tests::long_texts::want_of_memory_is_reported_for_good 0
rfb_viewer tests::calls::a_text_without_memory_leaves_the_buffer 1
rfb_session world::tests::memory::a_world_that_is_refused_memory_is_closed 0
rfb_session hub::tests::memory::a_hub_that_is_refused_memory_is_closed 0
rfb_session netpbm::tests::a_picture_that_is_refused_memory_is_reported 0
'

# The call numbered by REFUSE fails, and makes the file named by REFUSED. A run has a minute; `timeout`
# in front of it would be refused memory too.
cat > "$room/refuse.c" <<'END'
#include <errno.h>
#include <fcntl.h>
#include <stdlib.h>
#include <unistd.h>
void *__libc_malloc(size_t);
void *__libc_realloc(void *, size_t);
static long left;
static const char *mark;
__attribute__((constructor)) static void begin(void) {
    const char *number = getenv("REFUSE");
    left = number ? atol(number) : 0;
    mark = getenv("REFUSED");
    alarm(60);
}
static int refused(void) {
    if (left == 0 || --left != 0) return 0;
    int file = open(mark, O_CREAT | O_WRONLY, 0600);
    if (file >= 0) close(file);
    errno = ENOMEM;
    return 1;
}
void *malloc(size_t size) { return refused() ? NULL : __libc_malloc(size); }
void *realloc(void *at, size_t size) { return refused() ? NULL : __libc_realloc(at, size); }
END
if ! command -v cc > "$room/cc"; then
    echo "no C compiler: no allocation is refused"
    echo "0 passed, 0 failed"
    exit 0
fi
cc -shared -fPIC -o "$room/refuse.so" "$room/refuse.c" || exit 2

# The file of a call, or nothing.
file() { if [ -e "$1" ]; then echo "$1"; else echo /dev/null; fi; }

# Runs a program with allocation $1 refused; its outputs and its status go to files named $2. What
# is after these is the program and its words.
refuse() {
    local number=$1 name=$2 status=0
    shift 2
    REFUSE=$number REFUSED="$room/refused" LD_PRELOAD="$room/refuse.so" "$@" \
        < "$room/stdin" > "$room/$name.out" 2> "$room/$name.err" || status=$?
    echo "$status" > "$room/$name.status"
    # Where there is no memory for a sentence it is lost.
    sed -i '/^rfb: /d' "$room/$name.err"
}

# The same with the call $1, and the number and the names after it.
run() {
    local words
    mapfile -t words < "$(file "$1/args")"
    refuse "$2" "$3" "$program" "${words[@]}"
}

same() { cmp -s "$room/one.$1" "$room/all.$1"; }

# Whether what one run printed is nothing, or a beginning where the call $1 prints as it goes.
is_beginning() {
    [ -s "$room/one.out" ] || return 0
    grep -qxE 'serve|view' "$(file "$1/args")" || return 1
    cmp -s -n "$(stat -c %s "$room/one.out")" "$room/one.out" "$room/all.out"
}

# Whether one run's errors are those of the whole run, and a line of `share` for which there was no
# memory.
is_reported_of_a_line() {
    sed '/^line [0-9]*: fault 30 NoMemory$/d' "$room/one.err" | cmp -s - "$room/all.err"
}

mkdir "$room/calls"
python3 "$here/written.py" "$room/calls" || exit 2

declare -A asked
passed=0 failed=0
for call in "$here"/program/*/ "$room"/calls/*/; do
    call=${call%/} name=$(basename "$call") refused=0
    for limit in memory device more; do
        if [ -e "$call/$limit" ]; then continue 2; fi
    done
    if [ -e "$call/stdin.gz" ]; then gzip -dc "$call/stdin.gz"; else cat "$(file "$call/stdin")"; fi \
        > "$room/stdin"
    run "$call" 0 all
    for ((number = 1; ; number++)); do
        rm -f "$room/refused"
        run "$call" "$number" one
        [ -e "$room/refused" ] || break
        if same status && same out && same err; then
            passed=$((passed + 1))
        elif [ "$(cat "$room/one.status")" = 1 ] && is_beginning "$call" \
            && [ "$(tail -n 1 "$room/one.err")" = "fault 30 NoMemory" ]; then
            passed=$((passed + 1)) refused=$((refused + 1))
        elif same status && same out && is_reported_of_a_line; then
            passed=$((passed + 1)) refused=$((refused + 1))
        else
            failed=$((failed + 1))
            echo "$name with allocation $number refused: status $(cat "$room/one.status")"
            cat "$room/one.err"
        fi
    done
    asked[$name]=$((number - 1))
    echo "$name: $((number - 1)) allocations, $refused of them reported as want of memory"
done
if [ "$passed$failed" = 00 ]; then
    failed=1
    echo "no call asks for memory"
fi
for call in "$here"/program/*/as; do
    name=$(basename "$(dirname "$call")") other=$(cat "$call")
    if [ "${asked[$name]:-none}" = "${asked[$other]:-0}" ]; then
        passed=$((passed + 1))
    else
        failed=$((failed + 1))
        echo "$name asks for memory ${asked[$name]:-0} times, and $other ${asked[$other]:-0}"
    fi
done

# Whether the test passed, and is one that there is.
is_passed() { [ "$(cat "$room/one.status")" = 0 ] && grep -qxF 'test result: ok' "$room/one.out"; }

# Whether it ended as one does whose set-up was refused. After an assertion that fails it says where.
is_not_set_up() {
    printf 'Error: AllocError\nthe test failed: its result gives status 1\n' | cmp -s - "$room/one.err"
}

: > "$room/stdin"
while read -r crate name own; do
    [ -n "$crate" ] || continue
    of="$crate, $name"
    for ((number = 0; ; number++)); do
        rm -f "$room/refused"
        refuse "$number" one "$crates/$crate/out/${crate}_tests" "$name"
        [ "$number" = 0 ] || [ -e "$room/refused" ] || break
        if is_passed || { [ "$number" != 0 ] && [ "$number" -le "$own" ] && is_not_set_up; }; then
            passed=$((passed + 1))
            continue
        fi
        failed=$((failed + 1))
        echo "$of with $([ "$number" = 0 ] && echo nothing || echo "allocation $number") refused:" \
            "status $(cat "$room/one.status")"
        cat "$room/one.err"
        # It says nothing of those that are refused where it fails without.
        [ "$number" != 0 ] || continue 2
    done
    echo "$of: $((number - 1)) allocations, $own of them of its set-up"
    if [ "$((number - 1))" -le "$own" ]; then
        failed=$((failed + 1))
        echo "$of asks for no memory but in its set-up"
    fi
done <<< "$tests"
echo "$passed passed, $failed failed"
[ "$failed" = 0 ] && [ "$passed" != 0 ]
