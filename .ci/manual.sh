#!/usr/bin/env bash
# Compares the manual page with what a program, named by its path, says of itself:
#   - the page names the program's version, and has the options that come before any command;
#   - the page has the commands of the help, and the usage of each;
#   - a command has there the options and words of its help, with their short forms and value names;
#   - what the help says of one, the page says of it: each default, each range, each other number;
#   - the page says of one no default but the help's, and no range or number that the command's help
#     does not have, its examples aside.
# A default is `[default: 8]` or `8 without it` in the help, and `8 without it` on the page; a range
# is `1 to 8`, in digits or in words.
#
#   .ci/manual.sh crates/rfb/out/rfb docs/rfb.1
#
# The last line is 'N passed, M failed'.
set -u
export LC_ALL=C
program=$1
page=$2
passed=0 failed=0

# Whether the words of the page, after $1, are those of the help, one a line.
same() {
    if [ "$2" = "$3" ] && [ -n "$1" ]; then
        passed=$((passed + 1))
    else
        failed=$((failed + 1))
        printf 'of %s the page has: %s\nand the help: %s\n' "$1" "$(echo $2)" "$(echo $3)"
    fi
}

# The options and words of the part of the page that begins with the line $1: each with a tab and
# what the page says of it.
items_of_page() {
    awk -v first="$1" '
        function plain(line) {
            sub(/^\.[A-Z]+ /, "", line); gsub(/\\f./, "", line); gsub(/[\\"]/, "", line)
            gsub(/ +/, " ", line)
            return line
        }
        function flush() { if (head != "") print head "\t" text; head = text = "" }
        /^\.S[HS] / { flush(); inside = ($0 == first); next }
        !inside { next }
        /^\.TP/ { flush(); tag = 1; next }
        /^\.PP/ { flush(); next }
        tag { head = plain($0); gsub(/\[ /, "[", head); gsub(/ \]/, "]", head); tag = 0; next }
        head != "" { text = text " " plain($0) }
        END { flush() }' "$page"
}

# The same of the help that is read, but for the option that every command has.
items_of_help() {
    sed -nE 's/^ +((-[a-zA-Z], )?--[a-z-]+( <[A-Z]+>)?|[[<][A-Z]+[]>](\.\.\.)?)  +(.*)/\1\t\5/p' |
        awk -F '\t' '{ gsub(/[<>]/, "", $1); print $1 "\t" $2 }'
}

# The names alone, and what is said of the name $1.
names() { cut -f 1 | sort; }
said_of() { awk -F '\t' -v name="$1" '$1 == name { print $2 }'; }

# The defaults, the ranges and the other numbers of a text, which stands on standard input.
defaults() {
    sed -E 's/\[default: ([^]]*)\]/\1 without it/g' | grep -oE '[^ ]*[^ ;,.] without it' | sort -u
}
ranges() {
    local number='([0-9]+|one|two|three|four|five|six|seven|eight|nine)'
    tr 'A-Z' 'a-z' | grep -oE "\b$number to $number\b" | sort -u
}
numbers() { grep -oE '[A-Za-z]*[0-9][A-Za-z0-9.]*' | sed 's/\.$//' | sort -u; }
facts() { { defaults <<< "$1"; ranges <<< "$1"; numbers <<< "$1"; } | sort -u; }

# Those lines of $1 that $2 does not have.
lacking() { comm -23 <(sort -u <<< "$1") <(sort -u <<< "$2") | sed '/^$/d'; }

# What the command $1 says of itself, but for examples.
told_by() {
    "$program" help "$1" | sed '/^Example/,$d'
}

# Compares what the page says of $1, which is $2, with its line of the help, which is $3. All facts
# that its command says are $4.
compare() {
    local lacks
    lacks=$(lacking "$(facts "$3")" "$(facts "$2")")
    same "$1" "${lacks:+not all}" "${lacks:+$(echo $lacks)}"
    same "$1" "$(defaults <<< "$2")" "$(defaults <<< "$3")"
    # A name with a digit, as IPv6, may stand on the page alone; a number may not.
    same "$1" "$(lacking "$(ranges <<< "$2"; numbers <<< "$2" | grep '^[0-9]')" "$4")" ""
}

commands=$("$program" help | awk '/^Commands:/ { inside = 1; next } /^$/ { inside = 0 }
    inside && /^  [a-z]/ { print $1 }' | sort)
version=$(sed -n 's/^\.TH RFB 1 "" "\([^"]*\)".*/\1/p' "$page")
same "the version" "$version" "$("$program" --version)"
same "the options of any command" "$(items_of_page '.SH OPTIONS' | names)" \
    "$({ "$program" help | items_of_help; "$program" help | grep -o -m 1 -e --explain; } | names)"
same "the commands" "$(awk '/^\.SH / { inside = ($0 == ".SH COMMANDS") }
    inside && sub(/^\.SS /, "")' "$page" | sort)" "$commands"
for command in $commands; do
    help=$("$program" help "$command")
    usage=$(sed -n 's/^Usage: //p' <<< "$help" | tr -d '<>')
    on_page=$(items_of_page ".SS $command")
    in_help=$(items_of_help <<< "$help" | grep -v '^-h, --help')
    on_line=$(sed 's/\\f.//g; s/\\//g' "$page" | grep -Fx -- "$usage")
    same "the usage of $command" "$on_line" "$usage"
    same "the options of $command" "$(names <<< "$on_page")" "$(names <<< "$in_help")"
    told=$(facts "$(told_by "$command")")
    while IFS=$'\t' read -r name said; do
        [ -n "$name" ] || continue
        compare "$name of $command" "$(said_of "$name" <<< "$on_page")" "$said" "$told"
    done <<< "$in_help"
done
echo "$passed passed, $failed failed"
[ "$failed" = 0 ] && [ "$passed" != 0 ]
