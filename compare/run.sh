#!/usr/bin/env bash
# Tries the proved library against the Rust version, the C example and the
# examples, and the examples against their texts. The last line is
# 'N passed, M failed'.
set -u
cd "$(dirname "$0")/.."
passed=0
failed=0
work=$(mktemp -d)
trap 'rm -rf "$work"' EXIT

# Counts one check: its name, then the command that must succeed.
check() {
    local name=$1
    shift
    if "$@" >"$work/log" 2>&1; then
        passed=$((passed + 1))
        echo "ok: $name"
    else
        failed=$((failed + 1))
        echo "FAILED: $name"
        cat "$work/log"
    fi
}

# Runs all cargo tests and adds up their own counts.
cargo_tests() {
    (cd compare && cargo test --release --offline --no-fail-fast) >"$work/tests" 2>&1
    local status=$? ok bad skipped
    local told='(skipped: .*|[0-9]+ .* agree.*|[0-9]+ arrays .*|stack of .*|the deepest call .*)'
    read -r ok bad < <(awk '/^test result:/ { ok += $4; bad += $6 } END { print ok + 0, bad + 0 }' "$work/tests")
    # A build that fails has no counts of its own.
    if [ "$status" -ne 0 ] && [ "$bad" -eq 0 ]; then bad=1; fi
    if [ "$ok" -eq 0 ] && [ "$bad" -eq 0 ]; then bad=1; fi
    if [ "$bad" -ne 0 ]; then cat "$work/tests"; else grep -oE "$told" "$work/tests"; fi
    # A skipped test tried nothing, so it has not passed.
    skipped=$(grep -c 'skipped: ' "$work/tests")
    ok=$((ok - skipped))
    echo "cargo tests: $ok passed, $bad failed, $skipped skipped"
    passed=$((passed + ok))
    failed=$((failed + bad))
}

# Compiles the C example into $work under a name, with further flags.
build_panel() {
    local name=$1
    shift
    gcc -std=c11 -O2 -Wall -Wextra -Werror "$@" -Iinclude examples/panel.c \
        -Ltarget/staticlib -lpanel -o "$work/$name"
}

# What the C example prints and its exit status, as panel.expect has it. What a
# sanitizer finds ends with a status of its own.
panel_round() {
    local panel=$1 name=$2
    shift 2
    echo "\$ panel $name"
    ASAN_OPTIONS=exitcode=99 UBSAN_OPTIONS=exitcode=99 \
        timeout 60 "$work/$panel" "$@" 2>"$work/panel.err"
    echo "exit $?"
}

# Holds a round of the C example against its part of panel.expect: which build,
# the name there, then the folder if one is given.
panel_says() {
    diff <(sed -n "/^[\$] panel $2\$/,/^exit /p" examples/panel.expect) <(panel_round "$@") || {
        cat "$work/panel.err"
        return 1
    }
}

# The stove with a state or wish that is missing or faulty, or with other cooks.
stoves="no_wish bad_state no_state long_wish no_way contradiction long_second_wish eighth_cook"

# Folders for the C example that are empty, unreadable or one of the stoves.
panel_folders() {
    mkdir -p "$work"/{empty,unreadable/sheet.bin}
    local folder
    for folder in $stoves; do
        mkdir "$work/$folder"
        cp examples/stove/*.bin "$work/$folder"
    done
    rm "$work/no_wish/wish.bin"
    printf '\x00\x00\x02\x00\x00\x00' >"$work/bad_state/state.bin"
    rm "$work/no_state/state.bin"
    printf '\x01\x01\x01\x01' >"$work/long_wish/wish.bin"
    printf '\x01\x00\x01\x00\x01\x00' >"$work/no_way/state.bin"
    printf '\x03\x03\x04' >"$work/no_way/wish.bin"
    printf '\x03\x03\x01' >"$work/contradiction/wish2.bin"
    printf '\x01%.0s' {1..300} >"$work/long_second_wish/wish2.bin"
    rm "$work/eighth_cook/wish.bin"
    printf '\x01\x02' >"$work/eighth_cook/wish8.bin"
}

# Tries one build of the C example on every folder.
panel_checks() {
    local folder
    check "$1 reads the stove by itself" panel_says "$1" stove
    for folder in stove kitchen two_cooks refused; do
        check "$1 on $folder" panel_says "$1" "$folder" "examples/$folder"
    done
    for folder in empty $stoves unreadable; do
        check "$1 on $folder" panel_says "$1" "$folder" "$work/$folder"
    done
}

# Compiles the C example with an applying that changes nothing in place of the
# library's.
build_unmoved() {
    echo 'unsigned long long __wrap_duty_apply(void) { return 255; }' >"$work/unmoved.c"
    build_panel panel-unmoved "$work/unmoved.c" -Wl,--wrap=duty_apply
}

# The C example stops at a command that changes nothing, and says so.
unmoved_stops() {
    panel_says panel-unmoved unmoved examples/stove &&
        diff <(echo "panel: machine 0: command 1 changed nothing") "$work/panel.err"
}

# Compiles a file that has nothing but the header: compiler, language, standard.
header_compiles() {
    echo '#include "duty.h"' |
        "$1" -x "$2" -std="$3" -Wall -Wextra -Werror -pedantic -Iinclude -fsyntax-only -
}

# The archive's global symbols are the functions that the source exports.
only_exports() {
    diff <(sed -nE 's/^pub extern "C" fn ([a-z_]+)\(.*/\1/p' crates/panel/src/lib.rt | sort) \
        <(nm -g --defined-only target/staticlib/libpanel.a | awk 'NF == 3 { print $3 }' | sort)
}

# Runs show in a folder of its own and compares what it prints.
show_says() {
    (cd "$1" && "$root/target/bin/show") | diff <(echo "$2") -
}

# Runs walk in a folder that has expect.txt and compares what it prints, or what
# a filter leaves of it.
walk_says() {
    (cd "$1" && "$root/target/bin/walk") | "${2:-cat}" | diff "$1/expect.txt" -
}

# Runs graph in a folder that has graph.dot and compares what it prints.
graph_says() {
    ./graph "$1" | diff "$1/graph.dot" -
}

# A walk without its moves: each command line must end with a third number, which
# is left out; any other line stays to the letter.
without_moves() {
    sed -E '/^(done|refused) /b; s/^([0-9]+ [0-9]+) [0-9]+$/\1/; t; s/^/no move: /'
}

# Copies every recorded case. Their states have no tags and are read as tagless,
# with a zero behind each byte, which leaves a wrong length or mode wrong. What a
# walk prints since a request changed it takes the place of what was recorded.
tagless_cases() {
    python3 - "$1" "$2" compare/tests/changed.txt <<'END'
import re
import sys
from pathlib import Path
source, copies, changed = map(Path, sys.argv[1:])
changed = dict(re.findall("^walk (.*) = (.*)$", changed.read_text(), re.M))
for expect in source.glob("*/expect.txt"):
    copy = copies / expect.parent.name
    copy.mkdir(parents=True)
    for file in expect.parent.iterdir():
        data = file.read_bytes()
        if file.name == "state.bin":
            data = bytes(byte for mode in data for byte in (mode, 0))
        if file.name == "expect.txt" and copy.name in changed:
            data = (changed[copy.name].replace(" ", "\n").replace(",", " ") + "\n").encode()
        (copy / file.name).write_bytes(data)
END
}

# Tries walk on every recorded case; these have no moves.
recorded_walks() {
    local folder wrong=0 count=0
    tagless_cases "${DUTY_VECTORS:-../shared/vectors}" "$work/cases" || return 1
    for folder in "$work"/cases/*/; do
        count=$((count + 1))
        walk_says "$folder" without_moves || { echo "$folder"; wrong=1; }
    done
    [ "$wrong" -eq 0 ] && [ "$count" -gt 0 ]
}

# Runs a launcher and compares its exit status, then the first words it writes on
# standard error: none where none are expected.
launched() {
    local status=$1 words=$2
    shift 2
    "$@" >"$work/out" 2>"$work/words"
    [ $? -eq "$status" ] || { echo "not status $status"; return 1; }
    if [ -z "$words" ]; then [ ! -s "$work/words" ]; else grep -q "^$words" "$work/words"; fi
}

# Runs a launcher that writes nothing on standard output.
prints_nothing() {
    "$@" >"$work/out"
    [ ! -s "$work/out" ]
}

# Runs a launcher whose output can not be written.
unwritten() {
    "$@" >/dev/full
}

# Runs a launcher where neither a program nor rt is at hand.
without_rt() {
    mkdir -p "$work/fresh" "$work/few" "$work/folder"
    mkdir -p "$work/fresh/tools"
    cp launch show walk graph "$work/fresh"
    cp tools/build "$work/fresh/tools"
    ln -sf "$(command -v dirname)" "$work/few"
    PATH=$work/few "$work/fresh/$1" "$work/folder"
}

# Tries the launchers. What graph prints is for dot, so it tells a refusal on
# standard error.
launcher_checks() {
    local name refused
    for name in show walk graph; do
        refused=
        if [ "$name" = graph ]; then refused="graph: refused"; fi
        check "./$name builds its program" "./$name"
        check "./$name on the stove" launched 0 "" "./$name" examples/stove
        check "./$name on the kitchen by itself" launched 0 "" "./$name"
        check "./$name on an empty folder" launched 1 "${refused:+$refused 1 0: }" "./$name" "$work/none"
        check "./$name on a faulty sheet" launched 1 "${refused:+$refused 7 58: }" "./$name" examples/refused
        check "./$name on a missing folder" launched 2 "$name: no folder" "./$name" "$work/missing"
        check "./$name on a file" launched 2 "$name: no folder" "./$name" README.md
        check "./$name without room for its output" launched 2 "$name: the output" unwritten "./$name"
        check "./$name without rt" launched 2 "$name: no rt" without_rt "$name"
    done
    check "./graph prints nothing for a faulty sheet" prints_nothing ./graph examples/refused
}

# A sheet in a folder of its own: so many machines of eight modes, then one of
# the modes given.
machines() {
    mkdir -p "$work/$1"
    python3 -c 'import sys
eights, last = map(int, sys.argv[1:])
counts = [8] * eights + [last]
sheet = b"".join(bytes([2, 0, 1, 0, n, 2 ** n - 1]) for n in counts)
sys.stdout.buffer.write(sheet + bytes([0, 0, 3, 0]))' "$2" "$3" >"$work/$1/sheet.bin"
}

# The last line that show prints.
show_ends() {
    (cd "$work/$1" && "$root/target/bin/show") | tail -n 1 | diff <(echo "$2") -
}

# A whole record of 60,000 bytes and unknown kind, one that says a byte more than
# there is, and no file at all.
long_files() {
    mkdir -p "$work/long" "$work/cut" "$work/none"
    { printf '\x60\xea\x09\x00'; head -c 60000 /dev/zero; } >"$work/long/sheet.bin"
    { printf '\x61\xea\x09\x00'; head -c 60000 /dev/zero; } >"$work/cut/sheet.bin"
}

# What the programs of crates/ are tried on is what the examples have.
same_data() {
    local data file example
    for data in crates/*/data; do
        case $data in
            */show_kitchen/*) example=kitchen ;;
            */show_refused/*) example=refused ;;
            *) example=stove ;;
        esac
        for file in "$data"/*; do
            cmp "$file" "examples/$example/${file##*/}" || return 1
        done
    done
}

root=$PWD
long_files
panel_folders
check "static library" tools/build panel
check "show" tools/build show
check "walk" tools/build walk
check "graph" tools/build graph
cut="a record is cut short, or the end is missing"
check "show reads a long file whole" show_says "$work/long" "refused 2 0: a record of unknown kind or wrong length"
check "show sees that a long file is cut" show_says "$work/cut" "refused 1 0: $cut"
check "show takes a missing file for an empty one" show_says "$work/none" "refused 1 0: $cut"
machines single 0 1
machines below 20 8
machines above 21 2
check "show counts one state" show_ends single "1 machine, 0 moves, 1 state"
check "show counts 2^63 states" show_ends below "21 machines, 0 moves, 9223372036854775808 states"
check "show writes 2^64 states as a product" show_ends above "22 machines, 0 moves, $(printf '8 x %.0s' {1..21})2 states"
for walk in examples/walks/*/; do
    check "walk on $walk" walk_says "$walk"
done
if [ -n "${DUTY_WALKS:-}" ]; then check "walk on every recorded case" recorded_walks; fi
for folder in stove kitchen; do
    check "graph on the $folder" graph_says "examples/$folder"
done
launcher_checks
cargo_tests
check "the archive has the duty_ functions and no other symbol" only_exports
check "the header compiles as C11" header_compiles gcc c c11
check "the header compiles as C++17" header_compiles g++ c++ c++17
check "panel compiles without a warning" build_panel panel
panel_checks panel
check "panel compiles with sanitizers" build_panel panel-sanitized -g \
    -fsanitize=address,undefined -fno-sanitize-recover
panel_checks panel-sanitized
check "panel compiles with an applying that changes nothing" build_unmoved
check "panel stops where a command changes nothing" unmoved_stops
check "./kitchen, and the examples by it" python3 compare/kitchen_test.py
check "the programs of crates/ are tried on bytes of the examples" same_data

echo "$passed passed, $failed failed"
[ "$failed" -eq 0 ]
