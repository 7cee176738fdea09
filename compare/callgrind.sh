#!/usr/bin/env bash
# Instructions for one call, by valgrind's callgrind: the difference between
# 101 calls and 1, divided by 100. Run after `tools/build panel`.
set -eu
cd "$(dirname "$0")"
if ! command -v valgrind >/dev/null; then
    echo "valgrind is not installed: no instruction counts"
    exit 0
fi
cargo build --release --offline --quiet
bench=target/release/bench

counted() {
    valgrind --tool=callgrind --callgrind-out-file=/dev/null \
        "$bench" repeat "$1" "$2" "$3" "$4" 2>&1 | awk '/Collected/ { print $NF }'
}

one_call() {
    local many few
    many=$(counted "$1" "$2" "$3" 101)
    few=$(counted "$1" "$2" "$3" 1)
    echo $(((many - few) / 100))
}

echo "| call | input | library | Rust | library / Rust |"
echo "|---|---|---:|---:|---:|"
"$bench" list | while read -r call input; do
    library=$(one_call library "$call" "$input" </dev/null)
    rust=$(one_call rust "$call" "$input" </dev/null)
    ratio=$(awk "BEGIN { printf \"%.2f\", $library / $rust }")
    echo "| $call | $input | $library | $rust | $ratio |"
done
