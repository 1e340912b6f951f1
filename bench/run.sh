#!/bin/sh
# Builds the program, and times one of its commands, or each of them where none is named: run.sh [check|decode|values|encode|ratios|replay|steps|links|calls|packets|keep|hostile [NUMBERS ..]]
# README.md tells what it prints.
set -eu

bench=$(cd "$(dirname "$0")" && pwd)
top=$(dirname "$bench")
log=$(mktemp)
room=$(mktemp -d)
trap 'rm -rf "$log" "$room"' EXIT

# `rt run` proves and builds what has changed, and leaves the program in out/ of the crate's folder.
build() {
    folder=$1
    shift
    (cd "$folder" && rt run -- "$@") >"$log" 2>&1 || {
        cat "$log" >&2
        exit 1
    }
}

# The program of calls.py is no crate, so that the gate needn't prove it: it becomes one in a clone, over the crates that are committed.
build_calls() {
    git clone -q "$top" "$room/tlbox"
    mkdir -p "$room/tlbox/crates/calls/src"
    for file in "$bench"/calls/*.rt.txt; do
        cp "$file" "$room/tlbox/crates/calls/src/$(basename "$file" .txt)"
    done
    echo "calls: tl_base tl_lexer tl_combinators tl_schema tl_types tl_plan tl_decode tl_encode box_events box_server box_wire wire_profile pts_machine" >>"$room/tlbox/crates.txt"
    build "$room/tlbox/crates/calls" boundary 1000 100
}

measure() {
    crate=$top/crates/tlbox
    if [ "$1" = calls ]; then
        build_calls
        crate=$room/tlbox/crates/calls
    fi
    python3 "$bench/$1.py" "$crate" "$@"
}

build "$top/crates/tlbox" decode data/point.tl Point data/point.bin
if [ $# -gt 0 ]; then
    measure "$@"
else
    for command in check decode values encode ratios replay steps links calls packets keep hostile; do
        measure "$command"
    done
fi
