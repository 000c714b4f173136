#!/usr/bin/env bash
# Compiles hand.c, compares it with the engine (target/staticlib/libmonitor.a) and prints the table of times. `run.sh quick` takes seconds, and
# `run.sh compare` does so and prints no table.
set -euo pipefail
cd "$(dirname "$0")/../.."
rounds=() batches=()
case ${1:-} in quick | compare) rounds=(15000) batches=(101) ;; esac
out=$(mktemp -d)
trap 'rm -rf "$out"' EXIT
for program in compare bench; do
    gcc -std=c11 -O2 -Wall -Wextra -Werror -Iinclude "second/hand/$program.c" second/hand/hand.c target/staticlib/libmonitor.a -o "$out/$program"
done
"$out/compare" "${rounds[@]}"
if [ "${1:-}" != compare ]; then "$out/bench" "${batches[@]}"; fi
