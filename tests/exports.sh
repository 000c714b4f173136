#!/usr/bin/env bash
# The exported calls and their callers. A call asks nothing of C and promises what demand 1 speaks of. The archive is the crate `monitor_c`: each of
# its exports states word for word what the function of `monitor` states that it calls, since no crate can call a static library. Crate `callers` calls
# each of those functions without a `requires`. That list is complete, and it notices: with a `requires` put on one call of `monitor`, and a promise
# taken from another, `monitor` is still proved, and those two callers are not, nor are those two exports. The last line is 'N passed, M failed'.
# (tests/lists.sh compares the calls with all other places.)
#
#     bash tests/exports.sh         needs every crate proved (rt ci) and the static library (./archive); some are proved again, which takes some minutes
set -uo pipefail
cd "$(dirname "$0")/.." || exit 2
. tests/counted.sh

# one line for each call, by its name
marked() { awk '/#\[unsafe\(no_mangle\)\]/ { on = 1 } on && match($0, /fn monitor_[a-z_]+/) { print substr($0, RSTART + 3, RLENGTH - 3); on = 0 }' crates/monitor_c/src/*.rt | sort; }
called() { grep -ohE '\bmonitor_[a-z_]+\(' crates/callers/src/*.rt | tr -d '(' | sort; }
linked() { nm -g --defined-only target/staticlib/libmonitor.a | awk 'NF == 3 { print $3 }' | sort; }
declared() { grep -ohE '^uint32_t monitor_[a-z_]+' include/monitor.h | awk '{ print $2 }' | sort; }

# the calls marked as exported are some, and LIST prints the same
as_marked() {
    [ -n "$(marked)" ] && diff <(marked) <("$1")
}

# stated CRATE: what the calls of a crate are given, ask and promise, a line for each
stated() {
    awk '/^pub (extern "C" )?fn monitor_/ { text = ""; on = 1 }
        on && /^\{/ { gsub(/\( +/, "(", text); gsub(/, *\)/, ")", text); print text; on = 0 }
        on { sub(/extern "C" /, ""); sub(/^ +/, ""); text = text " " $0 }' "crates/$1/src"/*.rt | sort
}
same_stated() {
    [ "$(stated monitor_c | wc -l)" -eq "$(marked | wc -l)" ] && diff <(stated monitor) <(stated monitor_c)
}

no_requires() {
    ! grep -n '^ *requires' crates/callers/src/*.rt crates/monitor_c/src/*.rt
}

# edited FILE OLD NEW: of the copy, where the text stands once
edited() {
    [ "$(grep -cF "$2" "$copy/$1")" -eq 1 ] && OLD=$2 NEW=$3 awk '
        { at = index($0, ENVIRON["OLD"]); if (at) $0 = substr($0, 1, at - 1) ENVIRON["NEW"] substr($0, at + length(ENVIRON["OLD"])); print }
        ' "$copy/$1" >"$scratch/edited" && mv "$scratch/edited" "$copy/$1"
}

# the copy is proved up to its callers and its exports: what is said of each
weakened() {
    local crate
    copy=$scratch/copy
    mkdir -p "$copy" && tar --exclude=out -cf - crates crates.txt | tar -xf - -C "$copy" &&
        edited crates/monitor/src/calls.rt 'fn monitor_write(state: &[u8], position: u64, message: &mut [u8]) -> u32' \
            'fn monitor_write(state: &[u8], position: u64, message: &mut [u8]) -> u32 requires { position < 16 }' &&
        edited crates/monitor/src/receive.rt 'state.new ≡ receive_state state.old (receipt_of least greatest message.now)' 'state.new ≡ state.new' || return 1
    (cd "$copy/crates/monitor" && rt check) >"$scratch/weakened_monitor" 2>&1
    grep -q '^logic=proved' "$scratch/weakened_monitor" || { cat "$scratch/weakened_monitor" && return 1; }
    for crate in callers monitor_c; do
        (cd "$copy/crates/$crate" && rt check) >"$scratch/weakened_$crate" 2>&1
        cat "$scratch/weakened_$crate"
        ! grep -qE '^fn monitor::.*: (no proof|not proved)|^rt: the library .* did not build' "$scratch/weakened_$crate" &&
            grep -q "^fn $crate::" "$scratch/weakened_$crate" || return 1
    done
}

# two_unproved CRATE FUNCTION FUNCTION: these two are not proved, and all others are
two_unproved() {
    diff <(printf '%s\n' "${@:2}") <(sed -n "s/^fn $1::\([a-z_]*\): \(no proof\|not proved\).*/\1/p" "$scratch/weakened_$1" | sort) &&
        [ "$(grep -c "^fn $1::[a-z_]*: proved\$" "$scratch/weakened_$1")" -eq $(($(called | wc -l) - 2)) ]
}

need nm binutils
try 'every call marked as exported has its caller' as_marked called
try 'the archive has the calls marked as exported' as_marked linked
try 'the header declares the calls marked as exported' as_marked declared
try 'an export states what the call states that it is' same_stated
try 'no caller and no export asks anything' no_requires
try 'a requires and a lost promise in monitor: monitor is proved all the same' weakened
try 'and the callers of both are not' two_unproved callers receive write
try 'nor are the exports of both' two_unproved monitor_c monitor_receive monitor_write
printf '%d passed, %d failed\n' "$passed" "$failed"
[ "$failed" -eq 0 ]
