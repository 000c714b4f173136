#!/usr/bin/env bash
# The C and C++ tests and examples against the archive target/staticlib/libmonitor.a: through the headers alone, by gcc and by clang with every
# warning an error, run plainly and under valgrind. The last line is 'N passed, M failed'; each failure is named.
#
#     bash tests/c/run.sh           what is missing of gcc, g++, clang, valgrind and binutils it installs by apt-get
set -uo pipefail
cd "$(dirname "$0")/../.." || exit 2
archive=target/staticlib/libmonitor.a
warnings="-O2 -Wall -Wextra -Wpedantic -Werror -Iinclude"
calls="monitor_set_up monitor_age monitor_receive monitor_receive_with_readings monitor_write monitor_ask monitor_fewest"
calls="$calls monitor_message_read monitor_message_rewrite"
. tests/counted.sh

# build COMPILER SOURCE PROGRAM FLAGS..: -z now, so that no call takes the stack that the loader would need
build() {
    local compiler=$1 source=$2 program=$3 std=-std=c11
    shift 3
    case $compiler in *++*) std=-std=c++17 ;; esac
    # shellcheck disable=SC2086
    "$compiler" $std $warnings "$@" "$source" "$archive" -Wl,-z,now -o "$program"
}

compilers_of() {
    case $1 in *.cc) echo g++ clang++ ;; *) echo gcc clang ;; esac
}

watch() {
    valgrind -q --error-exitcode=9 --leak-check=full "$@"
}

# ---- the tests: what they count themselves is shown once, of gcc's plain run

tested() {
    local source=$1 compiler program arguments=()
    if [ "$source" = tests/c/stack.c ]; then arguments=(watched); fi
    for compiler in $(compilers_of "$source"); do
        program=$scratch/test_$compiler
        try "$source by $compiler" build "$compiler" "$source" "$program"
        try "$source by $compiler, run" "$program"
        case $compiler in g*) printf '%s\n' "$source"; cat "$scratch/log" ;; esac
        try "$source by $compiler, under valgrind" watch "$program" ${arguments[@]+"${arguments[@]}"}
        rm -f "$program"
    done
}

# ---- the headers

# object COMPILER STANDARD SOURCE: compiled alone
object() {
    # shellcheck disable=SC2086
    "$1" -std="$2" $warnings -c "$3" -o "$scratch/object.o"
}

# usable by themselves in every standard that they are meant for, and older ones of C++
standards() {
    local header compiler std
    for header in monitor.h monitor_text.h; do
        printf '#include "%s"\nint main(void) { return MONITOR_TAKEN + (MONITOR_VERSION < 1); }\n' "$header" >"$scratch/header.c"
        cp "$scratch/header.c" "$scratch/header.cc"
        for std in c11 c17 c2x; do
            for compiler in gcc clang; do try "$header in $std by $compiler" object "$compiler" $std "$scratch/header.c"; done
        done
        for std in c++11 c++14 c++17 c++20; do
            for compiler in g++ clang++; do try "$header in $std by $compiler" object "$compiler" $std "$scratch/header.cc"; done
        done
    done
}

# a program that makes this call and looks at the result, or does not
caller() {
    local arguments
    case $1 in
    monitor_set_up) arguments='b, 0, 0, 0, 0, 0' ;;
    monitor_age) arguments='b, 0, 0' ;;
    monitor_receive) arguments='b, 0, 0, 0, b, 0' ;;
    monitor_receive_with_readings) arguments='b, 0, 0, 0, 0, 0, 0, 0, b, 0' ;;
    monitor_write | monitor_ask) arguments='b, 0, 0, b, 0' ;;
    *) arguments='b, 0, b, 0' ;;
    esac
    printf '#include "monitor.h"\nint main(void) { uint8_t b[1] = {0}; %s %s(%s)%s; }\n' "$2" "$1" "$arguments" "$3"
}

# with the result passed over, the warning about it is what stops the compiler
passed_over() {
    ! object "$@" 2>"$scratch/over.log" && grep -qE 'unused-result|nodiscard' "$scratch/over.log"
}

marks() {
    local call compiler std kind
    for call in $calls; do
        for compiler in gcc:c11:c gcc:c2x:c clang:c11:c clang:c2x:c g++:c++14:cc g++:c++17:cc clang++:c++14:cc clang++:c++17:cc; do
            IFS=: read -r compiler std kind <<<"$compiler"
            caller "$call" 'return (int)' '' >"$scratch/used.$kind"
            caller "$call" '' '; return 0' >"$scratch/over.$kind"
            try "$call looked at, in $std by $compiler" object "$compiler" "$std" "$scratch/used.$kind"
            try "$call passed over is a warning, in $std by $compiler" passed_over "$compiler" "$std" "$scratch/over.$kind"
        done
    done
}

# ---- the archive

# nothing that is written between calls: no .data, no .bss, no common or thread's own data
no_data() {
    size "$archive" | awk 'NR > 1 { rows++; if ($2 != 0 || $3 != 0) bad = 1 } END { exit bad || rows == 0 }' &&
        ! nm "$archive" | grep -E ' [bBdDcCsSgG] '
}

needs_only() {
    diff <(printf '%s\n' memcpy memset) <(nm -u "$archive" | awk '$1 == "U" { print $2 }' | sort -u)
}

exports_only() {
    diff <(printf '%s\n' $calls | sort) <(nm -g --defined-only "$archive" | awk 'NF == 3 { print $3 }' | sort)
}

# calling_themselves ARCHIVE CALL..: of the functions that the calls reach, those that call themselves, directly or through others
calling_themselves() {
    objdump -dr --no-show-raw-insn "$1" | awk -v calls="${*:2}" -f tests/c/calls.awk
}

# of receiving none: a tracer shows no ladder of calls (document 02, W-203)
no_ladder() {
    local found
    found=$(calling_themselves "$archive" monitor_receive monitor_receive_with_readings) && diff <(printf '') <(printf '%s' "$found")
}

# of asking the search's steps and no others, as document 01 wants them
search_calls_itself() {
    local found
    found=$(calling_themselves "$archive" monitor_ask monitor_fewest) && [ -n "$found" ] && ! grep -v '^search::search::' <<<"$found"
}

# of a program in which two functions call each other, those two
ladder_seen() {
    local found
    cat >"$scratch/turns.c" <<'END'
int begin(int n);
static int there(int n);
static int back(int n) { return n < 1 ? 0 : there(n - 1); }
static int there(int n) { return n < 1 ? 1 : back(n - 1); }
int begin(int n) { return there(n); }
END
    "$1" -O0 -ffunction-sections -c "$scratch/turns.c" -o "$scratch/turns.o" &&
        found=$(calling_themselves "$scratch/turns.o" begin) && diff <(printf '%s\n' back there) <(sort <<<"$found")
}

# linked in other ways, document 01's listing passes as well
linked() {
    build "$1" tests/c/monitor.c "$scratch/linked" "${@:2}" && "$scratch/linked"
}

links() {
    local compiler way
    for compiler in gcc clang; do
        for way in -no-pie '-fPIE -pie' -static '-static-pie -fPIE'; do
            # shellcheck disable=SC2086
            try "linked with $way by $compiler" linked "$compiler" $way
        done
    done
    try 'linked with -flto by gcc' linked gcc -flto
}

# ---- the examples

# prints EXPECTED COMMAND..: what the command prints is what is stored
prints() {
    "${@:2}" >"$scratch/printed" && diff "$1" "$scratch/printed"
}

stamp() {
    "$@" 1 <examples/stamp/notebook
}

examples() {
    local compiler
    for compiler in gcc clang; do
        try "stamp by $compiler" build "$compiler" examples/stamp/stamp.c "$scratch/stamp"
        try "stamp by $compiler, dates" prints examples/stamp/expected stamp "$scratch/stamp"
        try "stamp by $compiler, under valgrind" prints examples/stamp/expected stamp watch "$scratch/stamp"
        try "first by $compiler" build "$compiler" examples/first/first.c "$scratch/first"
        try "first by $compiler, answers" prints examples/first/expected "$scratch/first"
        try "first by $compiler, under valgrind" prints examples/first/expected watch "$scratch/first"
        try "words by $compiler" build "$compiler" examples/words/words.c "$scratch/words"
        try "words by $compiler, under valgrind" watch "$scratch/words" 3 1000000 1000200 1,2 4@1
    done
    try "stamp with gcc's own checks" build gcc examples/stamp/stamp.c "$scratch/stamp" -g -fsanitize=address,undefined
    try "stamp with gcc's own checks, dates" prints examples/stamp/expected stamp "$scratch/stamp"
}

# makes WORDS ARGUMENTS..: the words that `words` prints
makes() {
    prints <(echo "$1") "$scratch/words" "${@:2}"
}

# refuses NUMBER ARGUMENTS..: it prints no words, names the number, and ends with 1
refuses() {
    local status=0
    "$scratch/words" "${@:2}" >"$scratch/out" 2>"$scratch/err" || status=$?
    [ "$status" -eq 1 ] && [ ! -s "$scratch/out" ] && grep -q "^words: refused $1: " "$scratch/err"
}

# not_understood ARGUMENTS..: usage, and status 2
not_understood() {
    local status=0
    "$scratch/words" "$@" >"$scratch/out" 2>"$scratch/err" || status=$?
    [ "$status" -eq 2 ] && [ ! -s "$scratch/out" ] && grep -q '^usage: ' "$scratch/err"
}

# the listing takes what `words` makes
taken_by_listing() {
    local words
    words=$("$scratch/words" "${@:2}") || return 1
    printf 'set 5 100 0 0\nget 0 0 %s\nask 0\n' "$words" >"$scratch/lines"
    prints <(printf 'ok\nok\n%s\n' "$1") crates/listing/out/listing <"$scratch/lines"
}

words() {
    # document 01's listing, with epochs
    try 'words, document 01, first' makes '536870913 1 1073741824 1074741824 1610612736 1611612936 3760096586' 1 1000000 1000200
    try 'words, document 01, second' makes '536870914 2 1073741824 1076742824 1610612736 1613613736 3764098388' 2 3001000 3001000
    # the stories' relay, and their mended gateway
    try 'words, a term' makes '536870947 1 3 1073741832 1378774528 1610612744 1915645640 3221225474 3831291137' 3 4600000000 4600000200 1
    try 'words, an epoch' makes '536870913 33 1073741826 1300000000 1610612738 1836871112 4210612974' 1@1 1300000000 1300000200
    try 'words, epochs of terms' makes '536870981 97 2 229 1073741824 1073741824 1610612736 1610612746 3221225474 3221225476 3758096797' 5@7 0 10 1@3 2
    try 'words, an epoch given twice' makes '536870945 65 1073741824 1073741824 1610612736 1610612746 3221225474 3758096494' 1@2 0 10 1@2
    try 'words, an epoch given with a term' makes '536870945 65 1073741824 1073741824 1610612736 1610612746 3221225474 3758096494' 1 0 10 1@2
    try 'words, least' makes '536870912 0 1073741824 1073741824 1610612736 1610612736 3758096384' 0 0 0
    try 'words, greatest' makes '536870940 508 1610612735 1610612735 2147483647 2147483647 3758096916' 28@15 288230376151711743 288230376151711743
    try 'words, the listing takes them' taken_by_listing 'between 7 9' 1 7 9
    try 'words, the listing takes terms' taken_by_listing 'between 7 288230376151711743' 1@15 7 288230376151711743 1,2 0@1,3 4,28
    try 'words, the listing takes eight' taken_by_listing 'between 7 9' 0 7 9 0 1 2 3 4 6 7 8
    try 'words, the listing takes the empty term' taken_by_listing open 1 7 9 -
    try 'words, sender 29' refuses 12 29 1 2
    try 'words, sender 32' refuses 12 32 1 2
    try 'words, sender 2^32' refuses 12 4294967296 1 2
    try 'words, nine terms' refuses 12 10 1 2 0 1 2 3 4 5 6 7 8
    try 'words, epoch 16' refuses 42 1@16 2 3
    try "words, a term's epoch 2^32" refuses 42 1 2 3 2@4294967296
    try 'words, left above right' refuses 16 1 3 2
    try 'words, left 2^58' refuses 16 1 288230376151711744 288230376151711744
    try 'words, right 2^58' refuses 16 1 0 288230376151711744
    try 'words, falling terms' refuses 17 1 2 3 3 1,2
    try 'words, a term twice' refuses 17 1 2 3 1,2 2,1
    try 'words, a term in another' refuses 17 1 2 3 1 1,2
    try 'words, the empty term and another' refuses 17 1 2 3 - 1
    local bad
    for bad in '' 'x 1 2' '1 2' '1 -2 3' '1 +2 3' '1 2 3x' '1 2 99999999999999999999' '1 2 3 29' '1 2 3 1,' '1 2 3 ,1' '1 2 3 1;2' \
        '1@ 2 3' '@1 2 3' '1@1@1 2 3' '1@99999999999999999999 2 3' '1@1 2 3 1@2,3' '1 2@1 3' '1 2 3 -@1'; do
        # shellcheck disable=SC2086
        try "words, not understood: $bad" not_understood $bad
    done
}

# the lines of README's C example are those of the file
readme_example() {
    diff examples/first/first.c <(awk '/^```c$/ { on = 1; next } /^```$/ { on = 0 } on' README.md)
}

changelog_version() {
    local version
    version=$(awk '$2 == "MONITOR_VERSION" { print $3 }' include/monitor.h)
    [ -n "$version" ] && diff <(echo "$version") <(awk '/^## / { print $2; exit }' CHANGELOG.md)
}

[ -f "$archive" ] || { printf 'no archive at %s: ./archive writes it\n0 passed, 1 failed\n' "$archive"; exit 1; }
for tool in gcc:gcc g++:g++ clang:clang clang++:clang valgrind:valgrind nm:binutils; do
    need "${tool%:*}" "${tool#*:}" || { printf 'no %s, and it cannot be installed\n0 passed, 1 failed\n' "${tool%:*}"; exit 1; }
done
for source in tests/c/*.c tests/c/*.cc; do tested "$source"; done
standards
marks
try 'the archive keeps nothing' no_data
try 'the archive needs memcpy and memset alone' needs_only
try 'the archive has the calls alone' exports_only
try 'the archive, receiving: no function calls itself' no_ladder
try 'the archive, asking: the search alone calls itself' search_calls_itself
try 'functions that call each other are seen, by gcc' ladder_seen gcc
try 'functions that call each other are seen, by clang' ladder_seen clang
links
examples
words
try "README's example is examples/first/first.c" readme_example
try 'CHANGELOG.md begins with MONITOR_VERSION' changelog_version
printf '%d passed, %d failed\n' "$passed" "$failed"
[ "$failed" -eq 0 ]
