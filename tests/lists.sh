#!/usr/bin/env bash
# What stands in many places is the same in all of them: the exported calls and what each takes, the refusals' numbers and their order, the stack of
# each call. Each line says what was compared; what a place lacks, or has too much, is named. Nothing is proved, so it takes a second. The last line is
# 'N passed, M failed'. (The bytes of docs/layouts.md are compared with a real state by second/tests/layouts.rs.)
#
#     bash tests/lists.sh           needs target/staticlib/libmonitor.a (./archive); it installs binutils by apt-get if nm is missing
set -uo pipefail
cd "$(dirname "$0")/.." || exit 2
export LC_ALL=C.UTF-8
. tests/counted.sh

# ---- where the lists stand

archive=target/staticlib/libmonitor.a
sources=crates/monitor_c/src
header=include/monitor.h
texts=include/monitor_text.h
rust=second/src/engine.rs
refusals=second/src/refusal.rs
hand=second/hand/hand.h
compare=second/hand/compare.c
stack=tests/c/stack.c
demand1=crates/runs/specs/Demand1.antt
# the pages that say what the engine is; docs/DECISIONS.md, docs/speed.md and docs/landings also say what it was
pages=()
for page in README.md docs/{layouts,operating,architecture,stories,proofs}.md; do [ ! -f "$page" ] || pages+=("$page"); done

# Demand 1's calls with the numbers of each in order, a line 'CALL NUMBER ..': in the definition of `listed` that of a call is `listed (CALL ..) =
# NUMBER ∷ .. ∷ []`, on one line or on more
demanded() {
    awk '
        function ended() {
            if (text ~ /^listed \(/) {
                name = text; sub(/^listed \(/, "", name); sub(/[ )].*/, "", name)
                sub(/^[^=]*=/, "", text); gsub(/[^0-9]+/, " ", text); sub(/ $/, "", text)
                print name text
            }
            text = ""
        }
        { sub(/--.*/, "") }
        /^[^ ]/ { ended() }
        { sub(/^ +/, ""); text = text (text == "" ? "" : " ") $0 }
        END { ended() }' "$demand1" | as_exported
}

# the calls that the statement speaks of, the constructors of `Exported`
stated() { sed -n '/^pub data Exported /,/^$/s/^  \([A-Za-z_]*\) :.*/\1/p' "$demand1" | as_exported; }

# demand 1's name of a call, at the front of a line, as the export has it: reading and rewriting a message are named without the crate
as_exported() { sed -E 's/^(monitor_)?/monitor_/'; }

# ---- how two places are compared

# same PLACE LIST PLACE LIST: a list is a command that prints a line for each item, its name first and then what else is said of it, in any order. Says
# what is missing in the second place or there too much, what is there twice, and what differs.
same() {
    "$2" >"$scratch/wanted"
    "$4" >"$scratch/found"
    [ -s "$scratch/wanted" ] || { printf 'nothing was found in %s\n' "$1"; return 1; }
    [ -s "$scratch/found" ] || { printf 'nothing was found in %s\n' "$3"; return 1; }
    awk -v wanted="$1" -v found="$3" '
        function say(what) { print what; bad = 1 }
        function rest(line) { sub(/^[^ ]+ ?/, "", line); return line == "" ? "nothing" : line }
        FNR == 1 { file++ }
        ((file, $1) in line) { say("twice in " (file == 1 ? wanted : found) ": " $1) }
        { line[file, $1] = $0; if (!($1 in seen)) { seen[$1]; order[++count] = $1 } }
        END {
            for (i = 1; i <= count; i++) {
                name = order[i]
                if (!((2, name) in line)) say("missing in " found ": " name " (" wanted " has it)")
                else if (!((1, name) in line)) say("too much in " found ": " name " (" wanted " does not have it)")
                else if (line[1, name] != line[2, name]) say(name ": " wanted " has " rest(line[1, name]) "; " found " has " rest(line[2, name]))
            }
            exit bad
        }' "$scratch/wanted" "$scratch/found"
}

# in_order PLACE LIST PLACE LIST: the same, in the same order
in_order() {
    same "$@" || return 1
    cmp -s "$scratch/wanted" "$scratch/found" || {
        printf 'in another order in %s: %s; %s has %s\n' "$3" "$(paste -sd' ' "$scratch/found")" "$1" "$(paste -sd' ' "$scratch/wanted")"
        return 1
    }
}

# compared NAME COMMAND..: counts, and has a line in either case
compared() {
    local before=$failed
    try "$@"
    [ "$failed" -gt "$before" ] || printf 'ok      %s\n' "$1"
}

# joined BEGIN END FILE..: each text from a line that matches one pattern to a line that matches the other, as one line
joined() {
    awk -v begin="$1" -v end="$2" '
        $0 ~ begin { text = ""; on = 1 }
        on { sub(/^ +/, ""); text = text (text == "" || text ~ /\($/ ? "" : " ") $0 }
        on && $0 ~ end { print text; on = 0 }' "${@:3}"
}

# rows FIRST FILE: the rows of the tables whose header row begins with this cell
rows() { awk -v first="| $1 |" 'index($0, first) == 1 { on = 1; getline; next } !/^\|/ { on = 0 } on' "$2"; }

# first_words LIST: the names in a list
first_words() { "$1" | sed 's/ .*//'; }

# ---- the calls by name

linked() { nm -g --defined-only "$archive" | awk 'NF == 3 { print $3 }'; }
marked_names() { first_words marked; }
declared_names() { first_words declared; }
imported_names() { first_words imported; }
by_hand_names() { first_words by_hand; }
demanded_names() { first_words demanded; }

# the calls that a table of calls has in front
readme_names() { rows call README.md | cut -d'|' -f2 | grep -oE 'monitor_[a-z_]+'; }
proofs_names() { rows call docs/proofs.md | cut -d'|' -f2 | grep -oE 'monitor_[a-z_]+'; }

# what monitor_text.h has beside the calls, and the types of monitor.h
helpers() { sed -nE 's/^static inline .*\b(monitor_[a-z_]+)\(.*/\1/p' "$texts"; }
types() { sed -nE 's/^enum (monitor_[a-z_]+) .*/\1/p' "$header"; }

# called PREFIX FILE..: the calls that are made there, once each
called() { grep -ohE "\\b$1_[a-z_]+\\(" "${@:2}" | tr -d '(' | sed "s/^$1_/monitor_/" | sort -u | grep -vxFf <(helpers); }
compared_of_engine() { called monitor "$compare"; }
compared_of_hand() { called hand "$compare"; }
called_from_c() { called monitor tests/c/*.c tests/c/*.cc; }

# the calls that the Rust program names outside of their declarations
called_from_rust() { find second/src second/tests -name '*.rs' ! -path "$rust" -exec grep -ohE '\bmonitor_[a-z_]+' {} + | sort -u | grep -xFf <(linked); }

# every call that a page or a header names; monitor_c is the crate of the archive
spoken_of() { grep -ohE '\bmonitor_[a-z_]+' "${pages[@]}" include/*.h | sort -u | grep -vxFf <(helpers; types; echo monitor_; echo monitor_c); }

# the file that docs/proofs.md gives for a call's contract has the call
contracts_stand() {
    local call file bad=0
    while IFS='|' read -r _ call _ _ file _; do
        call=$(tr -d '` ' <<<"$call")
        file=$(tr -d '` ' <<<"$file")
        grep -qsE "fn $call\(" "crates/$file" || { printf 'docs/proofs.md: %s is not in crates/%s\n' "$call" "$file"; bad=1; }
    done < <(rows call docs/proofs.md)
    return "$bad"
}

# ---- what the calls take: 'CALL (PARAMETER:TYPE, ..) -> TYPE' with Rust's types, a slice being a pointer and a length

# of Rattle: the functions marked as exported
marked() {
    joined '^#\[unsafe\(no_mangle\)\]' ' -> [a-z0-9]+' "$sources"/*.rt | sed -E -e 's/^#\[unsafe\(no_mangle\)\] pub extern "C" fn //' \
        -e 's/([a-z_]+): &mut \[u8\]/\1:*mut u8, \1_len:usize/g' -e 's/([a-z_]+): &\[u8\]/\1:*const u8, \1_len:usize/g' \
        -e 's/([a-z_]+): /\1:/g' -e 's/(, *)?\)/)/' -e 's/\(/ (/'
}

# of C: prototypes PREFIX FILE
prototypes() {
    joined "^[a-z0-9_]+ $1_[a-z_]+[(]" ';$' "$2" | sed -E -e 's/^([a-z0-9_]+) ([a-z_]+)\((.*)\);$/\2 (\3) -> \1/' \
        -e 's/const uint8_t \*([a-z_]+)/\1:*const u8/g' -e 's/uint8_t \*([a-z_]+)/\1:*mut u8/g' -e 's/size_t ([a-z_]+)/\1:usize/g' \
        -e 's/uint(32|64)_t ([a-z_]+)/\2:u\1/g' -e 's/-> uint32_t$/-> u32/'
}
declared() { prototypes monitor "$header"; }
by_hand() { prototypes hand "$hand" | sed 's/^hand_/monitor_/'; }

# of Rust: the extern block
imported() {
    sed -n '/extern "C" {/,/^    }/p' "$rust" | joined '^ *pub fn ' ';$' - | sed -E -e 's/^pub fn //' -e 's/([a-z_]+): /\1:/g' \
        -e 's/(, *)?\)/)/' -e 's/;$//' -e 's/\(/ (/'
}

# ---- the refusals by number, 0 (taken) among them where it is a constant

# 'MONITOR_NAME NUMBER' in the header's order
refusal_constants() { sed -n '/^enum monitor_refusal {/,/^};/s/^ *\(MONITOR_[A-Z_]*\) = \([0-9]*\).*/\1 \2/p' "$header"; }
refusal_names() { first_words refusal_constants; }
refusal_numbers() { refusal_constants | cut -d' ' -f2; }
refusal_numbers_alone() { refusal_numbers | grep -vx 0; }

text_names() { sed -nE 's/^ *case (MONITOR_[A-Z_]+): return ".*/\1/p' "$texts"; }
rust_numbers() { sed -nE 's/^pub const [A-Z_]+: u32 = ([0-9]+);$/\1/p' "$refusals"; }
text_test_numbers() { sed -n 's/^static const uint32_t listed\[\] = {\(.*\)};$/\1/p' tests/c/text.c | tr -d ' ' | tr , '\n'; }
demanded_numbers() { demanded | cut -s -d' ' -f2- | tr ' ' '\n' | sort -nu; }
named_in_c() { find tests/c -name '*.c*' ! -name text.c -exec grep -ohE '\bMONITOR_[A-Z_]+\b' {} + | sort -u | grep -xFf <(refusal_names); }

# README's: '10 to 17, 42' are all of these, and '30 in ageing' is 30
readme_numbers() {
    rows number README.md | cut -d'|' -f2 | tr , '\n' | awk '
        { sub(/ in .*/, "") }
        $2 == "to" { for (n = $1; n <= $3; n++) print n; next }
        { print $1 }' | sort -nu
}

# ---- the refusals of each call: 'CALL NUMBER ..'

# of the header, in the order in which they are tested, as '@return .. tested in this order, 24 (state), 25 or 24 (answer), and' has it
returned() {
    awk '
        /@return/ { text = ""; on = 1 }
        on { text = text " " $0 }
        on && /and no byte has changed/ { on = 0 }
        match($0, /^[a-z0-9_]+ monitor_[a-z_]+\(/) {
            name = $2; sub(/\(.*/, "", name)
            sub(/.*tested in this order,/, "", text); sub(/,? and no byte has changed.*/, "", text)
            gsub(/\([^)]*\)/, "", text); gsub(/[^0-9]+/, " ", text); sub(/^ */, " ", text); sub(/ *$/, "", text)
            print name text
            text = ""
        }' "$header"
}

# a list of such lines as sets: each number once, rising
as_sets() {
    local name numbers
    while read -r name numbers; do printf '%s %s\n' "$name" "$(tr ' ' '\n' <<<"$numbers" | sort -nu | paste -sd' ')"; done
}
returned_sets() { returned | as_sets; }

# of the C by hand: what its comparison has to meet of each call; 0 is taken, and stands first
met_sets() {
    paste -d' ' <(joined 'kind_names\[KINDS\] = ' ';$' "$compare" | grep -oE '"[a-z_]+"' | tr -d '"' | sed 's/^/monitor_/') \
        <(sed -n '/expected\[KINDS\]/,/^};/s/^ *{0, \(.*\)},$/\1/p' "$compare" | tr -d ,) | as_sets
}

# ---- the stack of each call

stack_names() { sed -nE 's/^#define (MONITOR_STACK_[A-Z_]+) [0-9]+$/\1/p' "$header"; }
# of the calls that are linked
stack_wanted() { linked | sed -E 's/^monitor_(.*)/MONITOR_STACK_\U\1/'; }
# 'CALL MONITOR_STACK_CALL', as each call's comment has it, and as it should
stack_commented() {
    awk 'match($0, /Stack: MONITOR_STACK_[A-Z_]+ bytes/) { said = substr($0, RSTART + 7, RLENGTH - 13) }
        match($0, /^[a-z0-9_]+ monitor_[a-z_]+\(/) { name = $2; sub(/\(.*/, "", name); print name, said; said = "" }' "$header"
}
stack_own() { linked | sed -E 's/^monitor_(.*)/& MONITOR_STACK_\U\1/'; }
# what stack.c measures, in the order of its calls, and what it compares that with
stack_measured() { sed -nE 's/^enum call \{ (.*), CALLS \};$/\1/p' "$stack" | tr -d ' ' | tr , '\n' | sed 's/^/MONITOR_STACK_/'; }
stack_compared() { grep -oE 'STATED\(MONITOR_[A-Z_]+\)' "$stack" | sed -E 's/STATED\((.*)\)/\1/'; }

# ---- figures in the pages

# their sentences, each on a line behind the name of its page: one ends at a full stop, a colon, a semicolon, or where a row of a table or a paragraph does
sentences() {
    awk -v RS= '
        { gsub(/\n\|/, ". |"); gsub(/\n/, " "); n = split($0, parts, /[.:;] /); for (i = 1; i <= n; i++) print FILENAME ": " parts[i] }
        ' "${pages[@]}"
}
# the header's numbers of stack, those of its comment too
stack_figures() { sed -n '/The stack that each call takes/,/^$/p' "$header" | tr -d , | grep -oE '[0-9]{2,}'; }
state_size() { sed -nE 's/^#define MONITOR_STATE_BYTES ([0-9]+)$/\1/p' "$header"; }

# figures SENTENCE NUMBER KNOWN..: in the pages' sentences that match one pattern, the numbers in what matches the other are among the known ones
figures() {
    [ $# -gt 2 ] || { printf 'no figures in %s\n' "$header"; return 1; }
    sentences | awk -v which="$1" -v number="$2" -v known="${*:3}" '
        BEGIN { n = split(known, each, " "); for (i = 1; i <= n; i++) is_known[each[i]] }
        tolower($0) ~ which {
            text = $0; sub(/^[^:]*:/, "", text); gsub(/,/, "", text)
            while (match(text, number)) {
                found = substr(text, RSTART, RLENGTH); text = substr(text, RSTART + RLENGTH); gsub(/[^0-9]/, "", found)
                if (!(found in is_known)) { print found " is no such number of include/monitor.h, in " $0; bad = 1 }
            }
        }
        END { exit bad }'
}
# where a page speaks of stack, the numbers from 100 on are the header's; where it says 1,000 bytes or more, that is a state or a stack
# shellcheck disable=SC2046
stack_in_pages() { figures '(^|[^a-z])stack([^a-z]|$)' '[0-9][0-9][0-9]+' $(stack_figures); }
# shellcheck disable=SC2046
bytes_in_pages() { figures bytes '[0-9][0-9][0-9][0-9]+ bytes' $(state_size) $(stack_figures); }

[ -f "$archive" ] || { printf 'no archive at %s: ./archive writes it\n0 passed, 1 failed\n' "$archive"; exit 1; }
need nm binutils || { printf 'no nm, and it cannot be installed\n0 passed, 1 failed\n'; exit 1; }

compared 'calls: the archive and the functions marked as exported' same "$archive" linked "$sources" marked_names
compared 'calls: the archive and the header' same "$archive" linked "$header" declared_names
compared "calls: the archive and README's table" same "$archive" linked README.md readme_names
compared 'calls: the archive and the table of contracts' same "$archive" linked docs/proofs.md proofs_names
compared 'calls: each contract stands in the file that the table gives' contracts_stand
compared 'calls: the archive and what demand 1 lists' same "$archive" linked "$demand1" demanded_names
compared 'calls: the archive and what demand 1 states' same "$archive" linked "$demand1" stated
compared 'calls: the archive and the Rust declarations' same "$archive" linked "$rust" imported_names
compared 'calls: the archive and what the Rust program calls' same "$archive" linked second called_from_rust
compared 'calls: the archive and the C by hand' same "$archive" linked "$hand" by_hand_names
compared 'calls: the archive and what is compared with the C by hand' same "$archive" linked "$compare" compared_of_engine
compared 'calls: the archive and what of the C by hand is compared' same "$archive" linked "$compare" compared_of_hand
compared 'calls: the archive and the C tests' same "$archive" linked tests/c called_from_c
compared 'calls: the archive and every call that a page or a header names' same "$archive" linked "${pages[*]} include" spoken_of

compared 'parameters: the functions marked as exported and the header' same "$sources" marked "$header" declared
compared 'parameters: the functions marked as exported and the Rust declarations' same "$sources" marked "$rust" imported
compared 'parameters: the header and the C by hand' same "$header" declared "$hand" by_hand

compared 'refusals: the header and its texts' in_order "$header" refusal_names "$texts" text_names
compared "refusals: the header and README's table" same "$header" refusal_numbers_alone README.md readme_numbers
compared 'refusals: the header and the Rust program' in_order "$header" refusal_numbers "$refusals" rust_numbers
compared 'refusals: the header and demand 1' same "$header" refusal_numbers_alone "$demand1" demanded_numbers
compared 'refusals: the header and the test of the texts' in_order "$header" refusal_numbers tests/c/text.c text_test_numbers
compared 'refusals: the header and the C tests, by name' same "$header" refusal_names 'tests/c (text.c aside)' named_in_c
compared 'refusals of each call, in order: demand 1 and the header' same "$demand1" demanded "$header" returned
compared 'refusals of each call: the header and the C by hand' same "$header" returned_sets "$compare" met_sets

compared 'stack: the archive and the figures in the header' same "$archive" stack_wanted "$header" stack_names
compared "stack: each call's comment names its own figure" same "$archive" stack_own "$header" stack_commented
compared 'stack: the header and what is measured' same "$header" stack_names "$stack" stack_measured
compared 'stack: what is measured and what it is compared with' in_order "enum call of $stack" stack_measured "stated of $stack" stack_compared
compared 'stack: the header and the pages' stack_in_pages
compared 'sizes: the header and the pages, from 1,000 bytes on' bytes_in_pages
printf '%d passed, %d failed\n' "$passed" "$failed"
[ "$failed" -eq 0 ]
