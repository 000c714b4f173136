#!/usr/bin/env bash
# The listing program in its surroundings: what `./listing` does with files, options, ends that fail and ends that are slow. Each line says what was
# tested; the last line is 'N passed, M failed'. It needs the built program (`rt run` in crates/listing) and gcc.
set -uo pipefail
cd "$(dirname "${BASH_SOURCE[0]}")/.." || exit 2
scratch=$(mktemp -d)
trap 'rm -rf "$scratch"' EXIT
passed=0
failed=0

# test_of NAME COMMAND..: the command's status decides. None of them may wait for ever.
test_of() {
    local name=$1
    shift
    if "$@"; then
        passed=$((passed + 1))
        printf 'ok      %s\n' "$name"
    else
        failed=$((failed + 1))
        printf 'FAILED  %s\n' "$name"
    fi
}

# run STATUS OUT-LINES ERR-LINES COMMAND..: the command ends with this status and writes so many lines to each end ($scratch/out and $scratch/err)
run() {
    local wanted="$1 $2 $3" got
    shift 3
    timeout 60 "$@" >"$scratch/out" 2>"$scratch/err"
    got="$? $(wc -l <"$scratch/out") $(wc -l <"$scratch/err")"
    if [ "$got" = "$wanted" ]; then return 0; fi
    printf 'status and lines %s, not %s: %s\n' "$got" "$wanted" "$*"
    return 1
}
says() { grep -qF -- "$1" "$scratch/$2" || { printf 'it does not say: %s\n' "$1"; return 1; }; }

scenario=examples/scenarios/cut_short
program=crates/listing/out/listing
stored() { run 0 4 0 "$@" && diff "$scenario.printed" "$scratch/out"; }

# ---- how it is called

by_name() { stored ./listing "$scenario"; }
by_input() { stored ./listing <"$scenario"; }
by_link() {
    ln -s "$PWD/listing" "$scratch/first" && ln -s first "$scratch/second" && stored "$scratch/second" "$PWD/$scenario"
}
by_link_elsewhere() { (cd / && "$scratch/second" "$OLDPWD/$scenario") | diff "$scenario.printed" -; }
help_text() {
    local word
    timeout 60 ./listing --help >"$scratch/out" 2>"$scratch/err" && [ ! -s "$scratch/err" ] || return 1
    for word in 'set OWN DRIFT READING EPOCH' 'age READING' 'get LEAST' 'ask LIMIT' fewest ok refused between open contradicted 'fewest over 4' 'bad line'; do
        says "$word" out || return 1
    done
}
wrong_option() { run 2 0 1 ./listing --fast && says 'usage: listing' err; }
two_files() { run 2 0 1 ./listing "$scenario" "$scenario" && says 'usage: listing' err; }
no_file() { run 2 0 1 ./listing "$scratch/none" && says "$scratch/none" err; }

test_of 'a file by its name' by_name
test_of 'a file as standard input' by_input
test_of 'through two symbolic links' by_link
test_of 'through a link from another folder' by_link_elsewhere
test_of '--help has the commands and the answers' help_text
test_of 'a wrong option: usage, status 2' wrong_option
test_of 'two files: usage, status 2' two_files
test_of 'a file that is not there: status 2' no_file

# ---- ends that fail: a line on standard error, and a status

cannot_write='listing: cannot write its output'
cannot_read='listing: cannot read its input'
full_output() { run 1 0 1 bash -c "./listing $scenario >/dev/full" && says "$cannot_write" err; }
closed_output() { run 1 0 1 bash -c "./listing $scenario >&-" && says "$cannot_write" err; }
folder_input() { run 1 0 1 ./listing / && says "$cannot_read" err; }
folder_as_input() { run 1 0 1 ./listing </ && says "$cannot_read" err; }
closed_input() { run 1 0 1 bash -c './listing <&-' && says "$cannot_read" err; }
write_only_input() { run 1 0 1 bash -c "./listing 0>$scratch/only" && says "$cannot_read" err; }
both_closed() { run 1 0 1 bash -c './listing <&- >&-' && says "$cannot_read" err; }
program_full() { run 0 0 1 bash -c "$program <$scenario >/dev/full" && says "$cannot_write" err; }
program_folder() { run 0 0 1 $program </ && says "$cannot_read" err; }

test_of 'a full output' full_output
test_of 'a closed output' closed_output
test_of 'a folder by its name' folder_input
test_of 'a folder as input' folder_as_input
test_of 'a closed input' closed_input
test_of 'an input that is open for writing only' write_only_input
test_of 'both closed' both_closed
test_of 'the program itself, a full output' program_full
test_of 'the program itself, a folder as input' program_folder

# ---- long input, and ends that are slow

lines=40000
seq -f 'ask %.0f' "$lines" >"$scratch/long"
long_input() { run 0 "$lines" 0 ./listing "$scratch/long" && [ "$(sort -u "$scratch/out")" = 'bad line' ]; }
head_of_long() {
    timeout 60 ./listing "$scratch/long" 2>"$scratch/err" | head -1 >"$scratch/out"
    [ "${PIPESTATUS[0]}" -ne 0 ] && [ "$(cat "$scratch/out")" = 'bad line' ] && [ ! -s "$scratch/err" ]
}
# where nobody is told by a signal that the reader has gone
reader_gone() {
    (
        trap '' PIPE
        timeout 60 ./listing "$scratch/long" 2>"$scratch/err" | head -1 >"$scratch/out"
        [ "${PIPESTATUS[0]}" -eq 1 ]
    ) && [ "$(cat "$scratch/out")" = 'bad line' ] && says "$cannot_write" err
}
slow_ends() {
    gcc -std=c11 -Wall -Wextra -Werror -O2 tests/slow_ends.c -o "$scratch/slow_ends" &&
        run 0 "$lines" 0 "$scratch/slow_ends" $program <"$scratch/long" && [ "$(sort -u "$scratch/out")" = 'bad line' ]
}

test_of "$lines lines, as many answers" long_input
test_of 'only the first answer is read' head_of_long
test_of 'the same with the signal ignored' reader_gone
test_of 'input and output slow, and neither blocks' slow_ends

# ---- without the program: a folder of its own, and a prover that only pretends

elsewhere=$scratch/elsewhere
mkdir -p "$elsewhere/crates/listing" "$elsewhere/bin" && cp listing "$elsewhere/listing" && cp crates.txt "$elsewhere/crates.txt"
plain=$(dirname "$(command -v bash)"):/usr/bin:/bin
no_kit() { run 2 0 1 env PATH="$plain" "$elsewhere/listing" && says 'no rt on PATH' err; }

# it proves a crate and waits, or goes on to build what it is asked for
cat >"$elsewhere/bin/rt" <<'RT'
#!/usr/bin/env bash
echo $$ >"$PRETEND/pid"
echo 'logic=proved functions=1'
sleep "$PRETEND_SECONDS"
if [ -n "$PRETEND_FAILS" ]; then echo 'rt: predicates not proved'; exit 1; fi
mkdir -p out && printf '#!/bin/sh\nexec cat\n' >out/listing && chmod +x out/listing
RT
chmod +x "$elsewhere/bin/rt"
# where the tests were started in the background, interruptions are ignored, and a shell cannot undo that for itself
pretending=(env --default-signal=INT PATH="$elsewhere/bin:$plain" PRETEND="$elsewhere")
not_proved() {
    run 2 0 2 "${pretending[@]}" PRETEND_SECONDS=0 PRETEND_FAILS=yes "$elsewhere/listing" &&
        says 'predicates not proved' err && [ ! -e "$elsewhere/crates/listing/out" ]
}
interrupted() {
    local pid prover try
    rm -f "$elsewhere/pid"
    set -m
    "${pretending[@]}" PRETEND_SECONDS=50 PRETEND_FAILS= "$elsewhere/listing" </dev/null >/dev/null 2>&1 &
    pid=$!
    set +m
    for try in {1..100}; do [ -s "$elsewhere/pid" ] && break || sleep 0.1; done
    prover=$(cat "$elsewhere/pid") && kill -0 "$prover" && kill -INT "$pid" || return 1
    for try in {1..100}; do kill -0 "$prover" 2>/dev/null || break; sleep 0.1; done
    wait "$pid"
    [ $? -eq 130 ] && ! kill -0 "$prover" 2>/dev/null
}
progress() {
    gcc -std=c11 -Wall -Wextra -Werror -O2 tests/terminal.c -o "$scratch/terminal" || return 1
    timeout 60 "${pretending[@]}" PRETEND_SECONDS=2 PRETEND_FAILS= "$scratch/terminal" "$elsewhere/listing" <"$scenario" >"$scratch/out" &&
        says '1 of ' out && says ' crates, 1 s' out
}

test_of 'without the kit: one sentence' no_kit
test_of 'a proof that fails is shown, status 2' not_proved
test_of 'an interruption stops the prover' interrupted
test_of 'a terminal shows the progress' progress

printf '%d passed, %d failed\n' "$passed" "$failed"
[ "$failed" -eq 0 ]
