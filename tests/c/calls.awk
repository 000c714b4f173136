# Of the functions that some calls reach, prints those that call themselves, directly or through others, by name:
#
#     objdump -dr --no-show-raw-insn ARCHIVE | awk -v calls='CALL CALL ..' -f calls.awk
#
# A function calls what a call names in its own section, and whatever a relocation in it names: a jump to another function counts, and so does an
# address that is only taken. Where that cannot be seen (a call through a register, a place within a section of many functions, a call that
# the archive does not have) it says so and ends with status 2.

function name_in(text) {
    sub(/^\.text\./, "", text)
    sub(/[-+]0x[0-9a-f]+$/, "", text)
    return text
}

function not_seen(what) {
    print "not seen: " what >"/dev/stderr"
    unseen = 1
}

/^[0-9a-f]+ <.*>:$/ {
    caller = substr($0, index($0, "<") + 1)
    sub(/>:$/, "", caller)
    functions[caller]
    next
}

$2 ~ /^call/ && $NF ~ /^<.*>$/ && $NF !~ /\+0x/ { callees[caller, substr($NF, 2, length($NF) - 2)] }

$2 ~ /^(call|jmp|notrack)/ && /\*/ { not_seen($0 " in " caller) }

$2 ~ /^R_X86_64_/ {
    callees[caller, name_in($3)]
    if ($3 ~ /^\.text[-+]/) not_seen($3 " in " caller)
}

END {
    for (via in functions)
        for (from in functions)
            if ((from, via) in callees)
                for (to in functions)
                    if ((via, to) in callees) callees[from, to]
    count = split(calls, from_outside, " ")
    if (count == 0) not_seen("no call is named")
    for (i = 1; i <= count; i++) {
        if (!(from_outside[i] in functions)) not_seen(from_outside[i])
        reached[from_outside[i]]
        for (to in functions)
            if ((from_outside[i], to) in callees) reached[to]
    }
    for (name in reached)
        if ((name, name) in callees) print name
    exit unseen ? 2 : 0
}
