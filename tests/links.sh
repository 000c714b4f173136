#!/usr/bin/env bash
# The links of the pages (.md): each leads to a file or folder that is there, and its #anchor to a heading. The last line is 'N passed, M failed'.
#
#     tests/links.sh            the pages of the repository, and what README and docs/architecture.md have to keep beside that
#     tests/links.sh FOLDER     the pages of a folder, an unpacked package say, with no link that leads out of it
set -uo pipefail
whole=yes
root=
if [ $# -gt 0 ]; then
    whole=
    root=$(realpath -- "$1") || exit 2
fi
cd "$(dirname "$0")/.." || exit 2
root=${root:-$PWD}
export LC_ALL=C.UTF-8
. tests/counted.sh

# the files below the root, and their folders; of the repository those that a clone has
if [ -n "$whole" ]; then
    git ls-files --cached --others --exclude-standard
else
    (cd "$root" && find . -type f | sed 's|^\./||')
fi | while IFS= read -r file; do [ -e "$root/$file" ] && printf '%s\n' "$file"; done | sort -u >"$scratch/files"
{
    cat "$scratch/files"
    echo .
    while IFS= read -r file; do
        while file=$(dirname "$file") && [ "$file" != . ]; do printf '%s\n' "$file"; done
    done <"$scratch/files" | sort -u
} >"$scratch/places"

# ---- the links of a page

# a page without its blocks of code
prose() {
    awk '/^ *```/ { code = !code; next } !code' "$root/$1"
}

# where its links lead: [text](target) and [text]: target; what stands in backquotes is no link
targets() {
    prose "$1" | sed 's/`[^`]*`//g' | grep -oE '\]\([^)]*\)|^\[[^]]*\]: *[^ ]+' | sed -E 's/^\]\(//; s/\)$//; s/^\[[^]]*\]: *//; s/ ".*"$//'
}

# the anchors of its headings: small letters, digits, - and _, a - for each space, and a number where a heading comes again
anchors() {
    prose "$1" | sed -nE 's/^#+ +//p' | sed -E 's/\]\([^)]*\)//g; s/[^[:alnum:] _-]//g; s/.*/\L&/; s/ /-/g' |
        awk '{ print $0 (seen[$0]++ ? "-" seen[$0] - 1 : "") }'
}

# leads PAGE TARGET: it leads somewhere, or a sentence says where it does not
leads() {
    local page=$1 target=$2 file anchor=
    case $target in http://* | https://* | mailto:*) return 0 ;; esac
    case $target in *'#'*) anchor=${target#*#} ;; esac
    file=${target%%#*}
    if [ -z "$file" ]; then
        file=$page
    else
        file=$(realpath -ms --relative-to="$root" -- "$root/$(dirname "$page")/$file")
    fi
    if ! grep -qxF -- "$file" "$scratch/places"; then
        printf '%s: no file or folder: %s\n' "$page" "$target"
        return 1
    fi
    if [ -n "$anchor" ]; then
        case $file in
        *.md) ;;
        *)
            printf '%s: an anchor, but no page: %s\n' "$page" "$target"
            return 1
            ;;
        esac
        if ! anchors "$file" | grep -qxF -- "$anchor"; then
            printf '%s: no such heading: %s\n' "$page" "$target"
            return 1
        fi
    fi
}

links=0
all_lead() {
    local target bad=0
    while IFS= read -r target; do
        links=$((links + 1))
        leads "$1" "$target" || bad=$((bad + 1))
    done < <(targets "$1")
    [ "$bad" -eq 0 ]
}

while IFS= read -r page; do
    case $page in *.md) try "the links of $page" all_lead "$page" ;; esac
done <"$scratch/files"
if [ -z "$whole" ]; then
    try 'there are links' test "$links" -gt 0
    printf '%d links\n%d passed, %d failed\n' "$links" "$passed" "$failed"
    [ "$failed" -eq 0 ]
    exit
fi
try 'there are links' test "$links" -gt 100

# ---- that links are found out which lead nowhere

# page TEXT..: a folder with one page, in which these lines stand behind links that are right, and another page docs/other.md
page() {
    rm -rf "$scratch/folder" && mkdir -p "$scratch/folder/docs" || return 1
    printf '%s\n\n' '# Other' '## Two `words`: here' '## Twice' '## Twice' >"$scratch/folder/docs/other.md"
    printf '%s\n' '# One' '[two](docs/other.md#two-words-here) [twice](docs/other.md#twice-1) [a folder](docs) [itself](#one)' "$@" >"$scratch/folder/page.md"
}
leads_all() { page "$@" && bash tests/links.sh "$scratch/folder"; }
# found_out SENTENCE TEXT..: it fails, and this is what it says
found_out() {
    local sentence=$1 said
    shift
    page "$@"
    ! said=$(bash tests/links.sh "$scratch/folder") && grep -qxF -- "$sentence" <<<"$said" || { printf '%s\n' "$said"; return 1; }
}
try 'links that lead somewhere' leads_all '```' '[in code](none.md)' '```' '`[in code](none.md)` [the web](https://example.org/none)'
try 'no file' found_out 'page.md: no file or folder: none.md' '[x](none.md)'
try 'no file, among others in a line' found_out 'page.md: no file or folder: none.md' '[x](docs) [`x`](none.md) [x](docs/other.md)'
try 'no file, behind a reference' found_out 'page.md: no file or folder: none.md' '[x]: none.md'
try 'no heading' found_out 'page.md: no such heading: docs/other.md#three' '[x](docs/other.md#three)'
try 'no heading in the page itself' found_out 'page.md: no such heading: #two' '[x](#two)'
try 'no third heading' found_out 'page.md: no such heading: docs/other.md#twice-2' '[x](docs/other.md#twice-2)'
try 'an anchor in a folder' found_out 'page.md: an anchor, but no page: docs#one' '[x](docs#one)'
try 'out of the folder' found_out 'page.md: no file or folder: ../files' '[x](../files)'

# ---- what README and docs/architecture.md have to keep

short() { [ "$(wc -l <README.md)" -le 200 ] || { wc -l README.md; return 1; }; }

# rows HEADING: the rows of the tables below this heading of docs/architecture.md
rows() {
    awk -v heading="## $1" '/^## / { on = $0 == heading } on && /^\| / && !/^\| *(term|functions|crate) *\|/' docs/architecture.md
}

# defines FILE NAME: the file has a definition, a field or variant, a type or a function of this name
defines() {
    awk -v name="$2" '{ for (i = 1; i <= NF; i++) if ($i == name && ($(i + 1) == ":" || $(i - 1) ~ /^(record|data|struct|enum)$/)) found = 1 }
        index($0, "fn " name "(") || index($0, "fn " name "<") { found = 1 } END { exit !found }' "$1"
}

# names_defined HEADING: each name in a row is defined in a file that the row links
names_defined() {
    local row name file found bad=0 seen=0
    while IFS= read -r row; do
        while IFS= read -r name; do
            found=
            seen=$((seen + 1))
            while IFS= read -r file; do
                if [ -f "$file" ] && defines "$file" "$name"; then found=yes; fi
            done < <(grep -oE '\]\(\.\./[^)]*\)' <<<"$row" | sed -E 's|^\]\(\.\./||; s|\)$||')
            if [ -z "$found" ]; then
                printf '%s: defined in no file of its row\n' "$name"
                bad=$((bad + 1))
            fi
        done < <(grep -oE '`[^`]+`' <<<"$row" | tr -d '`')
    done < <(rows "$1")
    [ "$bad" -eq 0 ] && [ "$seen" -gt 30 ]
}

# a line for each crate of crates.txt, in its order, and for no other
each_crate() {
    diff <(sed -nE 's/^([a-z_]+)( staticlib)?:.*/\1/p' crates.txt) <(rows 'The crates' | sed -nE 's/^\| \[([a-z_]+)\]\(\.\.\/crates\/.*/\1/p')
}

# from README by two links to a rule: the glossary, and the file that it names
two_links() {
    local file
    targets README.md | grep -qxF 'docs/architecture.md#glossary' || { echo 'README does not lead to the glossary'; return 1; }
    file=$(rows Glossary | grep -F 'a tie goes to the earlier triple' | grep -oE '\]\(\.\./[^)]*\)' | sed -E 's|^\]\(\.\./||; s|\)$||' | head -1)
    [ -n "$file" ] && grep -qF '"the largest a − b + w .., the earlier on a tie"' "$file" || { printf 'not the rule: %s\n' "$file"; return 1; }
}

try 'README has at most 200 lines' short
try 'a line for each crate' each_crate
try 'the names of the glossary are defined where it says' names_defined Glossary
try 'the functions on the way are where it says' names_defined 'The functions on the way'
try "two links from README to 'a tie goes to the earlier triple'" two_links
printf '%d passed, %d failed\n' "$passed" "$failed"
[ "$failed" -eq 0 ]
