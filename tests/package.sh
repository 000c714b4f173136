#!/usr/bin/env bash
# The package: made in two copies of these sources in different folders, once with the archive built anew there and once with the one of target/, it
# is the same bytes; no link in it leads nowhere; installed below a DESTDIR, README's C example compiles against it by pkg-config. The last line is
# 'N passed, M failed'.
set -uo pipefail
cd "$(dirname "$0")/.." || exit 2
archive=$PWD/target/staticlib/libmonitor.a
. tests/counted.sh

# copy FOLDER: the files of the repository, with the time of the copying
copy() {
    mkdir -p "$1" && git ls-files -z --cached --others --exclude-standard | xargs -0 cp --parents -t "$1"
}

# the package of a copy, each with settings of its own
made_anew() {
    (cd "$1" && umask 077 && TZ=Asia/Tokyo LC_ALL=C.UTF-8 ./package)
}

made_of() {
    (cd / && umask 000 && TZ=America/Lima LC_ALL=C "$1/package" "$2")
}

# the names, each with its mode, owner and time
listed() {
    local name=monitor-$version
    diff - <(TZ=UTC tar --numeric-owner -tvf "$package" | awk '{ print $1, $2, $4, $5, $6 }') <<END
drwxr-xr-x 0/0 1970-01-01 00:00 $name/
-rw-r--r-- 0/0 1970-01-01 00:00 $name/BUILD
-rw-r--r-- 0/0 1970-01-01 00:00 $name/CHANGELOG.md
-rw-r--r-- 0/0 1970-01-01 00:00 $name/Makefile
-rw-r--r-- 0/0 1970-01-01 00:00 $name/README.md
drwxr-xr-x 0/0 1970-01-01 00:00 $name/docs/
-rw-r--r-- 0/0 1970-01-01 00:00 $name/docs/layouts.md
-rw-r--r-- 0/0 1970-01-01 00:00 $name/docs/operating.md
drwxr-xr-x 0/0 1970-01-01 00:00 $name/examples/
drwxr-xr-x 0/0 1970-01-01 00:00 $name/examples/first/
-rw-r--r-- 0/0 1970-01-01 00:00 $name/examples/first/first.c
drwxr-xr-x 0/0 1970-01-01 00:00 $name/include/
-rw-r--r-- 0/0 1970-01-01 00:00 $name/include/monitor.h
-rw-r--r-- 0/0 1970-01-01 00:00 $name/include/monitor_text.h
drwxr-xr-x 0/0 1970-01-01 00:00 $name/lib/
-rw-r--r-- 0/0 1970-01-01 00:00 $name/lib/libmonitor.a
drwxr-xr-x 0/0 1970-01-01 00:00 $name/lib/pkgconfig/
-rw-r--r-- 0/0 1970-01-01 00:00 $name/lib/pkgconfig/monitor.pc
END
}

# the package says which kit it was proved with, for which machine, and which archive it has
build_says() {
    local said=$scratch/unpacked/monitor-$version/BUILD
    grep -qF "$(rt version)" "$said" && grep -qF 'x86-64 alone' "$said" && grep -qF "$(sha256sum "$archive" | cut -d' ' -f1)" "$said"
}

# README names this kit and this package
readme_says() {
    grep -qF "$(rt version)" README.md && grep -qF "dist/monitor-$version.tar" README.md
}

# section PAGE HEADING: the lines of this section
section() {
    awk -v heading="## $2" '/^```/ { code = !code } !code && /^## / { on = $0 == heading } on' "$1"
}
# sections SOURCE PAGE HEADING..: these sections of one page stand in the other, line by line
sections() {
    local source=$1 page=$2 heading
    shift 2
    for heading in "$@"; do
        [ "$(section "$source" "$heading" | wc -l)" -gt 10 ] && diff <(section "$source" "$heading") <(section "$page" "$heading") || return 1
    done
}

# a first page that asks for a section which README does not have is not made
missing_section_is_refused() {
    local said
    sed -i 's/^## What does a refusal tell me to do?$/## Refusals/' "$scratch/b/README.md"
    ! said=$("$scratch/b/package" "$archive" 2>&1) && grep -qF 'asks for a section that README.md has not' <<<"$said"
}

another_kit_is_refused() {
    sed 's/rattle logic=/rattle LOGIC=/' "$archive" >"$scratch/other.a"
    ! "$scratch/b/package" "$scratch/other.a"
}

installed() {
    diff - <(cd "$1" && find . -type f | sort) <<END
./include/monitor.h
./include/monitor_text.h
./lib/libmonitor.a
./lib/pkgconfig/monitor.pc
./share/doc/monitor/BUILD
./share/doc/monitor/CHANGELOG.md
./share/doc/monitor/README.md
./share/doc/monitor/docs/layouts.md
./share/doc/monitor/docs/operating.md
./share/doc/monitor/examples/first/first.c
END
}

# example COMPILER ROOT: the C example of the README that was installed, by the flags that pkg-config gives
example() {
    local flags
    awk '/^```c$/ { on = 1; next } /^```$/ { on = 0 } on' "$2/share/doc/monitor/README.md" >"$scratch/first.c"
    flags=$(PKG_CONFIG_PATH=$2/lib/pkgconfig pkg-config --cflags --libs monitor) || return 1
    # shellcheck disable=SC2086
    (cd "$scratch" && "$1" -std=c11 -Wall -Wextra -Wpedantic -Werror first.c $flags -o first && ./first >answer) || return 1
    diff examples/first/expected "$scratch/answer"
}

version_says() {
    diff <(echo "$version") <(PKG_CONFIG_PATH=$1/lib/pkgconfig pkg-config --modversion monitor)
}

[ -f "$archive" ] || { printf 'no archive at %s: ./archive writes it\n0 passed, 1 failed\n' "$archive"; exit 1; }
for tool in gcc:gcc clang:clang pkg-config:pkg-config make:make; do
    need "${tool%:*}" "${tool#*:}" || { printf 'no %s, and it cannot be installed\n0 passed, 1 failed\n' "${tool%:*}"; exit 1; }
done
version=$(awk '$2 == "MONITOR_VERSION" { print $3 }' include/monitor.h)
package=$scratch/b/dist/monitor-$version.tar
root=$scratch/root/opt/pool

try 'a copy' copy "$scratch/a folder/elsewhere/a"
try 'the package, its archive built anew' made_anew "$scratch/a folder/elsewhere/a"
try 'another copy' copy "$scratch/b"
sleep 1
try 'the package of the archive at hand' made_of "$scratch/b" "$archive"
try 'both are the same bytes' cmp "$scratch/a folder/elsewhere/a/dist/monitor-$version.tar" "$package"
try 'its files' listed
try 'an archive of another kit is refused' another_kit_is_refused
mkdir "$scratch/unpacked"
try 'it is unpacked' tar -xf "$package" -C "$scratch/unpacked"
try 'it says what it was built with' build_says
try "its first page has README's calls and refusals" sections README.md "$scratch/unpacked/monitor-$version/README.md" 'How do I use it from C?' \
    'What does a refusal tell me to do?'
try 'no link in it leads nowhere' bash tests/links.sh "$scratch/unpacked/monitor-$version"
try 'a section that README has not is missed' missing_section_is_refused
try 'README says so too' readme_says
try 'it is installed' make -C "$scratch/unpacked/monitor-$version" install PREFIX=/opt/pool DESTDIR="$scratch/root"
try 'what is installed' installed "$root"
try 'no link in what is installed leads nowhere' bash tests/links.sh "$root/share/doc/monitor"
try 'its version by pkg-config' version_says "$root"
try "README's example by gcc" example gcc "$root"
try "README's example by clang" example clang "$root"
try 'it is removed' make -C "$scratch/unpacked/monitor-$version" uninstall PREFIX=/opt/pool DESTDIR="$scratch/root"
try 'nothing is left' test -z "$(find "$scratch/root" -type f)"
printf '%d passed, %d failed\n' "$passed" "$failed"
[ "$failed" -eq 0 ]
