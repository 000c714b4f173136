# What the test scripts share: a folder to work in, a count, and tools that are installed where they are missing. Read by `.`, at the top of the repository.
passed=0
failed=0
scratch=$(mktemp -d)
trap 'rm -rf "$scratch"' EXIT

# try NAME COMMAND..: counts whether the command ends with status 0, and shows what it said if it does not
try() {
    local name=$1
    shift
    if "$@" >"$scratch/log" 2>&1; then
        passed=$((passed + 1))
    else
        failed=$((failed + 1))
        cat "$scratch/log"
        printf 'FAILED: %s\n' "$name"
    fi
}

# need COMMAND PACKAGE: installs the package where the command is missing
need() {
    command -v "$1" >/dev/null || apt-get install -y "$2" >/dev/null || { apt-get update >/dev/null && apt-get install -y "$2" >/dev/null; }
}
