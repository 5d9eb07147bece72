# cli_tools.sh: what the tests of the command-line program have in common. They are run in a directory of their own that has the
# program and the example module. With STOP set, the first failure ends them.
#
#   . cli_tools.sh    with the arguments PROGRAM EXAMPLE; EXAMPLE is the module that cli/example.c makes
# shellcheck shell=sh
set -u
export LC_ALL=C
work=$(mktemp -d)
trap 'rm -rf "$work"' EXIT
cp "$1" "$work/program"
cp "$2" "$work/example.xm"
chmod 755 "$work" "$work/program"
chmod 644 "$work/example.xm"
cd "$work" || exit 2
passed=0 failed=0 skipped=0

# run COMMAND...: its exit status goes to $status, what it says to the files said and complained.
run() {
    status=0
    "$@" >said 2>complained || status=$?
}

# A program that waits for what never comes has failed.
program() { timeout 10 ./program "$@"; }
fiddlemarsh() { run program "$@"; }

# ok DESCRIPTION COMMAND...: the command must succeed.
ok() {
    description=$1
    shift
    if "$@"; then
        passed=$((passed + 1))
        return
    fi
    failed=$((failed + 1))
    echo "FAILED: $description (exit status $status)"
    sed 's/^/  said: /' said
    sed 's/^/  complained: /' complained
    [ -z "${STOP:-}" ] || exit 1
}

skip() {
    skipped=$((skipped + $1))
    echo "skipped: $2"
}

# The last line: the name of the tests, and how many passed.
verdict() {
    echo "$1: $passed passed, $failed failed$([ $skipped -eq 0 ] || echo ", $skipped skipped")"
    [ "$failed" -eq 0 ]
}

exits() { [ "$status" -eq "$1" ]; }
says() { grep -q -e "$1" said; }
complains() { grep -q -e "$1" complained; }
says_only() { [ "$(cat said)" = "$1" ]; }
complains_only() { [ "$(cat complained)" = "$1" ]; }
says_nothing() { [ ! -s said ] && [ ! -s complained ]; }
lines() { [ "$(wc -l <said)" -eq "$1" ]; }
is_same() { cmp -s "$1" "$2"; }
is_missing() { [ ! -e "$1" ]; }
no_half_file() { [ -z "$(find . -name '.fiddlemarsh*')" ]; }

# A copy of the example, or of another file, with one byte changed: with_byte NAME PLACE OCTAL [FILE]
with_byte() {
    cp "${4:-example.xm}" "$1"
    # shellcheck disable=SC2059
    printf "\\$3" | dd of="$1" bs=1 seek="$2" conv=notrunc 2>/dev/null
}

# Somebody whom permissions bind: 'somebody GROUPS COMMAND...', where GROUPS are further groups of theirs.
if [ "$(id -u)" -eq 0 ]; then
    somebody() {
        groups=$1
        shift
        if [ -n "$groups" ]; then groups=--groups=$groups; else groups=--clear-groups; fi
        setpriv --reuid=65534 --regid=65534 "$groups" "$@"
    }
else
    somebody() {
        shift
        "$@"
    }
fi
as_somebody() { run somebody '' ./program "$@"; }
permissions_bind() { somebody '' ./program --help >/dev/null 2>&1; }
