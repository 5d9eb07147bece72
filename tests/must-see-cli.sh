#!/bin/sh
# must-see-cli.sh: puts each deliberate fault of must-see-cli/ into a copy of the command-line program or the header, one at a time,
# and lets the test run that is named in it. The test must notice every one. The last line is 'N deliberate faults noticed'.
#
#   must-see-cli.sh BUILD LIBRARY EXAMPLE     CC, LDFLAGS, WRAP, HOST_CC and JOBS (2) are taken from the environment
#
# A fault is a file of lines: what it is, 'by:' (the test), 'file:', and pairs of 'old:' (one whole line of that file) and 'new:'.
set -eu
cd "$(dirname "$0")"

# Puts the fault into a file; fails if an old line is not there exactly once.
put_fault() {
    awk 'NR == FNR { if (sub(/^old: /, "")) old[++count] = $0; else if (sub(/^new: /, "")) new[count] = $0; next }
        { for (i = 1; i <= count; i++) if ($0 == old[i]) { $0 = new[i]; found[i]++; break } print }
        END { for (i = 1; i <= count; i++) if (found[i] != 1) exit 1 }' "$1" "$2" >"$2.faulty" && mv "$2.faulty" "$2"
}

# The test, run on the copy: only what has the fault is compiled again.
run_test() {
    copy=$1 file=$2 by=$3 library=$4 example=$5
    if [ "$by" = header_test ]; then
        $HOST_CC -std=c99 -w "$copy/tests/header_test.c" -o "$copy/program"
        "$copy/program" ../README.md
        return
    fi
    part=faulty-cli-$(basename "$file" .c).o
    $CC -std=c11 -w -c "$copy/$file" -o "$copy/$part"
    set -- "$copy/$part"
    for object in "$build"/faulty-cli-*.o; do
        [ "$object" = "$build/$part" ] || set -- "$@" "$object"
    done
    # shellcheck disable=SC2086  # lists
    $CC $LDFLAGS $WRAP "$@" "$library" -o "$copy/program"
    case $by in
    cli) ./cli.sh "$copy/program" "$example" ../README.md ;;
    cli_press | cli_same | cli_samples | cli_convert) "./$by.sh" "$copy/program" "$example" "$copy/program" ;;
    esac
}

see_one() {
    edit=$1 build=$2
    name=$(basename "$edit" .edit)
    copy=$build/faulty-cli-$name
    by=$(sed -n 's/^by: //p' "$edit") file=$(sed -n 's/^file: //p' "$edit")
    rm -rf "$copy"
    mkdir -p "$copy/tests" "$copy/cli"
    cp -r ../include "$copy"
    cp ../cli/*.[ch] "$copy/cli"
    cp header_test.c "$copy/tests"
    put_fault "$edit" "$copy/$file" || { echo "NOT PUT IN: $name: an old line is not there exactly once"; return 1; }
    status=0
    STOP=yes run_test "$copy" "$file" "$by" "$3" "$4" >"$copy/said" 2>&1 || status=$?
    if [ "$status" -ne 1 ] || ! grep -q -e '^FAILED' -e 'does not hold' "$copy/said"; then
        echo "NOT NOTICED by $by (exit $status): $name: $(sed -n 's/^# //p' "$edit")"
        return 1
    fi
    printf '  %-32s %s: %s\n' "$name" "$by" "$(sed -n -e 's/^FAILED: //p' -e '/does not hold/p' "$copy/said" | head -n 1)"
    rm -rf "$copy"
}

if [ "$1" = --one ]; then
    see_one "$5" "$2" "$3" "$4"
    exit
fi

mkdir -p "$1"
build=$(cd "$1" && pwd)
for part in failing.c ../cli/*.c; do
    [ "$part" = ../cli/example.c ] || $CC -std=c11 -w -c "$part" -o "$build/faulty-cli-$(basename "$part" .c).o"
done
count=$(find must-see-cli -name '*.edit' | wc -l)
find must-see-cli -name '*.edit' | sort | xargs -n 1 -P "${JOBS:-2}" ./must-see-cli.sh --one "$build" "$(realpath "$2")" "$(realpath "$3")"
echo "must-see-cli: $count deliberate faults noticed"
