#!/bin/sh
# must-see.sh: puts each deliberate fault of must-see/ into a copy of the reference, one at a time, and lets the comparison run
# on it. The comparison must notice every one. The last line is 'N deliberate faults noticed'.
#
#   must-see.sh BUILD     BUILD holds the comparison's object files; CC, CFLAGS and JOBS (2) are taken from the environment
#
# A fault is a file of four lines: what it is, 'file:', 'old:' (one whole line of that file) and 'new:'.
set -eu
cd "$(dirname "$0")"
CC=${CC:-cc}
CFLAGS=${CFLAGS:--O2}

# Writes the file with the fault in it; fails if the old line is not there exactly once.
put_fault() {
    OLD=$(sed -n 's/^old: //p' "$1") NEW=$(sed -n 's/^new: //p' "$1") \
        awk '$0 == ENVIRON["OLD"] { print ENVIRON["NEW"]; found++; next } { print } END { exit found != 1 }' reference.c >"$2"
}

see_one() {
    edit=$1 build=$2
    name=$(basename "$edit" .edit)
    copy=$build/must-see-$name
    put_fault "$edit" "$copy.c" || { echo "NOT PUT IN: $name: its old line is not in reference.c exactly once"; return 1; }
    # shellcheck disable=SC2086  # CFLAGS is a list
    $CC -std=c11 $CFLAGS -O1 -w -I. -DREFERENCE_COPY="\"$copy.c\"" faulty.c "$build"/must-see-*.o -o "$copy"
    status=0
    "$copy" --dump /dev/null >/dev/null 2>"$copy.said" || status=$?
    if [ "$status" -ne 1 ] || ! grep -q '^DIFFERENCE' "$copy.said"; then
        echo "NOT NOTICED (exit $status): $name: $(sed -n 's/^# //p' "$edit")"
        return 1
    fi
    printf '  %-32s %s\n' "$name" "$(sed -n 's/^  group: \(.*\), call number.*/\1/p' "$copy.said")"
    rm -f "$copy" "$copy.c" "$copy.said"
}

if [ "$1" = --one ]; then
    see_one "$3" "$2"
    exit
fi

mkdir -p "$1"
build=$(cd "$1" && pwd)
for part in compare lent modules reference; do
    # shellcheck disable=SC2086
    $CC -std=c11 $CFLAGS -c "$part.c" -o "$build/must-see-$part.o"
done
count=$(find must-see -name '*.edit' | wc -l)
find must-see -name '*.edit' | sort | CC=$CC CFLAGS=$CFLAGS xargs -n 1 -P "${JOBS:-2}" ./must-see.sh --one "$build"
echo "must-see: $count deliberate faults noticed"
