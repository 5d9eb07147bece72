#!/bin/sh
# cli_same.sh: the command-line program says which files are one song: by their pressed bytes and by no sum alone, in the order given,
# without keeping them all, and whatever happens to a file meanwhile. The last line is 'cli_same: N passed, 0 failed'.
#
#   cli_same.sh PROGRAM EXAMPLE FAILING     FAILING is the program with failing.c in it
failing_program=$(realpath "$3") || exit 2
# shellcheck source=tests/cli_tools.sh
. ./cli_tools.sh

cp "$failing_program" failing && chmod 755 failing
fiddlemarsh press example.xm pressed.xm

# The example again, as others would store it, and others that are not it. The example: header 336 bytes, three patterns of 9 + 1280
# with plain cells, an instrument; its module name is at 17, its tracker name at 38, its tempo at 76, and it plays 6 orders.
python3 - <<'END' || exit 2
from pathlib import Path

example, pressed = Path('example.xm').read_bytes(), Path('pressed.xm').read_bytes()
noise = bytes(range(1, 251)) * 3


def put(module, place, new):
    return module[:place] + bytes(new) + module[place + len(new):]


def write(name, module):
    Path(name).write_bytes(module)


# One song: a header of 1000 bytes, with noise behind the orders up to the first pattern; one pattern plain, the others packed
write('header.xm', put(example[:86], 60, (1000).to_bytes(4, 'little')) + noise[:250] + noise[:724] + example[336:])
write('plain.xm', pressed[:343] + example[343:345 + 1280] + pressed[345 + int.from_bytes(pressed[343:345], 'little'):])
write('behind.xm', pressed + noise)
# Other songs, each as long as the example when pressed
write('renamed.xm', put(example, 17, b'Marsh Lights'))
write('tracker.xm', put(example, 38, b'fiddlemarsh'))
write('tempo.xm', put(example, 76, [7]))
write('sample.xm', put(example, len(example) - 1, [example[-1] ^ 1]))
write('high.xm', put(pressed, 346, [255]))  # the first cell's note, which is stored marked
# 31 * 'A' + 'a' and 31 * 'B' + 'B' are one number, so that the sums of the pressed bytes agree
write('Aa.xm', put(example, 17, b'Aa'))
write('BB.xm', put(example, 17, b'BB'))
write('BB2.xm', put(pressed, 17, b'BB') + noise)
# The last pattern is silent: 32 rows of it, without data, in marked cells and in plain ones; the example has 64
silent = 336
for _ in range(2):
    silent += 9 + int.from_bytes(pressed[silent + 7:silent + 9], 'little')
for name, data in ('silent.xm', b''), ('marked.xm', b'\x80' * 32 * 4), ('zeros.xm', bytes(32 * 4 * 5)):
    numbers = (32).to_bytes(2, 'little') + len(data).to_bytes(2, 'little')
    write(name, pressed[:silent + 5] + numbers + data + pressed[silent + 9:])
END
with_byte badloop.xm 4480 003 # both loop bits of its sample, whose header is at 4466
head -c 400 example.xm >cut.xm

# Usage
fiddlemarsh --help
ok "--help has same" says '^       fiddlemarsh same \[--quiet\] \[--tsv\] FILE\.\.\.$'
ok "--help says that the name is content" says "The module's name is content, so a module under another\$"
for usage in 'same' 'same --into . example.xm' 'same -' 'same example.xm -'; do
    # shellcheck disable=SC2086  # words
    fiddlemarsh $usage
    ok "wrong usage: $usage" exits 2
    ok "it is told: $usage" complains "^Try 'fiddlemarsh --help'.\$"
    ok "and nothing is done: $usage" [ ! -s said ]
done

# One song under many names
fiddlemarsh same example.xm header.xm plain.xm behind.xm pressed.xm
ok "one song" exits 0
ok "its files in one line, and the count" says_only 'example.xm: one song with header.xm, plain.xm, behind.xm, pressed.xm
5 files: 5 accepted as 1 song, 0 refused, 0 troubles'
fiddlemarsh same pressed.xm behind.xm header.xm example.xm plain.xm
ok "in the order given" says '^pressed.xm: one song with behind.xm, header.xm, example.xm, plain.xm$'
ok "they are five files" [ "$(sha256sum example.xm header.xm plain.xm behind.xm pressed.xm | cut -c 1-64 | sort -u | wc -l)" -eq 5 ]
for name in header plain behind; do
    fiddlemarsh press $name.xm again.xm
    ok "$name.xm presses to the same" is_same again.xm pressed.xm
done
fiddlemarsh same example.xm example.xm ./example.xm
ok "a file that is named twice" says '^example.xm: one song with example.xm, ./example.xm$'
fiddlemarsh same example.xm
ok "one file" says_only 'example.xm: alone
1 file: 1 accepted as 1 song, 0 refused, 0 troubles'

# Other songs: their pressed files are as long
for name in renamed tracker tempo sample high; do
    fiddlemarsh press $name.xm again.xm
    ok "$name.xm presses to the same length" [ "$(wc -c <again.xm)" -eq 2862 ]
    fiddlemarsh same example.xm $name.xm
    ok "$name.xm is another song" says_only "example.xm: alone
$name.xm: alone
2 files: 2 accepted as 2 songs, 0 refused, 0 troubles"
done
fiddlemarsh same Aa.xm BB.xm
ok "pressed files of one length and one sum are compared" says_only 'Aa.xm: alone
BB.xm: alone
2 files: 2 accepted as 2 songs, 0 refused, 0 troubles'
fiddlemarsh same BB.xm Aa.xm BB2.xm Aa.xm
ok "and so are more of them" says_only 'BB.xm: one song with BB2.xm
Aa.xm: one song with Aa.xm
4 files: 4 accepted as 2 songs, 0 refused, 0 troubles'

# 32 silent rows are one song, stored or left out, and 64 are another
fiddlemarsh same silent.xm pressed.xm marked.xm zeros.xm
ok "silence without data and in cells" says_only 'silent.xm: one song with marked.xm, zeros.xm
pressed.xm: alone
4 files: 4 accepted as 2 songs, 0 refused, 0 troubles'
for name in silent marked zeros; do
    fiddlemarsh press $name.xm again.xm
    ok "$name.xm keeps its 32 rows, and no data" is_same again.xm silent.xm
done

# Groups, those that are alone, and refused ones
fiddlemarsh same tempo.xm badloop.xm renamed.xm example.xm sample.xm behind.xm cut.xm header.xm renamed.xm
ok "refused ones among others" exits 1
ok "groups by their first, then the lone, then the refused" [ "$(sed 's/, number.*//' said)" = 'renamed.xm: one song with renamed.xm
example.xm: one song with behind.xm, header.xm
tempo.xm: alone
sample.xm: alone
badloop.xm: refused
cut.xm: refused
9 files: 7 accepted as 4 songs, 2 refused, 0 troubles' ]
ok "a refusal is told as check does" says '^cut.xm: refused, number 1 at place 336 (0x150) of 400 bytes: the file ends before'
fiddlemarsh same badloop.xm badloop.xm
ok "refused files are no song" says '^2 files: 0 accepted as 0 songs, 2 refused, 0 troubles$'
ok "each is told" [ "$(grep -c '^badloop.xm: refused, number 13 at place 4466' said)" -eq 2 ]
fiddlemarsh same example.xm missing.xm behind.xm badloop.xm
ok "a missing file counts more than a refused one" exits 2
ok "a missing file is told" complains_only 'fiddlemarsh: missing.xm: cannot be opened: No such file or directory'
ok "and the others are compared" says '^example.xm: one song with behind.xm$'
fiddlemarsh same --quiet tempo.xm badloop.xm example.xm behind.xm
ok "--quiet: what comes twice, and what is refused" [ "$(sed 's/, number.*//' said)" = 'example.xm: one song with behind.xm
badloop.xm: refused' ]
fiddlemarsh same -q tempo.xm example.xm
ok "--quiet of other songs" says_nothing

# Records for scripts
tab=$(printf '\t')
record() { printf '%s\t' "$1" "$2" "$3" "$4" "$5" "$6" "$7" "$8" "$9" "${10}" && printf '%s' "${11}"; }
fiddlemarsh same --tsv tempo.xm badloop.xm example.xm missing.xm sample.xm behind.xm tempo.xm
ok "a record a file, in the order given, and no count" says_only "$(record 1 accepted 0 accepted - - - 6042 6042 tempo.xm normal)
$(record - refused 13 sample_loop_or_length 4466 - - - 6042 badloop.xm -)
$(record 2 accepted 0 accepted - - - 6042 6042 example.xm normal)
$(record - trouble - - - - - - - missing.xm -)
$(record 3 accepted 0 accepted - - - 6042 6042 sample.xm normal)
$(record 2 accepted 0 accepted - - - 2862 3612 behind.xm normal)
$(record 1 accepted 0 accepted - - - 6042 6042 tempo.xm normal)"
ok "records leave the status alone" exits 2
fiddlemarsh same --tsv --quiet tempo.xm badloop.xm example.xm behind.xm missing.xm
ok "--tsv --quiet leaves out what is alone" [ "$(cut -f 1,2,10 said | tr '\t' ' ')" = '- refused badloop.xm
2 accepted example.xm
2 accepted behind.xm
- trouble missing.xm' ]
strange="t${tab}b\\ $(printf '\033')[31m
.xm"
cp example.xm "$strange"
fiddlemarsh same "$strange" behind.xm "$strange"
ok "a strange name is told in one line" says '^t?b\\ ?\[31m?.xm: one song with behind.xm, t?b\\ ?\[31m?.xm$'
fiddlemarsh same tempo.xm "$strange"
ok "alone too" says '^t?b\\ ?\[31m?.xm: alone$'
fiddlemarsh same --tsv tempo.xm "$strange" behind.xm
# shellcheck disable=SC2034  # all eleven are read
found=$(while IFS=$tab read -r song verdict number word place value limit end length file kind; do
    [ "$(printf '%b' "$file")" != "$strange" ] || echo "$song $verdict"
done <said)
ok "which printf gives back, with its song" [ "$found" = '2 accepted' ]
# shellcheck disable=SC2016  # awk's
ok "a script keeps one of each" [ "$(awk -F '\t' '$1 != "-" && !seen[$1]++' said | cut -f 1 | tr '\n' ' ')" = '1 2 ' ]

# Directories, and what can be read once only
mkdir -p morning/a empty
cp example.xm morning/song.xm
cp header.xm morning/a/LOUD.XM
cp tempo.xm morning/b.xm
fiddlemarsh same behind.xm morning
ok "a directory" says_only 'behind.xm: one song with morning/a/LOUD.XM, morning/song.xm
morning/b.xm: alone
4 files: 4 accepted as 2 songs, 0 refused, 0 troubles'
fiddlemarsh same empty example.xm
ok "a directory without modules" exits 2
ok "is told" complains_only 'fiddlemarsh: empty: has no .xm file in it'
ok "and counted" says '^2 files: 1 accepted as 1 song, 0 refused, 1 trouble$'
run eval 'cat example.xm | program same /dev/fd/0 behind.xm'
ok "a pipe" complains_only 'fiddlemarsh: /dev/fd/0: is not a regular file: it may have to be read twice'
ok "is no song" says '^behind.xm: alone$'
run eval 'program same example.xm behind.xm >/dev/full'
ok "lines that cannot be written" exits 2

# A file that cannot be read again. Each takes two reads: example.xm 1 and 2, behind.xm 3 and 4, tempo.xm 5 and 6, header.xm 7 and 8;
# then example.xm 9 and 10, behind.xm 11 and 12, header.xm 13 and 14
failing() {
    wish=$1
    shift
    run env FAILS="$wish" timeout 10 ./failing "$@"
}
failing 'read 7 5' same example.xm behind.xm tempo.xm header.xm
ok "a read that fails" complains_only 'fiddlemarsh: header.xm: cannot be read: Input/output error'
failing 'read 9 5' same example.xm behind.xm tempo.xm header.xm
ok "a first file that cannot be read again" complains_only 'fiddlemarsh: example.xm: cannot be read: Input/output error'
ok "is trouble" exits 2
ok "and the others are one song all the same" says_only 'behind.xm: one song with header.xm
tempo.xm: alone
4 files: 3 accepted as 2 songs, 0 refused, 1 trouble'
failing 'read 11 5' same --tsv example.xm behind.xm tempo.xm header.xm
ok "another that cannot be read again" [ "$(cut -f 1,2,10 said | tr '\t' ' ')" = '1 accepted example.xm
- trouble behind.xm
2 accepted tempo.xm
1 accepted header.xm' ]

# A file that changes meanwhile: a pipe that somebody has open, behind the others, holds the program up
mkfifo pipe
# changing COMMAND...: what the program says of one.xm, two.xm and three.xm, which are one song, if the command comes between
changing() {
    cp example.xm one.xm && cp behind.xm two.xm && cp header.xm three.xm
    exec 9<>pipe
    ./program same one.xm two.xm three.xm pipe >said 2>complained 9>&- &
    held=$!
    tries=0
    # the program has opened it, which its 9 of the first moment does not show
    until find /proc/$held/fd ! -name 9 -lname '*/pipe' 2>/dev/null | grep -q . || [ $tries -eq 400 ]; do
        sleep 0.02
        tries=$((tries + 1))
    done
    "$@"
    exec 9>&-
    status=0
    wait $held || status=$?
}
if [ -d /proc/self/fd ]; then
    changing cp tempo.xm one.xm
    ok "a first file that changes is trouble" complains '^fiddlemarsh: one.xm: was changed while files were compared$'
    ok "and the others are one song" says_only 'two.xm: one song with three.xm
4 files: 2 accepted as 1 song, 0 refused, 2 troubles'
    changing cp tempo.xm two.xm
    ok "another that changes is trouble" complains '^fiddlemarsh: two.xm: was changed while files were compared$'
    ok "and the first is one song with the third" says '^one.xm: one song with three.xm$'
    changing cp badloop.xm two.xm
    ok "one that is refused by then" complains '^fiddlemarsh: two.xm: was changed while files were compared$'
    ok "is counted as trouble" says '^4 files: 2 accepted as 1 song, 0 refused, 2 troubles$'
    changing rm three.xm
    ok "one that is gone" complains '^fiddlemarsh: three.xm: cannot be opened: No such file'
    ok "is in no group" says '^one.xm: one song with two.xm$'
    changing cp header.xm one.xm
    ok "one that is stored in another way is the same song" says '^one.xm: one song with two.xm, three.xm$'
else
    skip 9 "files that change meanwhile, without /proc"
fi

# Many files, of 100 songs, a megabyte each with what is behind them
python3 - <<'END' || exit 2
import os
from pathlib import Path

example = Path('example.xm').read_bytes()
Path('many').mkdir()
for number in range(300):
    name = f'many/{number:03}.xm'
    Path(name).write_bytes(example[:17] + b'%02d' % (number % 100) + example[19:])
    os.truncate(name, 1 << 20)
END
fiddlemarsh same many
ok "300 files are 100 songs" says '^300 files: 300 accepted as 100 songs, 0 refused, 0 troubles$'
ok "of three files each" [ "$(grep -c '^many/0\([0-9][0-9]\).xm: one song with many/1\1.xm, many/2\1.xm$' said)" -eq 100 ]
ok "in their order" eval "sed '\$d' said | sort -c"
# memory_of ARGUMENTS...: how many kilobytes the program had at once
memory_of() {
    python3 -c 'import resource, subprocess, sys
subprocess.run(sys.argv[1:], stdout=subprocess.DEVNULL)
print(resource.getrusage(resource.RUSAGE_CHILDREN).ru_maxrss)' ./program "$@"
}
few=$(memory_of same many/000.xm many/100.xm many/200.xm)
ok "they take hardly more memory than three" [ "$(memory_of same many)" -lt $((few + 65536)) ]
run eval '(ulimit -v 65536 && program same many)'
ok "and 64 megabytes are enough" exits 0

verdict cli_same
