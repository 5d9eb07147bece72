#!/bin/sh
# cli.sh: the command-line program as a person and a script would use it: usage, checking, names, directories, records. cli_press.sh
# has pressing, cli_convert.sh converting, cli_same.sh which files are one song, cli_samples.sh the sheet of samples. The last line is
# 'cli: N passed, 0 failed'.
#
#   cli.sh PROGRAM EXAMPLE README     README's table has the words of each refusal
readme=$(realpath "$3") || exit 2
# shellcheck source=tests/cli_tools.sh
. ./cli_tools.sh

words_of() { sed -n "s/^| $1 | .* | \(.*\) |\$/\1/p" "$readme"; }

printf 'what stood here' >precious
head -c 400 example.xm >cut.xm
: >empty.xm
with_byte badloop.xm 4480 003 # both loop bits of its sample, whose header is at 4466

# Help, version and usage
fiddlemarsh --help
ok "--help says how" says '^usage: fiddlemarsh check \[--quiet\] \[--tsv\] FILE\.\.\.$'
ok "--help exits 0" exits 0
ok "--help fits a terminal" [ -z "$(awk 'length > 80' said)" ]
ok "--help says which ID text is written" says 'ID text "Extended module: "'
ok "--help says which players do not open it" says 'xmp and openmpt123 open none of 70'
cp said help
for option in quiet tsv 'into DIR' 'to KIND' help version; do
    ok "--help has --$option" says "^  -[a-zA-Z], --$option  "
done
fiddlemarsh check --help
ok "--help behind a command" is_same said help
fiddlemarsh -h
ok "-h is --help" is_same said help
version=$(sed -n 's/^#define FIDDLEMARSH_VERSION "\(.*\)"$/\1/p' "$(dirname "$readme")/include/fiddlemarsh.h")
fiddlemarsh --version
ok "--version" says_only "fiddlemarsh $version"
fiddlemarsh -V
ok "-V is --version" says_only "fiddlemarsh $version"
fiddlemarsh
ok "no command" exits 2
ok "no command names --help" complains '--help'
fiddlemarsh squeeze example.xm
ok "unknown command" exits 2
ok "unknown command is named" complains 'no such command: squeeze$'
for option in --fast -x -xq --quiet=3; do
    fiddlemarsh check example.xm "$option"
    ok "unknown option $option" exits 2
    ok "$option is named" complains "no such option (a file of that name goes behind --): ${option%q}\$"
    ok "and nothing is done" [ ! -s said ]
done
for usage in 'check' 'check --into . example.xm' 'press example.xm' 'press example.xm one.xm two.xm' 'press --tsv example.xm one.xm' \
    'press example.xm -' 'press --into' 'press --into .' 'press --into . -' 'press --to normal example.xm one.xm' \
    'check --to normal example.xm' 'same --to normal example.xm' 'convert example.xm one.xm' 'convert --to' 'convert --to normal' \
    'convert --to normal example.xm' 'convert --to other example.xm one.xm' 'convert --to Normal example.xm one.xm' \
    'convert --to normal example.xm one.xm two.xm' 'convert --to stripped --tsv example.xm one.xm' 'convert --to stripped example.xm -' \
    'convert --to stripped --into' 'convert --to stripped --into .' 'convert --to stripped --into . -'; do
    # shellcheck disable=SC2086  # words
    fiddlemarsh $usage
    ok "wrong usage: $usage" exits 2
    ok "it is told: $usage" complains "^Try 'fiddlemarsh --help'.\$"
done
ok "wrong usage writes nothing" is_missing one.xm
fiddlemarsh convert --to other example.xm one.xm
ok "what is no kind is named" complains 'wants normal or stripped, not other$'
fiddlemarsh convert --to
ok "a kind that is missing is told" complains '^fiddlemarsh: --to wants a kind of module'
fiddlemarsh press --into
ok "and a directory" complains '^fiddlemarsh: --into wants a directory$'

# Periods: two whole numbers, and the quotient to its last digit
period() { # NOTE FINETUNE LINE
    fiddlemarsh period "$1" "$2"
    ok "the period of note $1, finetune $2" says_only "$3"
    ok "and its status" exits 0
}
period 0 0 '29024 / 2 = 14512'
period 1 -1 '27404 / 2 = 13702'
period 11 127 '14519 / 2 = 7259.5'
period 12 -1 '14519 / 2 = 7259.5'
period 012 +0 '29024 / 4 = 7256'
period 107 127 '14519 / 512 = 28.357421875'
period 118 127 '15368 / 1024 = 15.0078125'
for numbers in '119 0' '-1 0' '5 128' '5 -129' '0 -1' '18446744073709551616 0' '5 -99999999999999999999'; do
    # shellcheck disable=SC2086  # words
    fiddlemarsh period $numbers
    ok "no period: $numbers" exits 1
    ok "it is told: $numbers" \
        says_only 'refused, number 16: a note is 0 to 118, a finetune -128 to 127, and note 0 has none below 0'
done
for usage in 'period' 'period 5' 'period 5 -1 7' 'period five 0' 'period 5 0x10' 'period 5 -' 'period 5 1.5' 'period --quiet 5 0' \
    'period --tsv 5 0' 'period --into . 5 0' 'period --to normal 5 0' 'period -1x 0'; do
    # shellcheck disable=SC2086  # words
    fiddlemarsh $usage
    ok "wrong usage: $usage" exits 2
    ok "it is told: $usage" complains "^Try 'fiddlemarsh --help'.\$"
    ok "and nothing is said: $usage" [ ! -s said ]
done
fiddlemarsh period five 0
ok "what is no number is named" complains 'NOTE wants a whole number: five$'
fiddlemarsh period --help
ok "--help behind period" is_same said help
fiddlemarsh period -- 12 -1
ok "numbers behind --" says_only '14519 / 2 = 7259.5'

# Checking one file
fiddlemarsh check example.xm
ok "an accepted file" exits 0
ok "its line, and the count" says_only 'example.xm: accepted as a normal module, ends at place 6042 (0x179A)
1 file: 1 accepted, 0 refused, 0 troubles'
fiddlemarsh convert --to stripped example.xm stripped.xm
fiddlemarsh check stripped.xm
ok "a stripped module" says_only 'stripped.xm: accepted as a stripped module, ends at place 2576 (0xA10)
1 file: 1 accepted, 0 refused, 0 troubles'
cat example.xm precious >behind.xm
fiddlemarsh check behind.xm
ok "bytes behind the module are told" says '(0x179A); 15 bytes follow that are no part of it$'
fiddlemarsh check - <example.xm
ok "standard input" says '^standard input: accepted as a normal module, ends at place 6042 '
run eval 'program check - <&-'
ok "standard input that is closed" exits 2
ok "and is told" complains '^fiddlemarsh: standard input: cannot be read: '
cp example.xm ./-x
fiddlemarsh check -- -x
ok "a name that looks like an option" exits 0
fiddlemarsh check missing.xm
ok "a missing file" exits 2
ok "a missing file is named" complains_only 'fiddlemarsh: missing.xm: cannot be opened: No such file or directory'
ok "and counted" says_only '1 file: 0 accepted, 0 refused, 1 trouble'

# Every refusal that a file can get, in README's words. The example: header 336 bytes, three patterns of 9 + 1280, an instrument
# of 263 at 4203, its sample's header at 4466.
refused() { # NUMBER PLACE PLACE-IN-HEX LENGTH-OR-NOTHING
    fiddlemarsh check refused.xm
    ok "number $1" exits 1
    ok "number $1 has words" [ -n "$(words_of "$1")" ]
    ok "the line of number $1" says_only "refused.xm: refused, number $1 at place $2 (0x$3)$4: $(words_of "$1")
1 file: 0 accepted, 1 refused, 0 troubles"
}
cp cut.xm refused.xm && refused 1 336 150 ' of 400 bytes'
cp empty.xm refused.xm && refused 1 0 0 ' of 0 bytes'
head -c 6041 example.xm >refused.xm && refused 1 4506 119A ' of 6041 bytes'
cp example.xm refused.xm && truncate -s 16777217 refused.xm && refused 2 0 0 ''
with_byte refused.xm 37 000 && refused 3 0 0 ''
with_byte refused.xm 60 023 && refused 4 0 0 ''
with_byte refused.xm 68 000 && refused 5 0 0 ''
with_byte refused.xm 341 000 && refused 6 336 150 ''
with_byte refused.xm 341 101 && refused 7 1625 659 ''
with_byte refused.xm 341 077 && refused 8 1605 645 ''
with_byte refused.xm 4230 021 && refused 10 4203 106B ''
with_byte refused.xm 4232 047 && refused 11 4203 106B ''
with_byte adpcm.xm 4483 255 && with_byte refused.xm 4480 021 adpcm.xm && refused 12 4466 1172 '' # of kind AD, and at 16 bits
with_byte refused.xm 4480 003 && refused 13 4466 1172 ''
fiddlemarsh check adpcm.xm
ok "an ADPCM sample" exits 0
ok "number 9, which is no longer given, has words" [ -n "$(words_of 9)" ]
with_byte high.xm 345 142 # the first cell's note: 98
fiddlemarsh check high.xm
ok "a note above 97" exits 0

# The size limit
cp example.xm limit.xm
truncate -s 16777216 limit.xm
fiddlemarsh check limit.xm
ok "16,777,216 bytes" exits 0
truncate -s 20G limit.xm 2>/dev/null && {
    fiddlemarsh check limit.xm
    ok "20 gigabytes" says 'refused, number 2 at place 0'
}
rm -f limit.xm
fiddlemarsh check /dev/zero
ok "a file without end" says 'refused, number 2 at place 0'

# Pipes
cp example.xm long.xm
truncate -s 300000 long.xm
run eval '{ head -c 100000 long.xm; sleep 0.1; tail -c +100001 long.xm; } | program check -'
ok "a pipe of 300,000 bytes" says '^standard input: accepted as a normal module, ends at place 6042 (0x179A); 293958 bytes follow'
mkfifo pipe
fiddlemarsh check pipe
ok "a pipe that nobody writes to is not waited for" exits 2
ok "and told" complains_only 'fiddlemarsh: pipe: is a pipe, and nothing comes out of it'
exec 3<>pipe 4<pipe # fd 4 keeps what comes before the program does
{ sleep 0.3 && cat example.xm >&3; } &
exec 3>&-
fiddlemarsh check pipe
exec 4<&-
ok "a pipe that somebody writes to" says '^pipe: accepted as a normal module, ends at place 6042 (0x179A)$'
run eval 'program check /dev/fd/4 4<empty.xm'
ok "an empty file by its number" says '^/dev/fd/4: refused, number 1 at place 0'

# Several files
fiddlemarsh check example.xm badloop.xm example.xm
ok "several files: the worst counts" exits 1
ok "several files: a line each, in their order, and the count" [ "$(sed 's/[ ,].*//' said | tr '\n' ' ')" = 'example.xm: badloop.xm: example.xm: 3 ' ]
ok "the count of three" says '^3 files: 2 accepted, 1 refused, 0 troubles$'
fiddlemarsh check badloop.xm missing.xm badloop.xm example.xm absent.xm
ok "trouble counts more than a refusal" exits 2
ok "the others are checked all the same" says '^5 files: 1 accepted, 2 refused, 2 troubles$'
run eval 'program check example.xm missing.xm example.xm 2>&1'
ok "lines and troubles come in the order of the files" [ "$(sed 's/: .*//; s/ .*//' said | tr '\n' ' ')" = 'example.xm fiddlemarsh example.xm 3 ' ]

# Only what needs a person
fiddlemarsh check --quiet example.xm
ok "--quiet of an accepted file" says_nothing
ok "exits 0" exits 0
fiddlemarsh check example.xm badloop.xm missing.xm -q
ok "-q, behind the files" exits 2
ok "has the refused one's line alone" [ "$(sed 's/[ ,].*//' said)" = 'badloop.xm:' ]
ok "and the trouble" complains '^fiddlemarsh: missing.xm: '

# Names: one line stays one line, and nothing reaches the terminal that it would obey
newline='
'
escape=$(printf '\033')
csi=$(printf '\233')
tab=$(printf '\t')
name="l\"'\\ t$newline$escape$tab${csi}[31m$(printf '\302\233').xm"
cp example.xm "$name"
no_control() { [ -z "$(tr -d '\n\040-\176' <said | tr -d '\303\274')" ] && [ -z "$(tr -d '\n\040-\176' <complained)" ]; }
fiddlemarsh check "$name"
ok "a strange name is told in one line" says_only "l\"'\\ t????[31m??.xm: accepted as a normal module, ends at place 6042 (0x179A)
1 file: 1 accepted, 0 refused, 0 troubles"
LC_ALL=C.UTF-8 fiddlemarsh check "$name"
ok "in UTF-8 too" no_control
cp example.xm "$(printf 'f\303\274r.xm')"
LC_ALL=C.UTF-8 fiddlemarsh check "$(printf 'f\303\274r.xm')"
ok "letters stay letters where they are letters" says "^$(printf 'f\303\274r.xm'): accepted"
fiddlemarsh check "$(printf 'f\303\274r.xm')"
ok "and nowhere else" says '^f??r.xm: accepted'
fiddlemarsh check "missing$name"
ok "a strange missing name" no_control
fiddlemarsh "$name"
ok "a strange command" no_control
fiddlemarsh check "--$name"
ok "a strange option" no_control
fiddlemarsh check "-$csi"
ok "a strange letter" no_control
fiddlemarsh press example.xm "nowhere/$name"
ok "a strange OUT" no_control

# Records for scripts
record() { printf '%s\t' "$1" "$2" "$3" "$4" "$5" "$6" "$7" "$8" "$9" && printf '%s' "${10}"; }
fiddlemarsh check --tsv example.xm badloop.xm cut.xm missing.xm behind.xm stripped.xm - <example.xm
ok "a record a file, and no count" says_only "$(record accepted 0 accepted - - - 6042 6042 example.xm normal)
$(record refused 13 sample_loop_or_length 4466 - - - 6042 badloop.xm -)
$(record refused 1 cut 336 - 400 - 400 cut.xm -)
$(record trouble - - - - - - - missing.xm -)
$(record accepted 0 accepted - - - 6042 6057 behind.xm normal)
$(record accepted 0 accepted - - - 2576 2576 stripped.xm stripped)
$(record accepted 0 accepted - - - 6042 6042 - normal)"
ok "the trouble is told as well" complains '^fiddlemarsh: missing.xm: cannot be opened: '
ok "records leave the status alone" exits 2
fiddlemarsh check -tq example.xm badloop.xm missing.xm
ok "--tsv --quiet" says_only "$(record refused 13 sample_loop_or_length 4466 - - - 6042 badloop.xm -)
$(record trouble - - - - - - - missing.xm -)"
fiddlemarsh check --tsv "$name"
ok "a strange name in a record" says_only "$(record accepted 0 accepted - - - 6042 6042 "l\"'\\0134 t\\0012\\0033\\0011\\0233[31m\\0302\\0233.xm" normal)"
# shellcheck disable=SC2034  # all ten are read
IFS=$tab read -r verdict number word place value limit end length escaped kind <said
# shellcheck disable=SC2059
ok "which printf gives back" [ "$(printf '%b' "$escaped")" = "$name" ]
# shellcheck disable=SC2059
every=$(i=1 && while [ $i -le 255 ]; do
    [ $i -eq 47 ] || printf "\\$(printf '%03o' $i)"
    i=$((i + 1))
done)
if cp example.xm "./$every" 2>/dev/null; then
    fiddlemarsh check --tsv "./$every"
    ok "every byte that a name can have" [ "$(printf '%b' "$(cut -f 9 said)")" = "./$every" ]
    ok "is one line of printable ASCII" [ -z "$(tr -d '\011\012\040-\176' <said)" ]
    ok "one line" lines 1
fi

# Directories
mkdir -p morning/b morning/a/deep morning/c.xm empty
cp example.xm morning/song.xm
cp example.xm morning/a/LOUD.XM
cp badloop.xm morning/a/deep/bad.xm
cp badloop.xm morning/b/notes.txt
cp badloop.xm morning/b/xm
cp example.xm morning/c.xm/in.xm
ln -s ../../example.xm morning/b/linked.xm
ln -s .. morning/b/up
fiddlemarsh check morning
ok "a directory: its modules in the order of their names" [ "$(sed 's/: .*//' said | tr '\n' ' ')" = \
    'morning/a/LOUD.XM morning/a/deep/bad.xm morning/b/linked.xm morning/c.xm/in.xm morning/song.xm 5 files ' ]
ok "and their count" says '^5 files: 4 accepted, 1 refused, 0 troubles$'
fiddlemarsh check morning/a/ example.xm
ok "a directory with a slash, and a file" [ "$(sed 's/: .*//' said | tr '\n' ' ')" = 'morning/a/LOUD.XM morning/a/deep/bad.xm example.xm 3 files ' ]
fiddlemarsh check empty
ok "a directory without modules" exits 2
ok "is told" complains_only 'fiddlemarsh: empty: has no .xm file in it'
mkfifo morning/pipe.xm
ln -s nothing morning/dangling.xm
ln -s b morning/lane.xm
fiddlemarsh check morning
ok "a pipe in a directory is not waited for" exits 2
ok "a pipe in a directory is told" complains '^fiddlemarsh: morning/pipe.xm: is not a regular file$'
ok "so is a link to nothing" complains '^fiddlemarsh: morning/dangling.xm: cannot be opened: '
ok "and a link to a directory" complains '^fiddlemarsh: morning/lane.xm: is not a regular file$'
ok "and the rest is checked" says '^8 files: 4 accepted, 1 refused, 3 troubles$'
sleep 5 3<>morning/pipe.xm &
fiddlemarsh check morning
kill $!
ok "nor if somebody has it open" complains '^fiddlemarsh: morning/pipe.xm: is not a regular file$'
rm morning/*.xm 2>/dev/null

# Lines that cannot be written
run eval 'program check example.xm >/dev/full'
ok "a line that cannot be written" exits 2
ok "is told" complains '^fiddlemarsh: standard output: cannot be written: No space left on device$'
run eval 'program --help >/dev/full'
ok "help that cannot be written" exits 2
run eval 'program check --quiet badloop.xm missing.xm >/dev/full'
ok "a line that could not be written early" complains '^fiddlemarsh: standard output: cannot be written: lines are missing$'
run eval 'program check example.xm >&-'
ok "standard output that is closed" exits 2
run eval 'program check --quiet example.xm >&-'
ok "and not needed" exits 0
run eval 'program check missing.xm example.xm 2>&-'
ok "standard error that is closed" says '^2 files: 1 accepted, 0 refused, 1 trouble$'

# Permissions
if permissions_bind; then
    cp example.xm secret.xm && chmod 000 secret.xm
    as_somebody check secret.xm
    ok "an unreadable file" exits 2
    ok "an unreadable file is told" complains 'secret.xm: cannot be opened: Permission denied$'
    mkdir -p locked/in && cp example.xm locked/song.xm && chmod 000 locked/in
    as_somebody check locked
    ok "an unreadable directory" exits 2
    ok "an unreadable directory is told" complains_only 'fiddlemarsh: locked/in: cannot be read: Permission denied'
    ok "and the rest is checked" says '^2 files: 1 accepted, 0 refused, 1 trouble$'
    chmod 755 locked/in
else
    skip 5 "permissions, which bind nobody here"
fi

# Progress, on a terminal that shows no lines
on_terminal() { run script --quiet --return --command "{ sleep 1.3; cat example.xm; } | ./program check $1 - example.xm" /dev/null; }
shows_progress() { # on a busy machine the program may start late
    for _ in 1 2 3; do
        on_terminal --quiet
        [ "$(tr '\r' '\n' <said)" != "
1 of 2 files
            " ] || return 0
    done
    return 1
}
ok "long work tells how far it has come, and takes it back" shows_progress
on_terminal ''
ok "but not between lines" [ "$(grep -c ' of 2 files' said)" -eq 0 ]
ok "which are all there" says '^2 files: 2 accepted, 0 refused, 0 troubles'

verdict cli
