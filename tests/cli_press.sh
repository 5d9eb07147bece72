#!/bin/sh
# cli_press.sh: the command-line program presses, and writes whole or not at all: one file or many, with a full disk, links, owners,
# signals, and system calls that fail. The last line is 'cli_press: N passed, 0 failed'.
#
#   cli_press.sh PROGRAM EXAMPLE FAILING     FAILING is the program with failing.c in it
failing_program=$(realpath "$3") || exit 2
# shellcheck source=tests/cli_tools.sh
. ./cli_tools.sh

cp "$failing_program" failing && chmod 755 failing
with_byte badloop.xm 4480 003 # both loop bits of its sample, whose header is at 4466
printf 'what stood here' >precious
cp precious precious.copy

# One file
fiddlemarsh press example.xm pressed.xm
ok "press" exits 0
ok "press says what it did" says_only 'example.xm: 6042 bytes pressed into 2862, written to pressed.xm'
ok "and that is how long it is" [ "$(wc -c <pressed.xm)" -eq 2862 ]
fiddlemarsh check pressed.xm
ok "what is pressed is accepted" exits 0
fiddlemarsh press pressed.xm again.xm
ok "pressing again changes nothing" is_same pressed.xm again.xm
fiddlemarsh press example.xm quiet.xm --quiet
ok "--quiet has nothing to tell" says_nothing
ok "and presses" is_same pressed.xm quiet.xm
cp example.xm itself.xm
fiddlemarsh press itself.xm itself.xm
ok "IN and OUT the same" is_same pressed.xm itself.xm
cp example.xm long.xm
truncate -s 300000 long.xm
run eval '{ head -c 100000 long.xm; sleep 0.1; tail -c +100001 long.xm; } | program press - piped.xm'
ok "from a pipe of 300,000 bytes" is_same pressed.xm piped.xm
ok "with its length" says_only 'standard input: 300000 bytes pressed into 2862, written to piped.xm'
mkdir -p some/where
fiddlemarsh press example.xm some/where/out.xm
ok "into another directory" is_same pressed.xm some/where/out.xm
fiddlemarsh press example.xm "$PWD/absolute.xm"
ok "by an absolute name" is_same pressed.xm absolute.xm
cp example.xm ./-x
fiddlemarsh press -- -x -y
ok "names that look like options" is_same pressed.xm ./-y
ok "no half file" no_half_file

# Every note is kept: 98 as the example stores it, 128 and 255 marked
with_byte high.xm 345 142 # the first cell's note
fiddlemarsh press high.xm again.xm
ok "a note of 98" [ "$(od -A n -t x1 -j 345 -N 4 again.xm)" = ' 87 62 01 50' ]
for note in 200 377; do
    with_byte high.xm 346 $note pressed.xm
    fiddlemarsh press high.xm again.xm
    ok "a note of $note, octal" is_same again.xm high.xm
done

# A refusal changes nothing
fiddlemarsh press badloop.xm precious
ok "a refused press" exits 1
ok "a refused press says why" complains '^badloop.xm: refused, number 13 at place 4466 (0x1172): the loop of the sample'
ok "a refused press leaves OUT" is_same precious precious.copy
fiddlemarsh press badloop.xm new.xm
ok "a refused press makes no OUT" is_missing new.xm
fiddlemarsh press badloop.xm badloop.xm
ok "a refused press in place" [ "$(wc -c <badloop.xm)" -eq 6042 ]
head -c 400 example.xm >cut.xm
fiddlemarsh press cut.xm precious
ok "a cut file's length is told" complains '^cut.xm: refused, number 1 at place 336 (0x150) of 400 bytes: '
fiddlemarsh press missing.xm precious
ok "a press of a missing file" exits 2
ok "a press of a missing file leaves OUT" is_same precious precious.copy
ok "no half file after refusals" no_half_file

# Trouble with OUT
mkdir directory
fiddlemarsh press example.xm directory
ok "OUT is a directory" exits 2
ok "OUT is a directory: told" complains_only 'fiddlemarsh: directory: is a directory; --into writes into one'
fiddlemarsh press example.xm nowhere/out.xm
ok "OUT's directory is missing" exits 2
fiddlemarsh press example.xm precious/out.xm
ok "OUT's directory is a file" exits 2
if mknod device c 1 3 2>/dev/null; then # not /dev/null itself: a program that fails here would replace it
    fiddlemarsh press example.xm device
    ok "OUT is a device" exits 2
    ok "the device stays one" [ -c device ]
fi
mkfifo pipe
fiddlemarsh press example.xm pipe
ok "OUT is a pipe" exits 2
ok "the pipe stays one" [ -p pipe ]
ln -s nothing dangling
fiddlemarsh press example.xm dangling
ok "OUT links to nothing" exits 2
cp precious linked
ln -s linked link
fiddlemarsh press example.xm link
ok "OUT is a link: what it links to is written" is_same linked pressed.xm
ok "OUT is a link: it stays one" [ -L link ]
cp precious hard
ln hard hard.2
ln hard hard.3
fiddlemarsh press example.xm hard
ok "OUT has other names: it is told" says_only 'example.xm: 6042 bytes pressed into 2862, written to hard; hard links that still hold the old bytes: 2'
ok "OUT has other names: they keep the old bytes" is_same hard.2 precious.copy
ok "OUT has other names: it is written" is_same hard pressed.xm

# Nothing is replaced whose line cannot be told
run eval 'program press example.xm precious >/dev/full'
ok "a line that cannot be written" exits 2
ok "is told" complains_only 'fiddlemarsh: standard output: cannot be written: No space left on device'
ok "and OUT stays" is_same precious precious.copy
run eval 'program press example.xm precious >&-'
ok "a closed standard output" exits 2
ok "and OUT stays, too" is_same precious precious.copy
run eval 'program press example.xm nowhere/out.xm 2>&-'
ok "a closed standard error" exits 2
mkdir into
run eval 'program press --into into example.xm pressed.xm >/dev/full'
ok "with --into too" exits 2
ok "nothing is written" [ -z "$(find into -type f)" ]
ok "no half file then" no_half_file

# A disk that is full, by a limit of one block on the size of files
run eval '(ulimit -f 1 && program press example.xm precious)'
ok "a full disk" exits 2
ok "a full disk is told" complains_only 'fiddlemarsh: precious: cannot be written: File too large'
ok "a full disk leaves OUT" is_same precious precious.copy
ok "a full disk leaves no half file" no_half_file
run eval '(ulimit -f 1 && program press example.xm new.xm)'
ok "a full disk makes no OUT" is_missing new.xm

# Many files
mkdir -p morning/a morning/out
cp example.xm morning/song.xm
cp example.xm morning/a/other.xm
cp badloop.xm morning/bad.xm
cp precious into/bad.xm
cp precious into/song.xm
fiddlemarsh press --into into morning/song.xm morning/bad.xm morning/missing.xm morning/a/other.xm
ok "press --into: the worst counts" exits 2
ok "press --into: what it did, and the count" says_only 'morning/song.xm: 6042 bytes pressed into 2862, written to into/song.xm
morning/a/other.xm: 6042 bytes pressed into 2862, written to into/other.xm
4 files: 2 pressed, 1 refused, 1 trouble'
ok "press --into: each file" is_same into/song.xm pressed.xm
ok "press --into: each file under its own name" is_same into/other.xm pressed.xm
ok "press --into: a refused one leaves what was there" is_same into/bad.xm precious.copy
ok "press --into: a refused one is told" complains '^morning/bad.xm: refused, number 13 '
ok "press --into: a missing one is told" complains '^fiddlemarsh: morning/missing.xm: cannot be opened: '
ok "press --into: nothing else is there" [ "$(find into -type f | wc -l)" -eq 3 ]
fiddlemarsh press -qi into morning/song.xm morning/bad.xm
ok "press --into --quiet: only what needs a person" [ ! -s said ]
ok "which is told" complains '^morning/bad.xm: refused, number 13 '
rm morning/bad.xm
fiddlemarsh press --into morning/out/ morning
ok "press --into of a directory" exits 0
ok "press --into of a directory: its modules" [ "$(find morning/out -type f | sort | tr '\n' ' ')" = 'morning/out/other.xm morning/out/song.xm ' ]
fiddlemarsh press --into morning/out morning
ok "press --into: what is in DIR is not pressed again" says '^2 files: 2 pressed, 0 refused, 0 troubles$'
cp pressed.xm morning/song.copy
cp example.xm morning/other.xm
fiddlemarsh press --into into morning/other.xm morning/a/other.xm
ok "press --into: two of one name" exits 2
ok "the second is not written" complains_only 'fiddlemarsh: morning/a/other.xm: would be written over another of these files: not done'
ok "and counted" says '^2 files: 1 pressed, 0 refused, 1 trouble$'
fiddlemarsh press --into morning morning/other.xm
ok "press --into: a file of DIR" complains_only 'fiddlemarsh: morning/other.xm: would be written over itself: not done'
ok "stays as it is" is_same morning/other.xm example.xm
cp pressed.xm morning/a/song.xm
fiddlemarsh press --into morning morning/a/song.xm morning/song.xm
ok "press --into: a file that is yet to be read" complains '^fiddlemarsh: morning/a/song.xm: would be written over another of these files: not done$'
ok "stays as well" is_same morning/song.xm example.xm
ln -sf ../morning/song.xm into/song.xm
fiddlemarsh press --into into morning/song.xm
ok "press --into: a link to a file itself" complains 'would be written over itself: not done$'
fiddlemarsh press --into precious example.xm
ok "press --into a file" complains_only 'fiddlemarsh: precious: is not a directory'
fiddlemarsh press --into nowhere example.xm
ok "press --into nowhere" exits 2
ok "press --into nowhere: told" complains '^fiddlemarsh: nowhere: cannot be written into: No such file'
ok "no half file after many" no_half_file

# Permissions: OUT keeps its own, a new one gets the usual
cp precious modes && chmod 640 modes
fiddlemarsh press example.xm modes
ok "OUT keeps its permissions" [ "$(stat -c %a modes)" = 640 ]
run eval '(umask 027 && program press example.xm masked)'
ok "a new OUT heeds the mask" [ "$(stat -c %a masked)" = 640 ]

# System calls that fail, and those that must not be missing
# failing 'NAME NUMBER ERROR' ARGUMENTS...: errors are 1 not permitted, 4 interrupted, 5 input or output, 28 no space
failing() {
    wish=$1
    shift
    rm -f calls
    run env CALLS=calls FAILS="$wish" timeout 10 ./failing "$@"
}
cp precious kept && chmod 640 kept
failing 'none 0 0' press example.xm kept
ok "the bytes are on the disk before the name is" [ "$(grep -n -e fsync -e rename calls | head -n 2 | sed 's/.*://' | tr '\n' ' ')" = 'fsync rename ' ]
ok "and then the name" [ "$(sed '1,/rename/d' calls | grep -c fsync)" -eq 1 ]
for wish in 'read 1 4' 'read 2 4' 'write 1 4' 'write 1 0' 'fchmod 1 1'; do
    cp precious kept
    failing "$wish" press example.xm kept
    ok "$wish is no trouble" exits 0
    ok "$wish leaves nothing out" is_same kept pressed.xm
done
for wish in 'mkstemp 1 28' 'write 1 28' 'fsync 1 5' 'close 2 5' 'rename 1 5'; do
    cp precious kept
    failing "$wish" press example.xm kept
    ok "$wish is trouble" exits 2
    ok "$wish is told" complains '^fiddlemarsh: kept: '
    ok "$wish leaves OUT" is_same kept precious.copy
    ok "$wish leaves no half file" no_half_file
done
failing 'fsync 2 5' press example.xm kept
ok "a directory that cannot be synced is no trouble" exits 0
failing 'read 2 5' check example.xm
ok "a read that fails" complains_only 'fiddlemarsh: example.xm: cannot be read: Input/output error'
chmod 664 kept
failing 'fchown 0 1' press example.xm kept
ok "an owner that cannot be kept is no trouble" exits 0
ok "another group gets no more than everybody" [ "$(stat -c %a kept)" = 644 ]
failing 'fchown 1 1' press example.xm kept
ok "the group is kept alone" [ "$(grep -c fchown calls)" -eq 2 ]
failing 'close 2 5' check example.xm
ok "standard output that cannot be closed" complains_only 'fiddlemarsh: standard output: cannot be written: Input/output error'

# Somebody whom permissions bind, and owners
if permissions_bind; then
    mkdir -m 777 open
    cp precious open/readonly && chmod 444 open/readonly
    as_somebody press example.xm open/readonly
    ok "a read-only OUT" exits 2
    ok "a read-only OUT stays" is_same open/readonly precious
    mkdir shut
    cp precious shut/out && chmod 666 shut/out && chmod 555 shut
    as_somebody press example.xm shut/out
    ok "a directory that may not be written" exits 2
    ok "OUT in it stays" is_same shut/out precious
    ok "no half file in them" no_half_file
    chmod 755 shut
else
    skip 5 "permissions, which bind nobody here"
fi
if [ "$(id -u)" -eq 0 ] && permissions_bind; then
    cp precious owned && chown 1234:5678 owned
    fiddlemarsh press example.xm owned
    ok "owner and group are kept" [ "$(stat -c %u:%g owned)" = 1234:5678 ]
    cp precious open/shared && chown 1234:5678 open/shared && chmod 662 open/shared
    run somebody 5678 ./program press example.xm open/shared
    ok "the group alone where that is all" [ "$(stat -c '%u:%g %a' open/shared)" = '65534:5678 662' ]
    chown 1234:5678 open/shared
    as_somebody press example.xm open/shared
    ok "neither, and no more rights" [ "$(stat -c '%u:%g %a' open/shared)" = '65534:65534 622' ]
else
    skip 3 "owners, which only root can set"
fi

# Signals, while the temporary file is there: a full pipe for standard output holds the program up
mkfifo full
exec 3<>full
dd if=/dev/zero bs=65536 count=1 >&3 2>/dev/null
half_file() { find . -name '.fiddlemarsh*' | grep -q .; }
# held COMMAND...: starts the program and waits until its temporary file is there
held() {
    "$@" >full 2>complained &
    held=$!
    tries=0
    until half_file || [ $tries -eq 400 ]; do
        sleep 0.02
        tries=$((tries + 1))
    done
}
for signal in 1:HUP 2:INT 3:QUIT 10:USR1 12:USR2 13:PIPE 14:ALRM 15:TERM 24:XCPU 26:VTALRM 27:PROF; do
    number=${signal%:*} signal=${signal#*:}
    # a shell's background commands ignore INT and QUIT, and all under nohup ignore HUP
    held env --default-signal=HUP,INT,QUIT ./program press example.xm precious
    ok "$signal: the program is held up with a temporary file" half_file
    kill -s "$signal" $held
    status=0
    wait $held 2>/dev/null || status=$?
    ok "$signal ends it" exits $((128 + number))
    ok "$signal leaves no half file" no_half_file
    ok "$signal leaves OUT" is_same precious precious.copy
done
trap '' HUP
held ./program press example.xm precious
trap - HUP
kill -s HUP $held
sleep 0.1
ok "a signal that was ignored stays ignored" half_file
dd bs=65536 count=1 <&3 >/dev/null 2>&1
status=0
wait $held || status=$?
ok "and the program goes on" exits 0
ok "to the end" is_same precious pressed.xm
exec 3>&-
cp precious.copy precious
mkfifo unread
exec 3<>unread 4>unread 3>&- # a pipe that nobody reads from
run eval './program press example.xm precious >&4'
exec 4>&-
ok "nobody to read its line" exits 141
ok "leaves OUT" is_same precious precious.copy
ok "no half file after signals" no_half_file

verdict cli_press
