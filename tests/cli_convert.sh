#!/bin/sh
# cli_convert.sh: the command-line program converts modules, normal to stripped and back, one file or many, and presses either kind in its
# kind. How it writes files is cli_press.sh's. The last line is 'cli_convert: N passed, 0 failed'.
#
#   cli_convert.sh PROGRAM EXAMPLE
# shellcheck source=tests/cli_tools.sh
. ./cli_tools.sh

with_byte badloop.xm 4480 003 # both loop bits of its sample, whose header is at 4466
printf 'what stood here' >precious
cp precious precious.copy
fiddlemarsh press example.xm pressed.xm

# Stripped modules of one order, one pattern of empty cells and some instruments.
python3 - <<'END' || exit 2
from pathlib import Path


def number(value, size):
    return value.to_bytes(size, 'little')


def stripped(instruments, count, name=b'', channels=1, flags=0, cells=b''):
    counts = b''.join(number(value, 2) for value in (1, 0, channels, 1, count, flags, 6, 125))
    header = bytes(17) + name.ljust(43, b'\0') + number(21, 4) + counts + bytes(1)
    return header + number(9, 4) + bytes(1) + number(64, 2) + number(len(cells), 2) + cells + instruments


# 128 instruments of 16 samples each, whose headers have no byte: nothing grows more when it is converted
small = number(28, 4) + bytes(23) + b'\x10'
Path('small.xm').write_bytes(stripped(small * 128, 128))
Path('unpressed.xm').write_bytes(stripped(number(300, 4) + bytes(296), 1))
# One sample of so many bytes that the normal file is as long as a file may be, and of one more
for name, length in ('longest.xm', 16777216 - 648), ('longer.xm', 16777216 - 647):
    sample = number(30, 4) + bytes(23) + number(1, 2) + number(3, 1) + number(length, 3) + bytes(length)
    Path(name).write_bytes(stripped(sample, 1))
# The one stripped module that another's tool made and Debian has: tests/data/stripped.xm of the source package taglib
Path('others.xm').write_bytes(stripped(b'', 0, b'title of song', 8, 1, b'\x80' * 512))
END

# Both ways
fiddlemarsh convert --to stripped example.xm stripped.xm
ok "to a stripped module" exits 0
ok "it says what it did" says_only 'example.xm: 6042 bytes converted to a stripped module of 2576, written to stripped.xm'
ok "and that is how long it is" [ "$(wc -c <stripped.xm)" -eq 2576 ]
fiddlemarsh check stripped.xm
ok "which it is" says '^stripped.xm: accepted as a stripped module, ends at place 2576 (0xA10)$'
fiddlemarsh convert --to normal stripped.xm normal.xm
ok "to a normal module" exits 0
ok "it says what it did, too" says_only 'stripped.xm: 2576 bytes converted to a normal module of 2862, written to normal.xm'
fiddlemarsh check normal.xm
ok "which it is, too" says '^normal.xm: accepted as a normal module, ends at place 2862 (0xB2E)$'
without_tracker() { head -c 38 "$1" && head -c 20 /dev/zero && tail -c +59 "$1"; }
without_tracker pressed.xm >wanted.xm
ok "with nulls as tracker name, and all else kept" is_same normal.xm wanted.xm
fiddlemarsh convert --to stripped normal.xm again.xm
ok "and back again" is_same again.xm stripped.xm
fiddlemarsh convert --quiet -T stripped example.xm quiet.xm
ok "--quiet has nothing to tell" says_nothing
ok "and converts" is_same quiet.xm stripped.xm
cp stripped.xm itself.xm
fiddlemarsh convert itself.xm itself.xm --to normal
ok "IN and OUT the same" is_same itself.xm normal.xm
run eval 'program convert --to stripped - piped.xm <example.xm'
ok "standard input" is_same piped.xm stripped.xm
ok "has its line" says_only 'standard input: 6042 bytes converted to a stripped module of 2576, written to piped.xm'

# Each kind is pressed in its kind
fiddlemarsh press stripped.xm again.xm
ok "a stripped module is pressed" says_only 'stripped.xm: 2576 bytes pressed into 2576, written to again.xm'
ok "into what it is" is_same again.xm stripped.xm
fiddlemarsh press unpressed.xm again.xm
ok "a longer one gets shorter" says_only 'unpressed.xm: 390 bytes pressed into 94, written to again.xm'
fiddlemarsh check again.xm
ok "and stays stripped" says '^again.xm: accepted as a stripped module, ends at place 94 (0x5E)$'

# A stripped module by another's tool, byte for byte, as its sum says
has_sum() { echo "$2  $1" | sha256sum --check --status; }
ok "another's stripped module is that file" has_sum others.xm 7758a23791ef9ee907656fa91d2132dca7860c36573c901ab2cc86798e5e0b36
fiddlemarsh check others.xm
ok "it is accepted" says '^others.xm: accepted as a stripped module, ends at place 602 (0x25A)$'
fiddlemarsh press others.xm others_pressed.xm
ok "its silent pattern is pressed" says_only 'others.xm: 602 bytes pressed into 90, written to others_pressed.xm'
fiddlemarsh convert --to normal others.xm again.xm
ok "it becomes a normal module" says_only 'others.xm: 602 bytes converted to a normal module of 345, written to again.xm'
fiddlemarsh convert --to stripped again.xm itself.xm
ok "and back again it is what was pressed" is_same itself.xm others_pressed.xm

# What is of that kind already is pressed: a normal module keeps its tracker name
fiddlemarsh convert --to normal example.xm again.xm
ok "a normal module to a normal one" exits 0
ok "is pressed, and the line says so" says_only 'example.xm: a normal module already, 6042 bytes pressed into 2862, written to again.xm'
ok "it keeps its tracker name" is_same again.xm pressed.xm
fiddlemarsh convert --to stripped unpressed.xm again.xm
ok "a stripped one to a stripped one, too" says_only 'unpressed.xm: a stripped module already, 390 bytes pressed into 94, written to again.xm'

# A normal module may be longer than the stripped one
fiddlemarsh convert --to normal small.xm large.xm
ok "one that grows as far as any can" says_only 'small.xm: 3674 bytes converted to a normal module of 115929, written to large.xm'
ok "is all there" [ "$(wc -c <large.xm)" -eq 115929 ]
fiddlemarsh convert --to stripped large.xm again.xm
ok "and shrinks again" is_same again.xm small.xm
fiddlemarsh convert --to normal longest.xm large.xm
ok "one that is as long as a file may be" [ "$(wc -c <large.xm)" -eq 16777216 ]
fiddlemarsh convert --to normal longer.xm precious
ok "one that would be longer is refused" exits 1
ok "with number 2" complains_only "longer.xm: refused, number 2 at place 0 (0x0): the file is over 16,777,216 bytes, or would be once \
converted, too large for a board: shorten its samples"
ok "and OUT stays" is_same precious precious.copy
fiddlemarsh convert --to stripped longer.xm large.xm
ok "but it is pressed" exits 0
rm -f large.xm longest.xm longer.xm

# A refusal changes nothing, and is the file's own
for kind in normal stripped; do
    fiddlemarsh convert --to $kind badloop.xm precious
    ok "a refused module, to a $kind one" exits 1
    ok "says why, to a $kind one" complains '^badloop.xm: refused, number 13 at place 4466 (0x1172): the loop of the sample'
    head -c 400 example.xm >cut.xm
    fiddlemarsh convert --to $kind cut.xm precious
    ok "a cut one, to a $kind one" complains '^cut.xm: refused, number 1 at place 336 (0x150) of 400 bytes: '
    : >empty.xm
    fiddlemarsh convert --to $kind empty.xm precious
    ok "an empty one, to a $kind one" complains '^empty.xm: refused, number 1 at place 0 (0x0) of 0 bytes: '
    fiddlemarsh convert --to $kind missing.xm precious
    ok "a missing one, to a $kind one" exits 2
done
head -c 93 unpressed.xm >cut.xm
fiddlemarsh convert --to normal cut.xm precious
ok "a stripped one that is cut" complains '^cut.xm: refused, number 1 at place 90 (0x5A) of 93 bytes: '
ok "OUT stays" is_same precious precious.copy
run eval 'program convert --to stripped example.xm precious >/dev/full'
ok "a line that cannot be written" exits 2
ok "leaves OUT, too" is_same precious precious.copy
ok "no half file" no_half_file

# Many files
mkdir -p morning/a into
cp example.xm morning/song.xm
cp stripped.xm morning/a/other.xm
cp badloop.xm morning/bad.xm
fiddlemarsh convert --to stripped --into into morning morning/missing.xm
ok "convert --into: the worst counts" exits 2
ok "convert --into: what it did, and the count" says_only 'morning/a/other.xm: a stripped module already, 2576 bytes pressed into 2576, written to into/other.xm
morning/song.xm: 6042 bytes converted to a stripped module of 2576, written to into/song.xm
4 files: 2 converted or pressed, 1 refused, 1 trouble'
ok "convert --into: each file under its own name" is_same into/song.xm stripped.xm
ok "convert --into: of either kind" is_same into/other.xm stripped.xm
ok "convert --into: a refused one is told" complains '^morning/bad.xm: refused, number 13 '
fiddlemarsh convert --to normal --into morning morning/a/other.xm morning/song.xm
ok "convert --into: into another name" says '^morning/a/other.xm: 2576 bytes converted to a normal module of 2862, written to morning/other.xm$'
ok "convert --into: no file is written over itself" complains_only 'fiddlemarsh: morning/song.xm: would be written over itself: not done'
ok "and it stays" is_same morning/song.xm example.xm
fiddlemarsh convert --to normal -qi into morning/a/other.xm
ok "convert --into --quiet" says_nothing
ok "converts" is_same into/other.xm normal.xm

# A normal module and a stripped one are two songs, and one once both are stripped; converted to normal ones a tracker name tells them apart
fiddlemarsh same example.xm stripped.xm
ok "the same song of two kinds is two" says '^2 files: 2 accepted as 2 songs, 0 refused, 0 troubles$'
fiddlemarsh convert --to stripped --into into example.xm stripped.xm
fiddlemarsh same into/example.xm into/stripped.xm
ok "and one where both are stripped" says '^into/example.xm: one song with into/stripped.xm$'
fiddlemarsh convert --to normal --into into example.xm stripped.xm
fiddlemarsh same into/example.xm into/stripped.xm
ok "and two where one keeps its tracker name" says '^2 files: 2 accepted as 2 songs, 0 refused, 0 troubles$'

verdict cli_convert
