#!/bin/sh
# cli_samples.sh: the command-line program prints the sheet of a module's samples, for people and for spreadsheets, whatever their names
# hold. The last line is 'cli_samples: N passed, 0 failed'.
#
#   cli_samples.sh PROGRAM EXAMPLE
# shellcheck source=tests/cli_tools.sh
. ./cli_tools.sh

# Modules of one silent pattern and their instruments' samples: band.xm has a sample of each sort, names.xm one for each name that a
# sheet could choke on.
python3 - <<'END' || exit 2
from pathlib import Path

HEADER = b'Extended Module: '.ljust(37) + b'\x1a' + bytes(20) + b'\x04\x01'


def number(value, width):
    return value.to_bytes(width, 'little')


def sample(name, length, start, loop, kind_of_loop, finetune=0, note=0, kind=0, data=None):
    header = number(length, 4) + number(start, 4) + number(loop, 4) + bytes([64, finetune & 255, kind_of_loop, 128, note & 255, kind])
    return header + name.ljust(22, b'\0'), bytes(length) if data is None else bytes(data)


def instrument(samples):
    if not samples:
        return number(29, 4) + bytes(25)
    start = number(263, 4) + bytes(23) + number(len(samples), 2) + number(40, 4) + bytes(263 - 33)
    return start + b''.join(header for header, _ in samples) + b''.join(data for _, data in samples)


def write(name, *instruments):
    counts = b''.join(number(value, 2) for value in (1, 0, 2, 1, len(instruments), 1, 6, 125))
    pattern = number(9, 4) + number(0, 1) + number(4, 2) + number(0, 2)
    Path(name).write_bytes(HEADER + number(276, 4) + counts + bytes(256) + pattern + b''.join(map(instrument, instruments)))


write('band.xm',
      [sample(b'kick', 600, 0, 0, 0, finetune=-128, note=127),
       sample(b'a pad, both ways', 70000, 20000, 40000, 0x12, finetune=127, note=-128)],
      [],
      [sample(b'plucked', 1001, 1000, 1, 1, kind=0xAD, data=16 + 501),
       sample(b'', 0, 0, 0, 0),
       sample(b'bits without a length', 10, 4, 0, 0x11),
       sample(b'a length without bits', 10, 4, 6, 0x10)])
write('names.xm', [sample(name, 2, 0, 0, 0) for name in (
    b'\x1b[31mred\x07\n\tand\r\x7f', b'\xc2\x9b\xff\x80 high', b'back\\slash', b'=1+1', b'+1', b'-', b'@you', b'a=b', b'blank at its end   ',
    b'cut\0\x1bjunk behind it', b'twenty-two letters, no', b'  ', b'\xff' * 22)])
write('silent.xm')
write('empty.xm', [], [])
write('odd.xm', [sample(b'odd', 8, 1, 2, 0x11)])
write('most.xm', *[[sample(b'', 0, 0, 0, 0)] * 16] * 128)
# A stripped module: three sample headers of one byte, the length; behind them data that would be a kind and a name, were they whole
stripped = bytes(60) + number(21, 4) + b''.join(number(value, 2) for value in (1, 0, 1, 1, 1, 1, 6, 125)) + bytes(1)
pattern = number(9, 4) + number(0, 1) + number(64, 2) + number(0, 2)
Path('stripped.xm').write_bytes(stripped + pattern + number(30, 4) + bytes(23) + number(3, 2) + b'\x01' + bytes([60, 0, 2])
                                + b'X' * 14 + b'\xad' * 3 + b'X' * 45)
END

# Usage
fiddlemarsh --help
ok "--help has samples" says '^       fiddlemarsh samples \[--tsv\] FILE$'
cp said help
fiddlemarsh samples --help
ok "--help behind samples" is_same said help
for usage in 'samples' 'samples band.xm odd.xm' 'samples --quiet band.xm' 'samples --into . band.xm' \
    'samples --to normal band.xm'; do
    # shellcheck disable=SC2086  # words
    fiddlemarsh $usage
    ok "wrong usage: $usage" exits 2
    ok "it is told: $usage" complains "^Try 'fiddlemarsh --help'.\$"
    ok "and nothing is said: $usage" [ ! -s said ]
done

# For people
legend="A place is that of a sample's data, a byte of the file, counted from 0. Values, loop start and loop length count samples."
fiddlemarsh samples example.xm
ok "the example's sheet" exits 0
ok "has its one sample" says_only "example.xm: 1 sample in 1 instrument
instrument  sample  name      place  bytes  width  kind   values  loop     loop start  loop length  finetune  relative note
         1       1  triangle   4506   1536      8  delta    1536  forward        1280          256         0             12
$legend"
fiddlemarsh samples band.xm
ok "a sheet" exits 0
ok "numbers from 1, data in bytes, loops in samples" says_only "band.xm: 6 samples in 3 instruments
instrument  sample  name                   place  bytes  width  kind   values  loop       loop start  loop length  finetune  relative note
         1       1  kick                     688    600      8  delta     600  none                0            0      -128            127
         1       2  a pad, both ways        1288  70000     16  delta   35000  both ways       10000        20000       127           -128
         3       1  plucked                71740    517      8  ADPCM    1001  forward          1000            1         0              0
         3       2                         72257      0      8  delta       0  none                0            0         0              0
         3       3  bits without a length  72257     10     16  delta       5  none                0            0         0              0
         3       4  a length without bits  72267     10     16  delta       5  none                0            0         0              0
$legend"
fiddlemarsh samples stripped.xm
ok "a stripped module, whose sample headers are cut" says_only "stripped.xm: 3 samples in 1 instrument
instrument  sample  name  place  bytes  width  kind   values  loop  loop start  loop length  finetune  relative note
         1       1          123     60      8  delta      60  none           0            0         0              0
         1       2          183      0      8  delta       0  none           0            0         0              0
         1       3          183      2      8  delta       2  none           0            0         0              0
$legend"
for name in band names most; do
    run eval "program samples --tsv $name.xm | cut -f 1-3,5-13 >normal && program convert --quiet --to stripped $name.xm converted.xm"
    run eval 'program samples --tsv converted.xm | cut -f 1-3,5-13 >converted'
    ok "$name.xm as a stripped module has the same samples, at other places" is_same normal converted
done
run eval 'program samples - <example.xm'
ok "standard input" says '^standard input: 1 sample in 1 instrument$'
fiddlemarsh samples silent.xm
ok "no instruments" says_only 'silent.xm: 0 samples in 0 instruments'
fiddlemarsh samples empty.xm
ok "no samples" says_only 'empty.xm: 0 samples in 2 instruments'
fiddlemarsh samples most.xm
ok "as many samples as there can be" says '^most.xm: 2048 samples in 128 instruments$'
ok "and their last" [ "$(tail -n 2 said | head -n 1 | tr -s ' ' | cut -d ' ' -f 2,3)" = '128 16' ]
ok "a line each" lines 2051

# Names: one line stays one line, and nothing reaches the terminal that it would obey
name_column() { sed -n '3,$s/^ *1 *[0-9]*  \(.\{22\}\).*/\1/p' said | sed 's/ *$//'; }
fiddlemarsh samples names.xm
ok "a line for each name" lines 16
ok "no control byte" [ -z "$(tr -d '\n\040-\176' <said)" ]
cp said ascii
ok "names" [ "$(name_column)" = '?[31mred???and??
???? high
back\slash
=1+1
+1
-
@you
a=b
blank at its end
cut
twenty-two letters, no

??????????????????????' ]
LC_ALL=C.UTF-8 fiddlemarsh samples names.xm
ok "wherever the reader is" is_same said ascii
cp names.xm "$(printf 'n\033[2Jx.xm')"
fiddlemarsh samples "$(printf 'n\033[2Jx.xm')"
ok "a strange file name" says '^n?\[2Jx.xm: 13 samples in 1 instrument$'

# For spreadsheets
tab=$(printf '\t')
columns=$(printf 'instrument\tsample\tname\tplace\tbytes\twidth\tkind\tvalues\tloop\tloop start\tloop length\tfinetune\trelative note')
fiddlemarsh samples --tsv band.xm
ok "--tsv" exits 0
ok "has a line with the columns, and one a sample" [ "$(cat said)" = "$columns
$(printf '%s\t' 1 1 kick 688 600 8 delta 600 none 0 0 -128)127
$(printf '%s\t' 1 2 'a pad, both ways' 1288 70000 16 delta 35000 'both ways' 10000 20000 127)-128
$(printf '%s\t' 3 1 plucked 71740 517 8 ADPCM 1001 forward 1000 1 0)0
$(printf '%s\t' 3 2 - 72257 0 8 delta 0 none 0 0 0)0
$(printf '%s\t' 3 3 'bits without a length' 72257 10 16 delta 5 none 0 0 0)0
$(printf '%s\t' 3 4 'a length without bits' 72267 10 16 delta 5 none 0 0 0)0" ]
fiddlemarsh samples -t silent.xm
ok "of no samples the columns alone" says_only "$columns"
fiddlemarsh samples --tsv names.xm
ok "a record for each name" lines 14
ok "of printable ASCII" [ -z "$(tr -d '\011\012\040-\176' <said)" ]
ok "and thirteen fields" [ "$(awk -F "$tab" 'NF != 13' said | wc -l)" -eq 0 ]
ok "names are escaped, formulas too" [ "$(cut -f 3 said | tail -n +2)" = '\0033[31mred\0007\0012\0011and\0015\0177
\0302\0233\0377\0200 high
back\0134slash
\00751+1
\00531
\0055
\0100you
a=b
blank at its end
cut
twenty-two letters, no
-
\0377\0377\0377\0377\0377\0377\0377\0377\0377\0377\0377\0377\0377\0377\0377\0377\0377\0377\0377\0377\0377\0377' ]
ok "which printf gives back" [ "$(printf '%b' "$(cut -f 3 said | sed -n 4p)")" = 'back\slash' ]

# Refusals and trouble
fiddlemarsh check odd.xm
sed 1q said >refusal
for option in '' --tsv; do
    # shellcheck disable=SC2086  # none or one
    fiddlemarsh samples $option odd.xm
    ok "a refused file $option" exits 1
    ok "is told as check tells it" is_same complained refusal
    ok "and has no sheet" [ ! -s said ]
done
ok "number 13, of a loop within a value" complains '^odd.xm: refused, number 13 at place 608 (0x260): .*, or begins or ends within a value, '
head -c 400 example.xm >cut.xm
fiddlemarsh samples cut.xm
ok "a cut file" complains '^cut.xm: refused, number 1 at place 336 (0x150) of 400 bytes: '
fiddlemarsh samples missing.xm
ok "a missing file" exits 2
ok "is named" complains_only 'fiddlemarsh: missing.xm: cannot be opened: No such file or directory'
mkdir shelf
fiddlemarsh samples shelf
ok "a directory" exits 2
ok "is told" complains '^fiddlemarsh: shelf: cannot be read: Is a directory$'
run eval 'program samples most.xm >/dev/full'
ok "a sheet that cannot be written" exits 2
ok "is told" complains '^fiddlemarsh: standard output: cannot be written: '

verdict cli_samples
