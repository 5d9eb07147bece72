#!/bin/sh
# header.sh: the header as a manual. Each of its constants and functions is named in a test, and the program at its end does what it
# says. The last line is 'header: N passed, 0 failed'.
#
#   header.sh BUILD EXAMPLE     EXAMPLE is the module that cli/example.c makes; CC, CFLAGS, LDFLAGS and LIBRARY are taken from the
#                               environment
set -u
header=../include/fiddlemarsh.h
build=$1 example=$2
passed=0 failed=0

# ok DESCRIPTION COMMAND...: the command must succeed.
ok() {
    description=$1
    shift
    if "$@"; then
        passed=$((passed + 1))
    else
        failed=$((failed + 1))
        echo "FAILED: $description"
    fi
}

# A constant that no test names could have any value.
for constant in $(grep -oE 'FIDDLEMARSH_[A-Z_]*[A-Z]' $header | sort -u | grep -v '^FIDDLEMARSH_H$'); do
    ok "$constant is named in header_test.c" grep -qw "$constant" header_test.c
done
for function in $(grep -oE 'fiddlemarsh_[a-z_]*\(' $header | tr -d '(' | sort -u); do
    ok "$function is named in a test" grep -qw "$function" header_test.c compare.c lent.c
done

# The program: the indented lines of the header's last comment.
program=$build/header-program
sed -n '/^\/\* A whole program/,/^\*\//s/^       //p' $header >"$program.c"
# shellcheck disable=SC2086  # lists
compile() { $CC -std=c99 -Wall -Wextra -Wpedantic -Werror -I../include $CFLAGS $LDFLAGS "$program.c" "$LIBRARY" -o "$program"; }
run() { "$program" "$@" >"$program.said"; }
says() { [ "$(cat "$program.said")" = "$1" ]; }
refuses() { ! run "$1" && says "$2"; }

ok "the header's program compiles" compile
ok "it takes the example" run "$example"
ok "it opens it up" says 'accepted as a normal module, ends at place 6042
pattern 0: 64 rows, 32 notes
pattern 1: 64 rows, 32 notes
pattern 2: 64 rows, 0 notes
sample 0: 1536 values of 8 bits, up to 96, finetune 0, relative note 12, then 256 values from 1280 on over and over'
# The same with its sample, whose header stands at 4466, as ADPCM of 1535 values, not looped.
patch() { printf "$2" | dd of="$program.xm" bs=1 seek="$1" conv=notrunc 2>/dev/null; }
cp "$example" "$program.xm"
patch 4466 '\377\005' && patch 4480 '\000' && patch 4483 '\255'
ok "it takes it with an ADPCM sample" run "$program.xm"
ok "it opens that up" says 'accepted as a normal module, ends at place 5290
pattern 0: 64 rows, 32 notes
pattern 1: 64 rows, 32 notes
pattern 2: 64 rows, 0 notes
sample 0: 1535 values of 8 bits, up to 126, finetune 0, relative note 12'
patch 4480 '\020'
ok "it refuses 16-bit ADPCM" refuses "$program.xm" "tables: refused, number 12 (sample_kind) at place 4466: the sample at this place is packed \
as ADPCM and marked as 16-bit, which cannot both be: save it plain"
head -c 400 "$example" >"$program.xm"
ok "it refuses half of it" refuses "$program.xm" "tables: refused, number 1 (cut) at place 336: the file ends before all of it is there: \
it was cut short on its way, or a size in it is wrong; save it anew and send it again"
truncate -s 16777217 "$program.xm"
ok "it refuses a long one" refuses "$program.xm" \
    "tables: refused, number 2 (file_too_long) at place 0: the file is over 16,777,216 bytes, or would be once converted, too large for \
a board: shorten its samples"
# A stripped module with one instrument, which ends with H, 1: three sample headers of one byte, the length, and 20 + 0 + 2 bytes of data.
# Where the kind would stand if they were whole, data say AD.
head -c 90 /dev/zero >"$program.xm"
patch 60 '\025' && patch 64 '\001' && patch 68 '\001' && patch 70 '\001' && patch 72 '\001' && patch 81 '\011' && patch 86 '\100'
patch 90 '\036\000\000\000' && patch 117 '\003\000\001\024\000\002'
patch 123 '\001\001\001\001\001\001\001\001\001\001\001\001\001\001\255\255\255\000\000\000\001\001'
ok "it takes a stripped module" run "$program.xm"
ok "it opens that up by its cut headers" says 'accepted as a stripped module, ends at place 145
pattern 0: 64 rows, 0 notes
sample 0: 20 values of 8 bits, up to 104, finetune 0, relative note 0
sample 1: 0 values of 8 bits, up to 0, finetune 0, relative note 0
sample 2: 2 values of 8 bits, up to 2, finetune 0, relative note 0'
rm -f "$program.xm"

echo "header: $passed passed, $failed failed"
[ "$failed" -eq 0 ]
