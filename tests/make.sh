#!/bin/sh
# make.sh: the Makefile's commands, as users and packagers call them: names of any kind, and installing. The last line is
# 'make: N passed, 0 failed'.
#
#   make.sh EXAMPLE     EXAMPLE is the module that cli/example.c makes; CC, CFLAGS and LDFLAGS are taken from the environment
set -u
unset MAKEFLAGS MFLAGS MAKELEVEL # a make of its own
root=$(cd .. && pwd)
work=$(mktemp -d)
trap 'rm -rf "$work"' EXIT
cp "$1" "$work/example.xm"
cd "$work" || exit 2
passed=0 failed=0

# ok DESCRIPTION COMMAND...: the command must succeed.
ok() {
    description=$1
    shift
    if "$@"; then
        passed=$((passed + 1))
    else
        failed=$((failed + 1))
        echo "FAILED: $description"
        sed 's/^/  said: /' said
    fi
}
: >said
make_root() { make --no-print-directory -C "$root" CC="$CC" CFLAGS="$CFLAGS" LDFLAGS="$LDFLAGS" "$@" >said 2>&1; }
says() { grep -q -e "$1" said; }
says_only() { [ "$(cat said)" = "$1" ]; }
nothing_ran() { [ ! -e "$root/ran" ] && [ ! -e ran ]; }

# Tests are run, whatever files there are
for name in test check tests; do
    make_root --dry-run $name
    ok "make $name runs the tests" says '^build/header_test '
done
make_root --dry-run --always-make all
ok "what users build stops at no warning" [ "$(grep -c Werror said)" -eq 0 ]
ok "and is built" says 'fiddlemarsh.c'

# The listing of a file of any name
newline='
'
# shellcheck disable=SC2016,SC1003
for name in "two words'\"\"'${newline}#lines.xm" '-n$b$$c\%~*=:=.xm' "';touch ran;'\";touch ran;\"|touch ran&.xm" '$(touch ran)`touch ran`' \
    '$(shell touch ran)$$(shell touch ran)${shell touch ran}' 'end\' "$(printf '\033\233\377.xm')"; do
    cp example.xm "./$name"
    make_root listing FILE="$work/$name"
    ok "the listing of $name" says_only 'ok 6042 4 3 1 1'
done
cp example.xm "./ blank.xm"
FILE=' blank.xm' make_root listing
ok "names are those of the root" says 'blank.xm'
make_root listing FILE="$work/ blank.xm"
ok "a blank in front" says_only 'ok 6042 4 3 1 1'
ok "no name ran as code" nothing_ran
make_root listing FILE="$work/missing.xm"
ok "a missing file" says 'missing.xm'
make_root listing
ok "no file" says 'make listing FILE=song.xm'

# Installing
installed() { # BASE LIB
    ls -l "$1/bin/fiddlemarsh" "$1/include/fiddlemarsh.h" "$2/libfiddlemarsh.a" "$2/pkgconfig/fiddlemarsh.pc" \
        "$1/share/man/man1/fiddlemarsh.1" "$1/share/man/man3/fiddlemarsh.3" >said 2>&1
}
make_root install DESTDIR="$work/plain" PREFIX=/usr
ok "install" installed plain/usr plain/usr/lib
make_root install DESTDIR="$work/usual"
ok "install without PREFIX" installed usual/usr/local usual/usr/local/lib
make_root install DESTDIR="$work/multi" PREFIX=/usr LIBDIR=/usr/lib/x86_64-linux-gnu
ok "install with LIBDIR" installed multi/usr multi/usr/lib/x86_64-linux-gnu
ok "no other lib" [ ! -e multi/usr/lib/libfiddlemarsh.a ]
strange="it's \"a\" \$(shell touch ran) \`touch ran\` \$x;touch ran"
make_root install DESTDIR="$work/$strange" PREFIX="/opt/$strange"
ok "install with any DESTDIR and PREFIX" installed "$strange/opt/$strange" "$strange/opt/$strange/lib"
ok "no directory ran as code" nothing_ran
ok "the library is the one that was tested" cmp "$root/target/staticlib/libfiddlemarsh.a" plain/usr/lib/libfiddlemarsh.a
ok "the program runs" [ "$(plain/usr/bin/fiddlemarsh check --tsv example.xm | cut -f 1)" = accepted ]

# What is installed is enough for a program
version=$(sed -n 's/^#define FIDDLEMARSH_VERSION "\(.*\)"$/\1/p' plain/usr/include/fiddlemarsh.h)
cat >user.c <<'END'
#include <fiddlemarsh.h>
int main(void) { return fiddlemarsh_refusal(fiddlemarsh_check(NULL, 0)) == FIDDLEMARSH_CUT ? 0 : 1; }
END
# The directories of the pkg-config file, as that program would read them
value_of() { sed -n "s/^$1=//p" "$2" | sed "s,\${prefix},$(sed -n 's/^prefix=//p' "$2"),"; }
pc=plain/usr/lib/pkgconfig/fiddlemarsh.pc
# shellcheck disable=SC2086  # lists
compile() { $CC $CFLAGS $LDFLAGS user.c "$@" -o user >said 2>&1 && ./user; }
ok "the pkg-config file's directories" compile -I"plain$(value_of includedir $pc)" -L"plain$(value_of libdir $pc)" -lfiddlemarsh
ok "the pkg-config file's version" grep -q "^Version: $version\$" $pc
# shellcheck disable=SC2016
ok "the pkg-config file's flags" [ "$(tail -n 2 $pc)" = 'Cflags: -I"${includedir}"
Libs: -L"${libdir}" -lfiddlemarsh' ]
if command -v pkg-config >/dev/null; then
    flags=$(PKG_CONFIG_LIBDIR=plain/usr/lib/pkgconfig PKG_CONFIG_SYSROOT_DIR=plain PKG_CONFIG_ALLOW_SYSTEM_CFLAGS=1 \
        PKG_CONFIG_ALLOW_SYSTEM_LIBS=1 pkg-config --cflags --libs fiddlemarsh)
    # shellcheck disable=SC2086  # a list
    ok "pkg-config" compile $flags
fi

# The manual pages have all that there is
program=plain/usr/share/man/man1/fiddlemarsh.1 library=plain/usr/share/man/man3/fiddlemarsh.3
for page in $program $library; do
    ok "the version in $page" grep -q "^\.TH FIDDLEMARSH [13] \"\" \"fiddlemarsh $version\"\$" "$page"
    ok "the ID text in $page" grep -q '"Extended module: "' "$page"
done
plain/usr/bin/fiddlemarsh --help | sed -n 's/^  -\([a-zA-Z]\), --\([a-z]*\) .*/\1 \2/p' >options
ok "there are options" [ -s options ]
while read -r letter option; do
    ok "-$letter and --$option in the program's page" grep -q "^\.BR \\\\-$letter \", \" \\\\-\\\\-$option" $program
done <options
for function in $(grep -oE 'fiddlemarsh_[a-z_]*\(' plain/usr/include/fiddlemarsh.h | sort -u); do
    ok "$function in the library's page" grep -q "^\.BI .*$function" $library
done
sed -n 's/^    \(FIDDLEMARSH_[A-Z_]*\) = \([0-9]*\).*/\2	\1/p' plain/usr/include/fiddlemarsh.h >numbers
ok "there are refusal numbers" [ -s numbers ]
while IFS= read -r row; do
    ok "the number $row in the library's page" grep -qx "$row" $library
done <numbers

echo "make: $passed passed, $failed failed"
[ "$failed" -eq 0 ]
