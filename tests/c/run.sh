#!/bin/sh
# Compiles the C programs against the header and the archive in the folder given and runs them: card A, whose output is compared with
# what 01 prints, and every value of each flag byte.
set -eu
[ $# -eq 1 ] || { echo "usage: $0 <folder of libfirmware.a>" >&2; exit 2; }
here=$(dirname "$0")
work=$(mktemp -d)
trap 'rm -rf "$work"' EXIT
for name in card_a flags; do
    gcc -std=c11 -Wall -Wextra -Werror -I "$here/../../include" -o "$work/$name" "$here/$name.c" "$1/libfirmware.a"
done
"$work/card_a" > "$work/card_a.out"
diff "$here/card_a.out" "$work/card_a.out"
echo "card A in C: as in 01"
"$work/flags"
