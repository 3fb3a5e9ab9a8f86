#!/bin/sh
# Times decoding and rounding called from C, the library's beside a transcription of the Sail way, in ns a
# call: (cd crates/capcheck_c && rt lib) && sh bench/from_c.sh
set -eu
cd "$(dirname "$0")/.."
work=$(mktemp -d)
trap 'rm -rf "$work"' EXIT
flags='-std=c11 -D_POSIX_C_SOURCE=199309L -O2 -Wall -Wextra -Werror -pedantic -Iinclude'
${CC:-cc} $flags -c bench/sail_way.c -o "$work/sail_way.o"
${CC:-cc} $flags bench/from_c.c "$work/sail_way.o" crates/capcheck_c/out/libcapcheck_c.a -o "$work/from_c"
"$work/from_c"
