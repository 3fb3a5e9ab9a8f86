#!/usr/bin/env bash
# Installs into a folder of its own, and builds and runs the examples from there, by pkg-config alone: against the
# libraries' shared forms and against their archives. A program is run in an empty environment: nothing but its own flags says
# where the libraries are. Where there is no pkg-config, it says that this wasn't tried.
set -eu
cd "$(dirname "$0")/../.."
work=$(mktemp -d)
trap 'rm -rf "$work"' EXIT
sh install.sh "$work/there" > "$work/said" 2>&1 || { cat "$work/said" >&2; exit 1; }
command -v pkg-config > /dev/null || { echo 'installed: the examples were not built, since there is no pkg-config' >&2; exit 0; }
export PKG_CONFIG_PATH=$work/there/lib/pkgconfig
${CC:-cc} -std=c99 -Wall -Wextra -Werror -pedantic -O2 examples/emulator/emulator.c $(pkg-config --cflags --libs capcheck) -o "$work/emulator"
env -i "$work/emulator" > "$work/log"
[ "$("$work/there/bin/capcheck" judge "$work/log")" = 'yes 27 1' ] || { echo 'installed.sh: the installed program gives another verdict' >&2; exit 1; }
# Builds the example with the recorder, by the one word that it needs.
recording() {
    ${CC:-cc} -std=c99 -Wall -Wextra -Werror -pedantic -O2 -DHOOKED examples/emulator/emulator.c $(pkg-config --cflags --libs capcheck_recorder) -o "$work/hooked"
    env -i "$work/hooked" > "$work/run"
    [ "$("$work/there/bin/capdiag" run "$work/run")" = 'yes 27 1 0' ] || { echo 'installed.sh: the installed recorder gives another verdict' >&2; exit 1; }
}
recording
# Builds the program that judges files, and compares what it prints of a log with what the installed program does.
judging() {
    ${CC:-cc} -std=c99 -Wall -Wextra -Werror -pedantic -O2 examples/emulator/judging.c $(pkg-config --cflags --libs capcheck_judge capcheck_freestanding) -o "$work/judging"
    [ "$(env -i "$work/judging" "$work/log")" = 'yes 27 1' ] || { echo 'installed.sh: the installed judge gives another verdict' >&2; exit 1; }
}
judging
rm "$work"/there/lib/libcapcheck_*.so
judging
recording
${CC:-cc} -std=c99 -Wall -Wextra -Werror -pedantic -O2 examples/emulator/calls.c $(pkg-config --cflags --libs capcheck) -o "$work/calls"
env -i "$work/calls"
echo 'installed: the examples were built by pkg-config, and judged'
