#!/bin/sh
# Does what `rt lib` does, in the folder of a library for C, over the libraries that `rt ci` proved and left below it.
# `rt lib` would prove each of them once more, since `rt ci` keeps of a library what others can cite, and no proofs.
#
#   cd crates/capcheck_c && sh ../../.ci/lib.sh [WORDS]
#
# Where a library was built by another command, `rt lib` has kept work, and is called; not if TOOLCHAIN names a folder to
# use in place of the kit's toolchain, which `rt lib` has no word for.
set -eu
name=$(basename "$PWD")
below=$(sed -n "s/^$name staticlib: *//p" ../../crates.txt)
[ -n "$below" ] || { echo "lib.sh: crates.txt has no library for C named $name" >&2; exit 2; }
for library in $below; do
    made=../$library/out/rlib
    [ -d "$made/$library.rlib" ] && { [ ! -e "$made/stamp" ] || [ -n "${TOOLCHAIN:-}" ]; } || exec rt lib "$@"
done
kit=$(dirname "$(rt doc)")
for library in $below; do
    made=$(cd "../$library/out/rlib" && pwd)
    set -- --extern "$library=$made/$library.rlib" -L "dependency=$made" "$@"
done
mkdir -p out
exec "$kit/bin/rattle" build --crate-name "$name" --crate-type staticlib src/lib.rt --extern "std=$kit/rlibs/std.rlib" \
    -L "dependency=$kit/rlibs" --antt-project "$kit/rattle/logic/antt-project.json" --logic-built "$kit/logic_built" \
    --links "$name=" --toolchain "${TOOLCHAIN:-$kit/toolchain}" --backend llvm --jobs 2 --incremental out/incremental "$@" -o "out/lib$name.a"
