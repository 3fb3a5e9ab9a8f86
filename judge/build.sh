#!/bin/sh
# Builds the judge for C: proves it, and packs the functions by which it takes memory (judge/heap.c) into its archive,
# judge/out/libcapcheck_judge.a. These get the library's prefix there, so that another library that is made by the same
# kit may be linked beside it. It needs the Rattle kit, a C compiler (CC, or cc), an archiver (AR, or ar) and OBJCOPY, or
# objcopy.
#
#   sh judge/build.sh [WORDS]
#
# WORDS go to `rt lib`, as --cpu x86-64 for any x86-64, or to RT_LIB, where it names another command in its place.
set -eu
cd "$(dirname "$0")/.."
mkdir -p judge/out
(cd crates/capcheck_judge && ${RT_LIB:-rt lib} "$@")
${CC:-cc} -std=c99 -Wall -Wextra -Wconversion -Werror -pedantic -O2 -fPIC -Iinclude -c judge/heap.c -o judge/out/heap.o
cp crates/capcheck_judge/out/libcapcheck_judge.a judge/out/new.a
${AR:-ar} rs judge/out/new.a judge/out/heap.o
${OBJCOPY:-objcopy} --redefine-sym rattle_alloc=capcheck_judge_alloc --redefine-sym rattle_realloc=capcheck_judge_realloc \
    --redefine-sym rattle_dealloc=capcheck_judge_dealloc judge/out/new.a
mv judge/out/new.a judge/out/libcapcheck_judge.a
