#!/bin/sh
# Builds the recorder for C, recorder/out/libcapcheck_recorder.a. It needs a C compiler (CC, or cc) and an archiver (AR, or ar).
set -eu
cd "$(dirname "$0")/.."
mkdir -p recorder/out
${CC:-cc} -std=c99 -Wall -Wextra -Wconversion -Wshadow -Werror -pedantic -O2 -fPIC -Iinclude -c recorder/recorder.c -o recorder/out/recorder.o
rm -f recorder/out/libcapcheck_recorder.a
${AR:-ar} rcs recorder/out/libcapcheck_recorder.a recorder/out/recorder.o
