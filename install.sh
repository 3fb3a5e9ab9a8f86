#!/bin/sh
# Installs what is built here below a folder: sh install.sh PREFIX
#
#   PREFIX/bin/capcheck              the program, and capdiag, which says why a log got a no
#   PREFIX/lib/libcapcheck_c.a       the library for C, and libcapcheck_c.so made of it
#   PREFIX/lib/libcapcheck_judge.a   the judge for C, and libcapcheck_judge.so made of it
#   PREFIX/lib/libcapcheck_recorder.a  the recorder for C, and libcapcheck_recorder.so made of it
#   PREFIX/lib/libcapcheck_freestanding.a  the judge without a heap, and libcapcheck_freestanding.so made of it
#   PREFIX/lib/pkgconfig/*.pc        what `pkg-config --cflags --libs capcheck` reads, or `capcheck_judge` or
#                                    `capcheck_freestanding` for the judges, or `capcheck_recorder`, with the libraries that
#                                    they use. A program that is linked with these flags finds the libraries below PREFIX
#   PREFIX/include/capcheck*.h       their headers
#   PREFIX/share/man/man1/*.1        the programs' manual pages
#   PREFIX/share/bash-completion/completions/, share/zsh/site-functions/, share/fish/vendor_completions.d/
#                                    the completion of their words in these shells
#   PREFIX/share/capcheck/           the Python package, the commands for GDB that use it, the Rust crate, and sources: the
#                                    recorders and the example emulators
#   PREFIX/share/gdb/auto-load/      a file by which a GDB installed below PREFIX loads these commands with the library
#
# DESTDIR goes in front of PREFIX, and is named in no file. What isn't built yet is proved and built first, which
# needs the Rattle kit; a line says when each crate is proved, and CONTRIBUTING.md how long it takes. The shared libraries
# and the judge need a C compiler: CC, or cc.
set -eu
[ $# = 1 ] || { echo 'usage: sh install.sh PREFIX' >&2; exit 2; }
case $1 in
    /*) prefix=$1 ;;
    *) prefix=$(pwd)/$1 ;;
esac
cd "$(dirname "$0")"
to=${DESTDIR:-}$prefix
program=crates/capcheck/out/capcheck
diagnosis=crates/capdiag/out/capdiag
library=crates/capcheck_c/out/libcapcheck_c.a
freestanding=crates/capcheck_freestanding/out/libcapcheck_freestanding.a
judge=judge/out/libcapcheck_judge.a
recorder=recorder/out/libcapcheck_recorder.a
version=$(sed -n 's/^#define CAPCHECK_VERSION_STRING "\(.*\)"$/\1/p' include/capcheck.h)

# What another command built is taken as it is, and the rest is proved side by side, unless it was.
missing=
for crate in capcheck capdiag capcheck_c capcheck_judge capcheck_freestanding; do
    case $crate in
        capcheck_*) made=crates/$crate/out/lib$crate.a ;;
        *) made=crates/$crate/out/$crate ;;
    esac
    [ -f "$made" ] && [ ! -f "crates/$crate/out/prove.sum" ] || missing="$missing $crate"
done
[ -z "$missing" ] || python3 .ci/prove.py $missing
RT_LIB=true sh judge/build.sh
sh recorder/build.sh

mkdir -p "$to/bin" "$to/lib/pkgconfig" "$to/include" "$to/share/man/man1" "$to/share/capcheck/capcheck/dialects"
mkdir -p "$to/share/capcheck/rust/src" "$to/share/capcheck/examples/emulator" "$to/share/capcheck/examples/objects" "$to/share/capcheck/examples/allocator" "$to/share/capcheck/examples/revoker" "$to/share/capcheck/examples/threads" "$to/share/capcheck/examples/traces"
cp "$program" "$to/bin/capcheck"
cp "$diagnosis" "$to/bin/capdiag"
cp "$library" "$to/lib/libcapcheck_c.a"
cp "$judge" "$to/lib/libcapcheck_judge.a"
cp "$recorder" "$to/lib/libcapcheck_recorder.a"
cp "$freestanding" "$to/lib/libcapcheck_freestanding.a"
cp include/*.h "$to/include/"
cp docs/capcheck.1 docs/capdiag.1 "$to/share/man/man1/"
mkdir -p "$to/share/bash-completion/completions" "$to/share/zsh/site-functions" "$to/share/fish/vendor_completions.d"
cp completions/capcheck.bash "$to/share/bash-completion/completions/capcheck"
ln -sf capcheck "$to/share/bash-completion/completions/capdiag"
cp completions/_capcheck "$to/share/zsh/site-functions/"
cp completions/*.fish "$to/share/fish/vendor_completions.d/"
cp python/capcheck/*.py python/capcheck/py.typed "$to/share/capcheck/capcheck/"
cp python/capcheck/dialects/*.json "$to/share/capcheck/capcheck/dialects/"
cp web/capcheck.html "$to/share/capcheck/capcheck/page.html"
cp gdb/capcheck_gdb.py docs/report.schema.json docs/trace.schema.json "$to/share/capcheck/"
cp rust/Cargo.toml rust/build.rs "$to/share/capcheck/rust/"
cp rust/src/*.rs "$to/share/capcheck/rust/src/"
cp examples/preload.h "$to/share/capcheck/examples/"
cp examples/*.log "$to/share/capcheck/examples/"
cp examples/emulator/first.c examples/emulator/emulator.c examples/emulator/faults.c examples/emulator/machine.c "$to/share/capcheck/examples/emulator/"
cp examples/objects/objects.c examples/objects/overruns.c "$to/share/capcheck/examples/objects/"
cp examples/allocator/*.c "$to/share/capcheck/examples/allocator/"
cp examples/revoker/revoker.c "$to/share/capcheck/examples/revoker/"
cp examples/threads/threads.c "$to/share/capcheck/examples/threads/"
cp examples/traces/plain.* "$to/share/capcheck/examples/traces/"
mkdir -p "$to/share/gdb/auto-load$prefix/lib"
echo "import sys; sys.path.insert(0, '$prefix/share/capcheck'); import capcheck_gdb" > "$to/share/gdb/auto-load$prefix/lib/libcapcheck_c.so.1-gdb.py"
# shared NAME HEADER [WORDS]: makes a shared library of an archive. It exports the functions that the header declares. WORDS are
# passed to the linker: the libraries that it needs.
shared() {
    name=$1 header=$2
    shift 2
    {
        echo '{ global:'
        sed -n 's/^[a-z].*[ *]\(capcheck_[a-z_]*\)(.*/\1;/p' "include/$header"
        echo 'local: *; };'
    } | ${CC:-cc} -shared -Wl,-soname,"lib$name.so.1" -Wl,--version-script=/dev/stdin \
        -Wl,--whole-archive "$to/lib/lib$name.a" -Wl,--no-whole-archive "$@" -o "$to/lib/lib$name.so.1"
    ln -sf "lib$name.so.1" "$to/lib/lib$name.so"
}
shared capcheck_c capcheck.h
shared capcheck_judge capcheck_judge.h
shared capcheck_freestanding capcheck_freestanding.h
# The recorder finds the two libraries beside it.
shared capcheck_recorder capcheck_recorder.h "$to/lib/libcapcheck_judge.so.1" "$to/lib/libcapcheck_c.so.1" '-Wl,-rpath,$ORIGIN'
cat > "$to/lib/pkgconfig/capcheck.pc" <<PC
prefix=$prefix
libdir=\${prefix}/lib

Name: capcheck
Description: 128-bit CHERI capabilities: what a word means, bounds, operations, and the lines of a log
Version: $version
Cflags: -I\${prefix}/include
Libs: -L\${libdir} -Wl,-rpath,\${libdir} -lcapcheck_c
PC
cat > "$to/lib/pkgconfig/capcheck_judge.pc" <<PC
prefix=$prefix
libdir=\${prefix}/lib

Name: capcheck_judge
Description: the judge of logs of 128-bit CHERI capabilities, linked into a program
Version: $version
Requires: capcheck
Cflags: -I\${prefix}/include
Libs: -L\${libdir} -Wl,-rpath,\${libdir} -lcapcheck_judge
PC
cat > "$to/lib/pkgconfig/capcheck_recorder.pc" <<PC
prefix=$prefix
libdir=\${prefix}/lib

Name: capcheck_recorder
Description: a recorder of run logs for an emulator, which may judge them at once
Version: $version
Requires: capcheck_judge
Cflags: -I\${prefix}/include
Libs: -L\${libdir} -Wl,-rpath,\${libdir} -lcapcheck_recorder
PC
cat > "$to/lib/pkgconfig/capcheck_freestanding.pc" <<PC
prefix=$prefix
libdir=\${prefix}/lib

Name: capcheck_freestanding
Description: the judge of logs of 128-bit CHERI capabilities without a heap
Version: $version
Requires: capcheck
Cflags: -I\${prefix}/include
Libs: -L\${libdir} -Wl,-rpath,\${libdir} -lcapcheck_freestanding
PC
echo "capcheck $version is installed below $to"
