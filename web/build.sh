#!/bin/sh
# Builds the page: web/out/capcheck.html, one file with both modules in it, packed. It proves the libraries for C
# first, unless earlier work of the kit is there; this takes some minutes.
#
#   sh web/build.sh           the modules and the page
#   sh web/build.sh --module  the modules alone, web/out/capcheck.wasm, web/out/judge.wasm and web/out/runs.wasm
#   sh web/build.sh --page    the page, with the modules that are in web/out
#   sh web/build.sh --keep    the page, and web/capcheck.html, which the tree keeps
#
# The compiler gives modules with 64-bit memory. wasm-opt, of Debian's package binaryen, lowers them to 32-bit memory,
# which every browser has; the page isn't built without it.
#
# The judge of run logs allocates, and the compiler gives no module that does. So what it gives to clang when it compiles
# that library for x86-64, LLVM's code, is kept, and compiled for WebAssembly by the kit's clang, beside heap.c.
#
# RT_LIB may name another command in place of `rt lib`, and PAGES where the links of the page lead to in place of this
# checkout.
set -eu
cd "$(dirname "$0")/.."
kit=$(dirname "$(rt doc)")
target=wasm64-unknown-unknown
mkdir -p web/out
have_lowering() { command -v wasm-opt > /dev/null && wasm-opt --help | grep -q -e --memory64-lowering; }
[ "${1:-}" = --module ] || have_lowering || {
    echo 'build.sh: no wasm-opt that has --memory64-lowering is here: apt-get install binaryen' >&2
    exit 1
}

# The library for this machine has the same place as the one for the page: it is put back.
kept=web/out/kept.a
put_back() {
    rm -f "$archive"
    [ ! -f "$kept" ] || mv "$kept" "$archive"
}

# The features of WebAssembly that the compiler uses besides 64-bit memory; all browsers have them.
features='--enable-bulk-memory --enable-mutable-globals --enable-nontrapping-float-to-int --enable-sign-ext'

# lowered NAME: web/out/NAME.wasm with 32-bit memory, where wasm-opt is here.
lowered() {
    have_lowering || return 0
    # shellcheck disable=SC2086 # one word each
    wasm-opt --enable-memory64 $features --memory64-lowering "web/out/$1.wasm" -o "web/out/$1.lowered"
    mv "web/out/$1.lowered" "web/out/$1.wasm"
}

# module CRATE NAME: web/out/NAME.wasm of a library for C.
module() {
    archive=crates/$1/out/lib$1.a
    rm -f "$kept"
    [ ! -f "$archive" ] || cp -p "$archive" "$kept"
    trap put_back EXIT
    {
        (cd "crates/$1" && ${RT_LIB:-rt lib} --target "$target") &&
            "$kit/bin/rattle-link" --target "$target" --toolchain "$kit/toolchain" -o "web/out/$2.wasm" "$archive"
    } > web/out/said 2>&1 || { cat web/out/said >&2; exit 1; }
    trap - EXIT
    put_back
    lowered "$2"
}

# kept_code CRATE: LLVM's code of a library for C, as web/out/kept.ll. A toolchain whose clang keeps what it compiles stands
# in for the kit's. Code for any x86-64 has no instruction that only some processors have.
kept_code() {
    archive=crates/$1/out/lib$1.a
    rm -f "$kept"
    [ ! -f "$archive" ] || cp -p "$archive" "$kept"
    rm -rf web/out/toolchain web/out/kept.ir web/out/kept.ll
    mkdir -p web/out/toolchain/bin
    ln -s "$kit"/toolchain/bin/* web/out/toolchain/bin
    ln -s "$kit/toolchain/lib" web/out/toolchain/lib
    rm web/out/toolchain/bin/clang
    cat > web/out/toolchain/bin/clang <<-END
	#!/bin/sh
	for word; do case \$word in *.bc | *.ll) cp "\$word" "$PWD/web/out/kept.ir" ;; esac; done
	exec "$kit/toolchain/bin/clang" "\$@"
	END
    chmod +x web/out/toolchain/bin/clang
    # `rt lib` takes no other toolchain, but leaves the libraries that lib.sh builds over.
    TOOLCHAIN=$PWD/web/out/toolchain
    export TOOLCHAIN
    (cd "crates/$1" && ${RT_LIB:-rt lib} --cpu x86-64)
    [ -e web/out/kept.ir ] || (cd "crates/$1" && sh ../../.ci/lib.sh --cpu x86-64)
    unset TOOLCHAIN
    put_back
    "$kit/toolchain/bin/clang" -S -emit-llvm -Xclang -disable-llvm-passes -x ir web/out/kept.ir -o web/out/kept.ll
}

# What the page calls of the judges of run logs and of allocators' logs, without capcheck_.
calls="$(printf 'run_judge_%s ' open lines end end_report held owner object next_object holder hart next_hart owner_in holder_hart) heap_judge_why"

# module_with_heap CRATE NAME: web/out/NAME.wasm of a library for C that allocates.
module_with_heap() {
    kept_code "$1"
    # What x86-64 has for itself goes, and what the page calls is exported.
    sed -e '/^target datalayout/d' -e "s/^target triple.*/target triple = \"$target\"/" \
        -e 's/ "\(probe-stack\|stack-probe-size\|target-cpu\)"="[^"]*"//g' \
        -e "s/^\(define .*@\(capcheck_\($(echo "$calls" | sed 's/  */\\|/g')\)\)(.*)\) #/\1 \"wasm-export-name\"=\"\2\" #/" \
        web/out/kept.ll > web/out/wasm.ll
    compiled="$kit/toolchain/bin/clang --target=$target -mcpu=lime1 -mllvm -expand-div-rem-bits=64 -ffunction-sections -Werror -c"
    $compiled -O3 -x ir web/out/wasm.ll -o web/out/wasm.o
    $compiled -O2 -std=c99 -ffreestanding -nostdinc -Wall -Wextra -pedantic -x c web/heap.c -o web/out/heap.o
    rm -f "web/out/$2.a"
    "$kit/toolchain/bin/llvm-ar" rc "web/out/$2.a" web/out/wasm.o web/out/heap.o
    "$kit/bin/rattle-link" --target "$target" --toolchain "$kit/toolchain" -o "web/out/$2.wasm" "web/out/$2.a"
    lowered "$2"
}

if [ "${1:-}" != --page ]; then
    module capcheck_c capcheck
    module capcheck_freestanding judge
    trap 'put_back; cat web/out/said >&2' EXIT
    module_with_heap capcheck_judge runs > web/out/said 2>&1
    trap - EXIT
fi
[ "${1:-}" != --module ] || exit 0

# A script or the style without its remarks and the blanks before a line.
plain() {
    awk '
        FNR == 1 { remark = 0 }
        { sub(/^ +/, "") }
        /^\/\*\*/ { remark = 1 }
        !remark && !/^(\/\/.*)?$/
        /\*\/$/ { remark = 0 }
    ' "$@"
}

packed() { gzip -9 -n | base64 -w 120; }

for module in capcheck judge runs; do packed < "web/out/$module.wasm" > "web/out/$module.base64"; done
cd web
plain words.js lines.js facts.js drawing.js pasting.js vectors.js reports.js formless.js faults.js allocators.js links.js log.js objects.js picture.js stepping.js page.js | packed > out/page.base64
plain words.js lines.js trace.js judging.js shortest.js runs.js timeline.js heaps.js working.js | packed > out/worker.base64
plain style.css > out/style.css
sh sources.sh > out/sources
# A line `@NAME@` of page.html is the file NAME, `@pages@` where links lead to, and `@hash@` the hash of all sources.
page() {
    awk '
        /^@[a-z0-9_.\/]+@$/ {
            name = substr($0, 2, length($0) - 2)
            while ((got = (getline line < name)) > 0) print line
            if (got < 0) { print "build.sh: no file " name > "/dev/stderr"; exit 1 }
            close(name)
            next
        }
        { gsub(/@pages@/, pages); gsub(/@hash@/, hash); print }
    ' pages="$1" hash="$(sh sources.sh --hash)" page.html
}
page "${PAGES:-../..}" > out/capcheck.html
echo "web/out/capcheck.html: $(wc -c < out/capcheck.html) bytes, of which the modules are $(cat out/capcheck.base64 out/judge.base64 out/runs.base64 | wc -c)"
[ "${1:-}" != --keep ] || page .. > capcheck.html
