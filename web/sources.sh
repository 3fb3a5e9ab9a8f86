#!/bin/sh
# The sources of the page: of its modules, each crate that they are built from, and of the page the files of web/.
#
#   sh web/sources.sh            a line for each: its name, and a hash of its files
#   sh web/sources.sh --hash     one hash of all
#   sh web/sources.sh --compare  says which of them changed since web/capcheck.html was built; then the status is 1
set -eu
cd "$(dirname "$0")/.."

hash() { sha256sum | cut -c 1-16; }

# A library for C and all that it is built from, by crates.txt.
crates() {
    for library in capcheck_c capcheck_freestanding capcheck_judge; do
        echo "$library"
        sed -n "s/^$library staticlib: *//p" crates.txt | tr ' ' '\n'
    done | LC_ALL=C sort -u
}

sources() {
    for crate in $(crates); do
        printf '%s %s\n' "$crate" "$(find "crates/$crate/src" -type f | LC_ALL=C sort | xargs sha256sum | hash)"
    done
    printf 'web %s\n' "$(sha256sum web/*.js web/page.html web/style.css web/build.sh web/heap.c \
        conformance/runs/36-of-the-second.log conformance/heaps/24.41-28-by-rounding-of-the-new-object.log examples/escaped_bound.log examples/wrong_result.log examples/memory.log | hash)"
}

case ${1:-} in
    '') sources ;;
    --hash) sources | hash ;;
    --compare)
        changed=$(sources | awk '
            NR == FNR { now[$1] = $2; next }
            /^<script id="sources"/ { inside = 1; next }
            /^<\/script>/ { inside = 0 }
            inside { was[$1] = $2 }
            END {
                for (name in now) if (now[name] != was[name]) print name
                for (name in was) if (!(name in now)) print name
            }
        ' - web/capcheck.html | LC_ALL=C sort | tr '\n' ' ')
        [ -n "$changed" ] || exit 0
        echo "web/capcheck.html was built from other sources than these: ${changed% }. Build it anew: sh web/build.sh --keep"
        exit 1
        ;;
    *) echo "sources.sh: unknown word '$1'" >&2; exit 2 ;;
esac
