#!/bin/sh
# Makes an archive that runs without the Rattle kit, out/capcheck-VERSION-x86_64-linux.tar.gz, and tries it: it is unpacked in
# an empty folder, and run there without this machine's environment. Of a version that isn't released, such as 1.3.0-dev, its
# name has the commit too, as 1.3.0-dev-0123abcd.
#
#   sh release.sh
#
# It has what install.sh installs, the wheel of the Python package, the browser page, all pages with the files that they name
# and link to, the kit's name in KIT, and SHA256SUMS. The trial follows each link of its pages and runs their commands. It needs
# what install.sh needs, and objdump. It stops if the page that the tree keeps, web/capcheck.html,
# was built from other sources.
set -eu
cd "$(dirname "$0")"
version=$(sed -n 's/^#define CAPCHECK_VERSION_STRING "\(.*\)"$/\1/p' include/capcheck.h)
commit=$(git rev-parse --short=8 HEAD)
case $version in
    *-dev) name=capcheck-$version-$commit-x86_64-linux ;;
    *) name=capcheck-$version-x86_64-linux ;;
esac
work=$(mktemp -d)
trap 'rm -rf "$work"' EXIT
to=$work/$name

sh web/sources.sh --compare
DESTDIR=$work sh install.sh "/$name"
# Nothing in the archive depends on where it is unpacked.
rm -r "$to/share/gdb"
sed -i 's|^prefix=.*|prefix=${pcfiledir}/../..|' "$to"/lib/pkgconfig/*.pc
CAPCHECK_LIB=$to/lib python3 python/build_wheel.py "$to"
git ls-files -z README.md CHANGELOG.md CONTRIBUTING.md INTERNALS.md PROMISES.md docs examples conformance bench web/README.md web/PASTING.md web/capcheck.html include judge/heap.c recorder/recorder.c |
    tar --null -T - -cf - | tar -C "$to" -xf -
rt version > "$to/KIT"
needed=$(objdump -p "$to"/bin/* "$to"/lib/*.so.1 | sed -n 's/^ *NEEDED *//p' | grep -v '^libcapcheck_' | sort -u)
glibc=$(objdump -T "$to"/bin/* "$to"/lib/*.so.1 | grep -o 'GLIBC_[0-9.]*' | sort -uV | tail -n 1)
cat > "$to/RELEASE.txt" <<TEXT
Nawhorimo $version (commit $commit) for x86-64-v2 Linux. Programs and shared libraries need $(echo $needed) alone, ${glibc#GLIBC_} or later.

Unpack it anywhere, and add bin/ to your PATH.

bin/                            the programs capcheck and capdiag; share/man has their manual pages
include/, lib/                  the C libraries: docs/C.md. PKG_CONFIG_PATH=\$PWD/lib/pkgconfig finds them
*.whl                           the Python package, with the libraries in it: python3 -m pip install FILE; docs/PYTHON.md
share/capcheck/capcheck_gdb.py  commands for GDB: source FILE; docs/GDB.md
share/capcheck/rust             the Rust crate: docs/C.md
share/capcheck/examples         sources: the recorders, and example emulators; docs/RECORDING.md, docs/ALLOCATORS.md
web/capcheck.html               the page, for a browser
examples/                       logs to judge, recorders and emulators: bin/capcheck judge examples/moves.log
docs/, README.md                the pages; docs/FIRST_HOUR.md is a tutorial that needs this archive alone
conformance/                    logs with their verdicts, for authors of judges and emulators
KIT                             the Rattle kit that proved and built it
SHA256SUMS                      sha256sum -c SHA256SUMS
TEXT
(cd "$to" && find . -type f ! -name SHA256SUMS | LC_ALL=C sort | xargs sha256sum > SHA256SUMS)
mkdir -p out
tar -C "$work" --sort=name --owner=0 --group=0 --numeric-owner --mtime="@$(git log -1 --format=%ct)" -cf - "$name" | gzip -9n > "out/$name.tar.gz"

# The trial.
mkdir "$work/empty"
tar -C "$work/empty" -xzf "out/$name.tar.gz"
cd "$work/empty/$name"
failed() { echo "release.sh: $1" >&2; exit 1; }
sha256sum -c --quiet SHA256SUMS
[ "$(env -i bin/capcheck judge examples/moves.log)" = 'yes 2 1' ] || failed 'capcheck gives another verdict'
[ "$(env -i bin/capdiag why examples/escaped_bound.log | head -n 1)" = 'no 5 11 BoundsEscape' ] || failed 'capdiag gives another verdict'
if command -v pkg-config > /dev/null; then
    env -i PATH="$PATH" PKG_CONFIG_PATH="$PWD/lib/pkgconfig" sh -c "${CC:-cc} "'share/capcheck/examples/emulator/emulator.c $(pkg-config --cflags --libs capcheck) -o emulator'
    [ "$(env -i ./emulator | env -i bin/capcheck judge)" = 'yes 27 1' ] || failed 'a program over the libraries prints otherwise'
fi
python3 "$OLDPWD/docs/check.py" --archive "$PWD" || failed 'a page of the archive says what is not so'
[ "$needed" = libc.so.6 ] || failed "other libraries are needed: $needed"
echo "out/$name.tar.gz: $(wc -c < "$OLDPWD/out/$name.tar.gz") bytes; needs libc.so.6 of ${glibc#GLIBC_} or later"
