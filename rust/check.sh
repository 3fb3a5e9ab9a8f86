#!/bin/sh
# Checks the Rust crate: compares it with the headers, makes 20,000 random calls whose answers are those of the Python package,
# judges the run logs and the allocators' logs of the corpus, and builds a program over the installed crate in an empty
# environment. Without cargo it says that all but the first is left out.
#
#   sh rust/check.sh [PREFIX]
#
# PREFIX is the folder that install.sh installed below; without it, the script installs into a folder of its own. The number of
# calls is CALLS, or 20000. Cargo takes nothing from a network.
set -eu
cd "$(dirname "$0")/.."
work=$(mktemp -d)
trap 'rm -rf "$work"' EXIT
if [ $# = 1 ]; then
    prefix=$(cd "$1" && pwd)
else
    prefix=$work/there
    sh install.sh "$prefix" > "$work/said" 2>&1 || { cat "$work/said" >&2; exit 1; }
fi
export PYTHONDONTWRITEBYTECODE=1
python3 -c 'import sys; sys.exit(sys.version_info < (3, 10))' || { echo 'rust/check.sh: left out: the Rust crate: python3 is older than 3.10'; exit 0; }
python3 rust/abi_check.py "$prefix"
command -v cargo > /dev/null || { echo 'rust/check.sh: left out: the tests of the Rust crate, since there is no cargo'; exit 0; }
PYTHONPATH="$prefix/share/capcheck" python3 rust/answers.py "${CALLS:-20000}" > "$work/answers"
cp -r rust "$work/rust"
corpus=$PWD/conformance
(cd "$work/rust" && CAPCHECK_LIB="$prefix/lib" ANSWERS="$work/answers" CORPUS="$corpus" RUSTFLAGS='-D warnings' cargo test --offline -q > "$work/said" 2>&1) ||
    { cat "$work/said" >&2; exit 1; }

# A program of a user: its manifest names the installed crate, and nothing else says where the libraries are.
mkdir -p "$work/user/src"
cat > "$work/user/Cargo.toml" <<TOML
[package]
name = "user"
version = "0.1.0"
edition = "2021"

[dependencies]
capcheck = { path = "$prefix/share/capcheck/rust" }
TOML
echo 'fn main() { println!("{}", capcheck::judge_bytes(&std::fs::read(std::env::args().nth(1).unwrap()).unwrap()).unwrap()); }' > "$work/user/src/main.rs"
got=$(cd "$work/user" && env -i PATH="$PATH" HOME="$HOME" cargo run --offline -q -- "$OLDPWD/examples/moves.log" 2>&1) || :
[ "$got" = 'yes 2 1' ] || { echo "rust/check.sh: a program over the installed crate prints $got" >&2; exit 1; }
echo "the Rust crate answers $(wc -l < "$work/answers") calls as the Python package does"
