#!/bin/sh
# Tries the page in a real browser: Debian's chromium, headless, driven by node. It builds the page first.
# Its last line is `N passed, M failed`. Pictures of the page are then in web/out/pictures.
set -eu
cd "$(dirname "$0")/.."
[ "${1:-}" = --built ] || sh web/build.sh
exec node web/test.mjs
