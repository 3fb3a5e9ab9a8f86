#!/bin/sh
# The modules against the vectors, the example logs, the corpora of run logs and of allocators' logs, and the table of dumps,
# where an engine that takes them is here: node, with its flag for 64-bit memory or without; where wasm-opt is here the
# modules have 32-bit memory, and any node takes them. It prints `web: N calls agreed`, or that none were tried, and ends with status 0; where a call disagrees it names
# the line, the log or the dump and ends with status 1.
set -eu
cd "$(dirname "$0")/.."
probe='process.exit(WebAssembly.validate(Uint8Array.of(0, 97, 115, 109, 1, 0, 0, 0, 5, 3, 1, 4, 0)) ? 0 : 1)'
command -v wasm-opt > /dev/null && wasm-opt --help | grep -q -e --memory64-lowering && probe='process.exit(0)'
for flag in '' --experimental-wasm-memory64; do
    # shellcheck disable=SC2086 # no flag is no word
    if command -v node > /dev/null && node $flag -e "$probe" 2> /dev/null; then
        sh web/build.sh --module
        exec node $flag web/check.mjs web/out/capcheck.wasm web/out/judge.wasm web/out/runs.wasm examples/vectors/*.vectors examples/*.log
    fi
done
echo 'web: no calls were tried, since neither wasm-opt nor an engine with 64-bit memory is here'
