#!/bin/sh
# Compiles the tree without proof, and runs its rows, its tests and the scripts that need nothing that is proved. It says how
# long each part took, and what it leaves to the gate, bash .ci/run.
exec python3 "$(dirname "$0")/.ci/unproved.py"
