#!/bin/sh
# Where Emacs is installed: tries the recipes of docs/EMACS.md, as they stand there, on the example `orders`. Not part of the tests that run
# everywhere.
#     tools/build library && sh tests/emacs/recipes.sh
set -eu
cd "$(dirname "$0")/../.."
command -v emacs >/dev/null || { echo "emacs: not installed, no recipe tried"; exit 0; }
export CARGO_TARGET_DIR="${CARGO_TARGET_DIR:-$PWD/target/cargo}"
(cd bindings/rust && cargo build --offline --quiet --example orders)
PATH=$CARGO_TARGET_DIR/debug/examples:$PATH emacs --batch -Q -l tests/emacs/recipes.el -f ert-run-tests-batch-and-exit
