#!/bin/sh
# The prover refuses each wrong body of crates/NAME/wrong/, over the libraries that `rt ci` has built. Crates whose edits were
# tried since they last changed are left out, but for a tenth.
set -u
cd "$(dirname "$0")/../.." || exit 2
scripts/wrong --changed
