#!/bin/sh
# docs/CLAUSES.md and docs/DEFINITIONS.md have the definitions as the sources have them.
set -u
cd "$(dirname "$0")/../.." || exit 2
exec python3 scripts/theorem --check
