#!/bin/sh
# The constant with the page for browsers is what web/index.html says.
set -u
cd "$(dirname "$0")/../.." || exit 2
exec python3 scripts/page --check
