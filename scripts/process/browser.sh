#!/bin/sh
# The page of `octo serve` in headless Chromium, with a modelled printer.
set -u
cd "$(dirname "$0")/../.." || exit 2
scripts/build octo marlin_sim || exit 1
exec python3 -B scripts/browser
