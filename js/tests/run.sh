#!/bin/sh
# All tests of js/, with node alone; what is not installed is skipped by name. MSEPLAY_REBUILD=1 builds the module anew too.
cd "$(dirname "$0")/.." || exit 1
exec node --test tests/*.test.mjs
