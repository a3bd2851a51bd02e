#!/usr/bin/env bash
# long.sh [CALLS [SEED]]: a long run of tests/differential/differential.c: five million calls and a seed by the clock,
# unless said. It begins with the largest work, which the run of check leaves out and which takes 3 GiB of memory.
# LIBRARY names another archive than the one that is built here from the sources.
set -u
calls=${1-5000000} seed=${2-$(date +%s)}
cd "$(dirname "$0")/../.." || exit 2
. tests/library.sh
run_for_long tests/differential/differential.c "$calls" "$seed" largest
