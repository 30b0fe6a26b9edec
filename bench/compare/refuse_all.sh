#!/bin/sh
# Refuses each growth of memory in turn, wherever a script can: in the tests of refused growths of each crate of tests, in a built
# program's commands, and in the library for C.
#
#     bench/compare/refuse_all.sh PROGRAM [LIBRARY]
#
# PROGRAM is a built `sgt`, not a script that starts it, and built without AddressSanitizer. LIBRARY is the library for C
# (examples/out/libsgt.a, which examples/run.sh makes); without one that part is left out, and it says so. Prints a line for each part,
# and what a part that doesn't hold said; ends with status 1 where one doesn't. Needs gcc. The tests are proved first, where no run has
# kept that: minutes then, and else some ten.
set -u
cd "$(dirname "$0")/../.."
program=$(realpath "$1")
library=${2:+$(realpath "$2")}
rows=crates/sgt_rows/data/rows
room=$(mktemp -d)
trap 'rm -rf "$room"' EXIT
failed=0

# part NAME COMMAND ..
part() {
    name=$1
    shift
    begun=$(date +%s)
    if "$@" > "$room/said" 2>&1; then
        echo "$name: holds, $(($(date +%s) - begun)) s: $(tail -n 1 "$room/said")"
    else
        failed=1
        echo "$name: DOES NOT HOLD, $(($(date +%s) - begun)) s"
        tail -n 20 "$room/said"
    fi
}

for crate in $(grep -rlE 'fn (growth_[a-z_]*|pledge_holds)\(' crates/*/src | cut -d / -f 2 | sort -u); do
    part "$crate" python3 bench/compare/refuse_growths.py "$crate"
done
part "each command" python3 bench/compare/fail_calls.py --growths "$program"
part "sgt check" python3 bench/compare/history/refuse_check.py "$program"
part "sgt serve" python3 bench/compare/serve/refuse_serve.py "$program"
if [ -n "$library" ]; then
    part "the library for C, built" gcc -Icrates/sgt_c bench/compare/refuse_library.c "$library" \
        -Wl,--wrap=malloc,--wrap=realloc,--wrap=free -o "$room/refuse"
    part "the library for C" "$room/refuse" "$rows/only_cycle_bundle/stdin" "$rows/certify_no_order_of_three/stdin" \
        "$rows/history_write_skew/stdin"
else
    echo "the library for C: left out, no LIBRARY is named"
fi
date -u +'tried on %d %B %Y'
exit $failed
