#!/bin/sh
# Builds the library and the examples in C, Rust and Python, runs each on the stored bundle, on a broken one and on three histories,
# and compares what they print with what the program prints, by the README and, where it is built, by itself. Where it is built, a bank
# of eight threads runs over `sgt serve` in each language, and its bundles are audited as a chain; and the clients' calls end where it
# is killed. Ends with status 1 at a difference.
set -eu
export PYTHONDONTWRITEBYTECODE=1
cd "$(dirname "$0")/.."
kit=$(dirname "$(dirname "$(readlink -f "$(command -v rt)")")")
out=examples/out
mkdir -p $out

(cd crates/sgt_c && rt lib) > $out/rt.log 2>&1 || { cat $out/rt.log; exit 1; }
rm -f $out/libsgt.a
printf 'CREATE %s\nADDLIB crates/sgt_c/out/libsgt_c.a\nADDLIB %s/c/liblibc_c.a\nSAVE\nEND\n' $out/libsgt.a "$kit" | ar -M
echo '{ global: sgt_*; local: *; };' > $out/sgt.map
gcc -shared -Wl,--version-script=$out/sgt.map -Wl,--gc-sections -Wl,--whole-archive $out/libsgt.a -Wl,--no-whole-archive -o $out/libsgt.so

python3 examples/check_header.py
gcc -std=c11 -O2 -Wall -Wextra -Werror -Icrates/sgt_c examples/c/audit.c $out/libsgt.a -o $out/audit
gcc -std=c11 -g -Wall -Wextra -Werror -fsanitize=address,undefined -Icrates/sgt_c examples/c/audit.c $out/libsgt.a -o $out/audit_asan
gcc -std=c11 -O2 -Wall -Wextra -Werror examples/c/certifier.c examples/c/bank.c -pthread -o $out/bank
gcc -std=c11 -g -Wall -Wextra -Werror -fsanitize=address,undefined examples/c/certifier.c examples/c/bank.c -pthread -o $out/bank_asan
gcc -std=c11 -g -Wall -Wextra -Werror -fsanitize=thread examples/c/certifier.c examples/c/bank.c -pthread -o $out/bank_tsan
cargo build --quiet --release --offline --manifest-path examples/rust/Cargo.toml --target-dir $out/cargo

cp crates/sgt/stdin $out/stored
sed 's/r1.x.=5/r1[x]=4/' crates/sgt/stdin > $out/broken
failed=0

# compare WHO TEXT WORD STATUS EXPECTED COMMAND..: what the command prints of the text, and its status
compare() {
    who=$1 text=$2 verb=$3 ends=$4 expected=$5
    shift 5
    found=0
    "$@" "$verb" < "$text" > $out/found 2> $out/errors || found=$?
    if [ $found = "$ends" ] && cmp -s $out/found "$expected" && [ ! -s $out/errors ]; then
        return 0
    fi
    echo "differs: $who $verb < $text: status $found"
    cat $out/found $out/errors
    failed=1
}

printf 'yes 1 committed 0 refused 0 withdrawn\n' > $out/stored.audit
printf 't1\nr1[0.x]=5\nw1[0.x]=6\nfinal 0.x=6\n' > $out/stored.serial
printf 'no line 5 F10\n' > $out/broken.audit
cp $out/broken.audit $out/broken.serial
# the same logs without their certificate, and two updates that lose one
sed 2d crates/sgt/stdin > $out/logs
cp $out/stored $out/logs.certify
printf 'sgt 1\nsite 0\nitem x=5\nr1[x]=5\nr2[x]=5\nw1[x]=6\nc1\nw2[x]=7\nc2\nfinal x=7\nend\n' > $out/lost
printf 'no ranks\n1 rw 2 site 0 item x lines 4 8\n2 rw 1 site 0 item x lines 5 6\n' > $out/lost.certify
for bundle in stored broken logs lost; do
    status=0
    [ $bundle = stored ] || [ $bundle = logs ] || status=1
    words='audit serial'
    [ -f $out/$bundle.audit ] || words=certify
    for word in $words; do
        wanted=$out/$bundle.$word
        compare c $out/$bundle $word $status $wanted $out/audit
        compare c-asan $out/$bundle $word $status $wanted $out/audit_asan
        compare rust $out/$bundle $word $status $wanted $out/cargo/release/sgt
        compare python $out/$bundle $word $status $wanted python3 examples/python/sgt.py
        if command -v valgrind > /dev/null; then
            compare c-valgrind $out/$bundle $word $status $wanted valgrind -q --leak-check=full --error-exitcode=99 $out/audit
        fi
        if [ -x crates/sgt/out/sgt ]; then
            compare program $out/$bundle $word $status $wanted crates/sgt/out/sgt
        fi
        echo "$bundle $word: $(head -n 1 $wanted)"
    done
done

# what is explained begins with the auditor's line
for bundle in stored broken; do
    for who in $out/audit $out/audit_asan $out/cargo/release/sgt "python3 examples/python/sgt.py"; do
        $who explain < $out/$bundle > $out/found || true
        head -n 1 $out/found | cmp -s - $out/$bundle.audit || { echo "differs: $who explain < $bundle"; failed=1; }
        [ ! -x crates/sgt/out/sgt ] || crates/sgt/out/sgt explain < $out/$bundle | cmp -s - $out/found || { echo "differs: $who explain"; failed=1; }
    done
    echo "$bundle explain: $(wc -l < $out/found) lines"
done

# more than a hundred refused transactions: the library explains each of them, as `sgt explain --all` does
rows=crates/sgt_rows/data/rows
refusals=$rows/explain_all_of_101_refusals
for who in $out/audit $out/audit_asan $out/cargo/release/sgt "python3 examples/python/sgt.py"; do
    # shellcheck disable=SC2086
    compare "$who" $refusals/stdin explain 0 $refusals/stdout $who
done
echo "101 refusals explain: $(wc -l < $refusals/stdout) lines"

# a history that an order explains, one that none does, and one that can't be read
printf '{"tx":"a","end":"commit","ops":[["r","x",1]]}\n{"tx":"b","end":"commit","ops":[["w","x",1]]}\n' > $out/explained
printf 'yes 2 committed 0 aborted\n' > $out/explained.check
printf '{"tx":"a","end":"commit","ops":[["r","x",0],["w","x",1]]}\n{"tx":"b","end":"commit","ops":[["r","x",0],["w","x",2]]}\n' > $out/update
printf 'no G-single\n"a" ww "b" "x" 1 2 lines 1 2\n"b" rw "a" "x" 0 1 lines 2 1\n' > $out/update.check
printf '{}\n' > $out/unread
printf '! L1 line 1\n' > $out/unread.check
for history in explained update unread; do
    status=$(case $history in explained) echo 0 ;; update) echo 1 ;; *) echo 2 ;; esac)
    wanted=$out/$history.check
    compare c $out/$history check $status $wanted $out/audit
    compare c-asan $out/$history check $status $wanted $out/audit_asan
    compare rust $out/$history check $status $wanted $out/cargo/release/sgt
    compare python $out/$history check $status $wanted python3 examples/python/sgt.py
    [ ! -x crates/sgt/out/sgt ] || [ $history = unread ] || compare program $out/$history check $status $wanted crates/sgt/out/sgt
    echo "$history check: $(head -n 1 $wanted)"
done

python3 examples/python/store.py | tail -n 1 > $out/store
python3 examples/python/store.py careless | tail -n 1 > $out/careless
echo "store: $(cat $out/store)"
echo "careless store: $(cat $out/careless)"
[ "$(cat $out/store)" = 'yes 2 committed 0 refused 1 withdrawn' ] || failed=1
# the store's three counts differ, so that no binding can exchange them
python3 examples/python/store.py | sed '$d' > $out/store.bundle
compare c $out/store.bundle audit 0 $out/store $out/audit
compare rust $out/store.bundle audit 0 $out/store $out/cargo/release/sgt
compare python $out/store.bundle audit 0 $out/store python3 examples/python/sgt.py
[ "$(cat $out/careless)" = 'no line 10 F11' ] || failed=1

# run_bank WHO COMMAND..: a bank whose money stays, and whose bundles are a chain of its transactions
run_bank() {
    who=$1
    shift
    rm -rf $out/bundles
    if SGT=crates/sgt/out/sgt "$@" $out/bundles > $out/found && crates/sgt/out/sgt audit --chain $out/bundles/*.sgt > $out/chain; then
        echo "bank in $who: $(sed -n 2p $out/found), $(cat $out/chain)"
    else
        echo "fails: bank in $who"
        cat $out/found
        failed=1
    fi
}

if [ -x crates/sgt/out/sgt ]; then
    run_bank C $out/bank
    run_bank 'C, addresses watched' $out/bank_asan
    run_bank 'C, threads watched' $out/bank_tsan
    run_bank Rust $out/cargo/release/bank
    run_bank Python python3 examples/python/bank.py
    python3 bench/compare/serve/clients.py crates/sgt/out/sgt || failed=1
fi
[ $failed = 0 ] && echo 'all agree'
exit $failed
