#!/bin/sh
# All tests. The gate, `rt ci`, proves every crate and tries the must-fail edits; its last line is the last line here.
set -u
cd "$(dirname "$0")" || exit 1

# Where cargo is installed for one user, the path may not have it.
command -v cargo > /dev/null || PATH="$PATH:${CARGO_HOME:-${HOME:-}/.cargo}/bin"
export PATH

python3 tests/documents.py || exit 1
python3 tests/proofs.py || exit 1
python3 tests/edges.py || exit 1
python3 tests/nodes.py || exit 1
python3 tests/settlings.py || exit 1
python3 tests/text.py || exit 1

work=$(mktemp -d) || exit 1
trap 'rm -rf "$work"' EXIT
{ rt ci 2>&1; echo $? > "$work/status"; } | tee "$work/log"
[ "$(cat "$work/status")" = 0 ] || exit 1
# An edit that cannot be tried fails nothing in the gate.
if grep '^rt: ok' "$work/log" | grep -q ', [1-9][0-9]* bad'; then
    echo "test.sh: a must-fail edit is bad"
    exit 1
fi

# The gate has just left the programs. The archive for C and Rust is built while tests run that need none.
python3 tools/build.py --proved || exit 1
python3 tools/build.py cobleskeg_c > "$work/archive" 2>&1 &
archive=$!
python3 tests/clash.py || exit 1
python3 tests/rules.py || exit 1
python3 tests/doubtful.py || exit 1
wait "$archive" || { cat "$work/archive"; exit 1; }
tail -n 1 "$work/archive"
python3 tests/solve.py || exit 1
python3 tests/check.py || exit 1
python3 tests/brute.py || exit 1
python3 tests/examples.py || exit 1
python3 tests/interface.py || exit 1

# The edits must be refused because a fact fails: the gate has said why each was.
python3 tests/must_fail.py "$work/log" || exit 1
tail -n 1 "$work/log"
