#!/bin/sh
# A sample site in a temporary folder: some transactions, a run that is killed in the middle of a long script, and what
# stands of it.
#
#   demo/killed_run.sh [PROGRAM]      bin/onbar where no program is named
set -eu

top=$(cd "$(dirname "$0")/.." && pwd)
program=${1:-$top/bin/onbar}
onbar=$(cd "$(dirname "$program")" && pwd)/$(basename "$program")

site=$(mktemp -d)
writer=
runner=
end() {
    for job in $writer $runner; do
        kill "$job" 2>/dev/null || true
    done
    rm -rf "$site"
}
trap end EXIT
cd "$site"

fail() {
    echo "demo: $1" >&2
    exit 1
}

# Runs a command and shows it with what it prints.
run() {
    echo "\$ onbar $*"
    "$onbar" "$@"
}

# Transactions of three lines each: the number of the first, how many, and the byte that each writes on page 0 of A.
transactions() {
    awk -v first="$1" -v count="$2" -v byte="$3" 'BEGIN {
        for (n = first; n < first + count; n++) {
            printf "begin %d\nwrite %d A 0 0 %s\ncommit %d\n", n, n, byte, n
        }
    }'
}

# The position at which the log ends, from the counts that -T prints.
end_of() {
    sed -n 's/^lines .* end //p' "$1"
}

# Whether the log's record with this number is the last one of a batch that stands: its gate byte is 1. All batches have three
# records: 85 of them stand in a file, and file N at place N modulo 8.
is_committed() {
    files=$((($1 - 1) / 255))
    gate=$((8192 + 33024 * ((files + 1) % 8) + $1 - 1 - 255 * files))
    [ "$(od -An -tu1 -j $gate -N 1 log | tr -d ' ')" = 1 ]
}

echo "# A site of two spaces, and one transaction."
run -init A:4 B:2
transactions 1 1 41 >script
run -T <script
run -D A 0

echo
echo "# A script of 600 transactions, killed once some of them stand."
# The pipe stays open behind the script, so that the run can't end before it is killed.
mkfifo pipe
{ transactions 2 600 42; exec sleep 600; } >pipe &
writer=$!
echo "\$ onbar -T <pipe &"
"$onbar" -T <pipe &
runner=$!
until is_committed 600; do
    kill -0 "$runner" 2>/dev/null || fail "the run ended before it was killed"
    sleep 0.01
done
kill -KILL "$runner"
wait "$runner" 2>/dev/null || true
runner=
kill "$writer" 2>/dev/null || true
wait "$writer" 2>/dev/null || true
writer=
echo "killed"

echo
echo "# The log opens. Each transaction of the killed run stands whole or not at all."
echo "\$ onbar -T </dev/null"
"$onbar" -T </dev/null | tee found
stands=$(end_of found)
[ "$stands" -ge 600 ] || fail "a transaction that had been committed is gone"
[ $((stands % 3)) -eq 0 ] || fail "a transaction stands in part"
echo "# $((stands / 3)) transactions of three records each."
run -D A 0

echo
echo "# It takes further scripts."
transactions 9001 2 43 >script
run -T <script | tee more
[ "$(end_of more)" -eq $((stands + 6)) ] || fail "the log doesn't go on where it ended"
run -D A 0
