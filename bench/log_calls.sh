#!/bin/sh
# Counts the calls that `onbar -T` makes on the log's file: the writes and syncs of a commit of three lines, and what the first
# commit of each next file costs beside; the reads of the slots of a log whose eight files are full. It times nothing.
#
#   bench/log_calls.sh [PROGRAM]     bin/onbar where no program is named
#
# It works in a temporary folder. Where strace can't trace, it says so and counts nothing.
set -eu

if ! strace -o /dev/null true 2>/dev/null; then
    echo "log_calls.sh: strace can't trace here" >&2
    exit 0
fi

top=$(cd "$(dirname "$0")/.." && pwd)
program=${1:-$top/bin/onbar}
onbar=$(cd "$(dirname "$program")" && pwd)/$(basename "$program")

work=$(mktemp -d)
trap 'rm -rf "$work"' EXIT
cd "$work"

# Commits of three lines: HOW MANY
script() {
    awk -v count="$1" 'BEGIN {
        for (n = 1; n <= count; n++) {
            printf "begin %d\nwrite %d A 0 0 %08x\ncommit %d\n", n, n, n, n
        }
    }'
}

# Runs a script over a new site, and leaves the calls on the log in a file: HOW MANY
trace() {
    rm -rf site
    cp -R fresh site
    script "$1" | (cd site && strace -f -y -o ../all -e trace=pread64,pwrite64,fdatasync "$onbar" -T >../text)
    grep '/log>' all >calls
}

# How many calls of a name there were: CALL
count() {
    grep -c " $1(" calls || true
}

# The writes and syncs of a script: HOW MANY
costs() {
    trace "$1"
    echo "$(count pwrite64) $(count fdatasync)"
}

mkdir fresh
(cd fresh && "$onbar" -init A:4 >/dev/null)

# A commit, and then the first one of each next file: 85 stand in a file.
{
    echo "$(costs 1) $(costs 2)"
    for file in 1 2 3 4 5 6 7; do
        echo "$(costs $((85 * file))) $(costs $((85 * file + 1)))"
    done
} | awk '
    NR == 1 {
        writes = $3 - $1
        syncs = $4 - $2
        next
    }
    {
        if ($3 - $1 - writes > more_writes) more_writes = $3 - $1 - writes
        if ($4 - $2 - syncs > more_syncs) more_syncs = $4 - $2 - syncs
    }
    END {
        printf "a commit of three lines:     %d writes, %d syncs\n", writes, syncs
        printf "the next file beside:        at most %d writes, %d syncs\n", more_writes, more_syncs
    }'

# The reads of slots that an empty script makes over a log that is full: when it is opened, and once more for its open
# transactions.
trace 680
(cd site && strace -f -y -o ../all -e trace=pread64 "$onbar" -T </dev/null >../text)
grep '/log>' all | sed -nE 's/^.*, ([0-9]+), ([0-9]+)\) += ([0-9]+)$/\2 \3/p' | awk '
    $1 >= 8192 + 256 && $2 > 256 {
        turn = ++turns[$1]
        reads[turn]++
        bytes[turn] += $2
    }
    function show(text, turn) {
        printf "%-29s%d reads of slots, %.2f times the bytes of those in use\n", text, reads[turn], bytes[turn] / (128 * 2040)
    }
    END {
        show("a full log, opened:", 1)
        show("its open transactions:", 2)
    }'
