#!/bin/sh
# How fast `onbar -D A PAGE` brings a lane of 65,536 pages to the end of the log, beside a bare C loop that makes the same
# writes and syncs of the chunk on the same disk: the best of ROUNDS rounds each, with the processor time of that round, the
# ratio of the two, and the program's peak memory. The log is full of commits that write WRITES pages each, spread over the
# whole space and each page once. The loop reads nothing; the program also syncs each of its other disks once, and reads
# them and the pages. A busy disk makes either time many times as long.
#
# Then the same command over a space of 4,096 pages with as many commits, the command once more where nothing is left to do,
# and the peak memory of `-D A`, which reads all pages. Where strace may trace, the writes and syncs of the chunk are counted, of the
# program and of the loop.
#
#   bench/lane.sh [PROGRAM]     bin/onbar where no program is named
#
# It works in a temporary folder below FOLDER, which is bench/ where it isn't set: the disk of that folder is measured, and
# 1 GiB of it is used. A C compiler `cc` has to be there.
set -eu

top=$(cd "$(dirname "$0")/.." && pwd)
program=${1:-$top/bin/onbar}
onbar=$(cd "$(dirname "$program")" && pwd)/$(basename "$program")
rounds=${ROUNDS:-3}
writes=${WRITES:-1}
commits=$((2040 / (writes + 2)))
pages=$((commits * writes))
stride=$((65536 / pages))

work=$(mktemp -d "${FOLDER:-$top/bench}/work.XXXXXX")
trap 'rm -rf "$work"' EXIT
cd "$work"

cat >bare.c <<'TEXT'
/* bare loop CHUNK PAGES STRIDE   makes the writes and syncs of so many pages on a chunk, in steps of 16
   bare run PROGRAM WORD..        runs a program, which prints into the file run.text
   Either prints its time and its processor time in nanoseconds, and its peak memory in KiB. */
#define _GNU_SOURCE
#include <fcntl.h>
#include <stdio.h>
#include <stdlib.h>
#include <string.h>
#include <sys/resource.h>
#include <sys/wait.h>
#include <time.h>
#include <unistd.h>

static long long now(void) {
    struct timespec t;
    clock_gettime(CLOCK_MONOTONIC, &t);
    return t.tv_sec * 1000000000LL + t.tv_nsec;
}

static long long nanos(struct timeval t) {
    return t.tv_sec * 1000000000LL + t.tv_usec * 1000LL;
}

static void want(int holds) {
    if (!holds) {
        perror("bare");
        exit(1);
    }
}

static const char closed = 0, gate = 1;

static void put(int chunk, const char *bytes, int len, long long at) {
    want(pwrite(chunk, bytes, len, at) == len);
    want(fdatasync(chunk) == 0);
}

/* The pages as they were, behind their gate, which is open behind the first step. */
static void save(int chunk, int step, int count) {
    static char region[17 * 4096];
    if (step > 0) {
        put(chunk, &closed, 1, 8192);
    }
    put(chunk, region, 4096 * (count + 1) - 1, 8193);
    put(chunk, &gate, 1, 8192);
}

static void write_pages(int chunk, long long first, int count, long long stride) {
    static char page[4096];
    for (int i = 0; i < count; i++) {
        want(pwrite(chunk, page, 4096, 77824 + 4096 * stride * (first + i)) == 4096);
    }
    want(fdatasync(chunk) == 0);
}

/* The other slot of the mark. */
static void store(int chunk, int step) {
    static char body[256];
    int slot = (step + 1) % 2;
    if (step > 0) {
        put(chunk, &closed, 1, 4096 + slot);
    }
    put(chunk, body, 256, 4096 + 256 * (slot + 1));
    put(chunk, &gate, 1, 4096 + slot);
}

static void loop(const char *name, int pages, int stride) {
    int chunk = open(name, O_RDWR);
    want(chunk >= 0);
    want(fdatasync(chunk) == 0);
    for (int step = 0; 16 * step < pages; step++) {
        int left = pages - 16 * step;
        int count = left < 16 ? left : 16;
        save(chunk, step, count);
        write_pages(chunk, 16LL * step, count, stride);
        store(chunk, step);
    }
    want(close(chunk) == 0);
}

static void run(char **words) {
    pid_t child = fork();
    want(child >= 0);
    if (child == 0) {
        int text = open("run.text", O_WRONLY | O_CREAT | O_TRUNC, 0666);
        want(text >= 0 && dup2(text, 1) == 1);
        execv(words[0], words);
        _exit(127);
    }
    int status;
    want(waitpid(child, &status, 0) == child);
    if (!WIFEXITED(status) || WEXITSTATUS(status) != 0) {
        fprintf(stderr, "bare: the program ended with status %d\n", status);
        exit(1);
    }
}

int main(int argc, char **argv) {
    if (argc < 3) {
        return 2;
    }
    int runs = strcmp(argv[1], "run") == 0;
    if (!runs && argc != 5) {
        return 2;
    }
    long long start = now();
    if (runs) {
        run(argv + 2);
    } else {
        loop(argv[2], atoi(argv[3]), atoi(argv[4]));
    }
    long long passed = now() - start;
    struct rusage used;
    want(getrusage(runs ? RUSAGE_CHILDREN : RUSAGE_SELF, &used) == 0);
    printf("%lld %lld %ld\n", passed, nanos(used.ru_utime) + nanos(used.ru_stime), used.ru_maxrss);
    return 0;
}
TEXT
cc -O2 -o bare bare.c

# A site whose log is full, and whose lane is at its start: FOLDER PAGES
make_site() {
    mkdir "$1"
    awk -v commits="$commits" -v writes="$writes" -v stride="$stride" -v count="$2" 'BEGIN {
        for (n = 1; n <= commits; n++) {
            printf "begin %d\n", n
            for (k = 0; k < writes; k++) {
                printf "write %d A %d 0 %08x\n", n, page % count, n
                page += stride
            }
            printf "commit %d\n", n
        }
    }' >script
    (cd "$1" && "$onbar" -init "A:$2" >/dev/null && "$onbar" -T <../script >run.text)
    if ! head -n 1 "$1/run.text" | grep -q "^lines $((commits * (writes + 2))) commits $commits "; then
        cat "$1/run.text" >&2
        exit 1
    fi
}

# A command in a site, measured: FOLDER TIMES WORD..
measured() {
    folder=$1 times=$2
    shift 2
    (cd "$folder" && ../bare run "$onbar" "$@" >>"../$times")
}

fresh_copy() {
    rm -rf site
    cp -R "$1" site
    sync site/chunk00
}

run_loop() {
    cp large/chunk00 bare.chunk
    sync bare.chunk
    ./bare loop bare.chunk "$pages" "$stride" >>loop.times
    rm bare.chunk
}

run_program() {
    fresh_copy small
    measured site small.times -D A 0
    fresh_copy large
    measured site run.times -D A 0
    if ! head -n 1 site/run.text | grep -q "^page A 0 stamp $((writes + 2))\$"; then
        cat site/run.text >&2
        exit 1
    fi
    measured site again.times -D A 0
}

# The writes and syncs of a chunk, in lines of strace: NAME
counted() {
    awk -v name="/$1>" '
        !index($0, name) { next }
        / pwrite64\(/ { writes++ }
        / fdatasync\(/ { syncs++ }
        END { printf "%d writes, %d syncs\n", writes, syncs }
    ' calls
}

count_calls() {
    fresh_copy large
    (cd site && strace -f -y -o ../calls -e trace=pwrite64,fdatasync "$onbar" -D A 0 >/dev/null)
    echo "of the chunk:  $(counted chunk00)"
    cp large/chunk00 bare.chunk
    strace -f -y -o calls -e trace=pwrite64,fdatasync ./bare loop bare.chunk "$pages" "$stride" >/dev/null
    echo "of the loop:   $(counted bare.chunk)"
    rm bare.chunk
}

make_site small 4096
make_site large 65536
for round in $(seq "$rounds"); do
    if [ $((round % 2)) -eq 1 ]; then
        run_loop
        run_program
    else
        run_program
        run_loop
    fi
done
measured site all.times -D A

echo "commits: $commits, pages: $pages"
awk '
    function best(name) { if (!(name in time) || $1 < time[name]) { time[name] = $1; used[name] = $2 } }
    { best(FILENAME) }
    FILENAME != "loop.times" && $3 > memory { memory = $3 }
    function show(text, name) {
        printf "%-46s%7.3f s, %.3f s of it processor time\n", text, time[name] / 1e9, used[name] / 1e9
    }
    END {
        show("onbar -D A 0, 65,536 pages:", "run.times")
        show("bare C loop:", "loop.times")
        printf "%-46s%7.2f\n", "the first by the loop:", time["run.times"] / time["loop.times"]
        show("onbar -D A 0, 4,096 pages:", "small.times")
        show("onbar -D A 0, 65,536 pages, nothing to do:", "again.times")
        show("onbar -D A, 65,536 pages, nothing to do:", "all.times")
        printf "%-46s%7.1f MiB\n", "peak memory:", memory / 1024
    }
' loop.times run.times small.times again.times all.times
if command -v strace >/dev/null && strace -o calls true 2>/dev/null; then
    count_calls
fi
