#!/bin/sh
# How fast `onbar -T` fills the log by a script of 2,040 lines, in commits of three lines each, beside a bare C loop that
# makes the same writes and syncs of the log on the same disk: the best of ROUNDS rounds each, with the processor time of that
# round, the ratio of the two, and the program's peak memory. The program also syncs each of its other disks once and reads
# them. A busy disk makes either time many times as long.
#
#   bench/log_script.sh [PROGRAM]     bin/onbar where no program is named
#
# It works in a temporary folder below FOLDER, which is bench/ where it isn't set: the disk of that folder is measured.
# A C compiler `cc` has to be there.
set -eu

top=$(cd "$(dirname "$0")/.." && pwd)
program=${1:-$top/bin/onbar}
onbar=$(cd "$(dirname "$program")" && pwd)/$(basename "$program")
rounds=${ROUNDS:-3}

work=$(mktemp -d "${FOLDER:-$top/bench}/work.XXXXXX")
trap 'rm -rf "$work"' EXIT
cd "$work"

cat >bare.c <<'TEXT'
/* bare loop LOG     makes the writes and syncs of the script on a log
   bare run PROGRAM  runs a program with -T on standard input
   Either prints its time and its processor time in nanoseconds, and its peak memory in KiB. */
#define _GNU_SOURCE
#include <fcntl.h>
#include <stdio.h>
#include <stdlib.h>
#include <string.h>
#include <sys/resource.h>
#include <sys/wait.h>
#include <time.h>
#include <unistd.h>

static long long now(void) {
    struct timespec t;
    clock_gettime(CLOCK_MONOTONIC, &t);
    return t.tv_sec * 1000000000LL + t.tv_nsec;
}

static long long nanos(struct timeval t) {
    return t.tv_sec * 1000000000LL + t.tv_usec * 1000LL;
}

static void want(int holds) {
    if (!holds) {
        perror("bare");
        exit(1);
    }
}

static void put(int log, const char *bytes, int len, long long at) {
    want(pwrite(log, bytes, len, at) == len);
    want(fdatasync(log) == 0);
}

/* A batch of three records behind so many in a file, and then the gate of its last one. */
static void append(int log, int file, int used) {
    static char batch[384];
    static const char gate = 1;
    long long gates = 8192 + 33024LL * (file % 8);
    put(log, batch, 384, gates + 256 + 128LL * used);
    put(log, &gate, 1, gates + used + 2);
}

/* The next file: its gates, which are there already at the first place, and then the other slot of the mark. */
static void open_file(int log, int file) {
    static char zeros[384], body[256];
    static const char closed = 0, gate = 1;
    int slot = (file + 1) % 2;
    if (file % 8 > 0) {
        put(log, zeros, 384, 8192 + 33024LL * (file % 8) - 128);
    }
    if (file > 2) {
        put(log, &closed, 1, 4096 + slot);
    }
    put(log, body, 256, 4096 + 256 * (slot + 1));
    put(log, &gate, 1, 4096 + slot);
}

/* 85 batches stand in each of eight files. */
static void loop(const char *name) {
    int log = open(name, O_RDWR);
    want(log >= 0);
    want(fdatasync(log) == 0);
    for (int file = 1; file <= 8; file++) {
        if (file > 1) {
            open_file(log, file);
        }
        for (int used = 0; used < 255; used += 3) {
            append(log, file, used);
        }
    }
    want(close(log) == 0);
}

static void run(char *program) {
    char *words[] = {program, "-T", NULL};
    pid_t child = fork();
    want(child >= 0);
    if (child == 0) {
        execv(program, words);
        _exit(127);
    }
    int status;
    want(waitpid(child, &status, 0) == child);
    if (!WIFEXITED(status) || WEXITSTATUS(status) != 0) {
        fprintf(stderr, "bare: the program ended with status %d\n", status);
        exit(1);
    }
}

int main(int argc, char **argv) {
    if (argc != 3) {
        return 2;
    }
    int runs = strcmp(argv[1], "run") == 0;
    long long start = now();
    if (runs) {
        run(argv[2]);
    } else {
        loop(argv[2]);
    }
    long long passed = now() - start;
    struct rusage used;
    want(getrusage(runs ? RUSAGE_CHILDREN : RUSAGE_SELF, &used) == 0);
    printf("%lld %lld %ld\n", passed, nanos(used.ru_utime) + nanos(used.ru_stime), used.ru_maxrss);
    return 0;
}
TEXT
cc -O2 -o bare bare.c

awk 'BEGIN {
    for (n = 1; n <= 680; n++) {
        printf "begin %d\nwrite %d A %d 0 %08x\ncommit %d\n", n, n, n % 64, n, n
    }
}' >script

run_loop() {
    cp fresh/log bare.log
    sync bare.log
    ./bare loop bare.log >>loop.times
}

run_program() {
    rm -rf site
    cp -R fresh site
    sync site/log
    (cd site && ../bare run "$onbar" <../script >../run.text)
    if ! head -n 1 run.text | grep -q '^lines 2040 commits 680 end 2040$'; then
        cat run.text >&2
        exit 1
    fi
    tail -n 1 run.text >>run.times
}

mkdir fresh
(cd fresh && "$onbar" -init A:64 >/dev/null)
for round in $(seq "$rounds"); do
    if [ $((round % 2)) -eq 1 ]; then
        run_loop
        run_program
    else
        run_program
        run_loop
    fi
done

awk '
    FILENAME == "loop.times" { if (!loop || $1 < loop) { loop = $1; loop_used = $2 } }
    FILENAME == "run.times" { if (!run || $1 < run) { run = $1; run_used = $2 } if ($3 > memory) memory = $3 }
    function show(name, time, used) {
        printf "%-14s%8.0f lines a second, %.2f s, %.2f s of it processor time\n", name, 2040 / (time / 1e9), time / 1e9, used / 1e9
    }
    END {
        show("onbar -T:", run, run_used)
        show("bare C loop:", loop, loop_used)
        printf "%-14s%8.2f\n", "ratio:", loop / run
        printf "%-14s%8.1f MiB\n", "peak memory:", memory / 1024
    }
' loop.times run.times
