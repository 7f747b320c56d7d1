#!/bin/sh
# The built program over files: every exit status that it has so far, its words and texts, devices that fail, commands
# that are killed, and two at once. What contracts can't say of files is tried here: that a written byte is in its file, that
# a sync is made, and when.
#
#   tests/run.sh [PROGRAM ..]     where none is named, those that `rt ci` built
#   TESTS="NAME .." tests/run.sh  these tests alone
#
# The last line is `N passed, M failed`. It works in a temporary folder, and where strace is installed and may trace it
# looks at system calls too, and lets some fail.
set -u

top=$(cd "$(dirname "$0")/.." && pwd)
room=$(mktemp -d)
trap 'clear_room; rmdir "$room"' EXIT
passed=0
failed=0

# ---- what tests are made of

clear_room() {
    umount "$room"/*/small 2>/dev/null
    rm -rf "${room:?}"/*
}

# Notes it too, since in a pipeline it ends a part of the test alone.
fail() {
    echo "FAILED $name: $*"
    : >"$room/$name/failed"
    for job in $(jobs -p); do
        kill -KILL "$job" 2>/dev/null
    done
    exit 1
}

# STATUS WORD..: runs the program, which must end with that status.
gives() {
    wanted=$1
    shift
    "$onbar" "$@" >../text 2>../said
    ended $? "$wanted" "onbar $*"
}

# STATUS WANTED COMMAND
ended() {
    [ "$1" -eq "$2" ] || fail "$3: status $1, not $2; it wrote: $(head -c 300 ../text) $(head -c 300 ../said)"
}

# LINE..: what the program wrote last, line by line.
prints() {
    printf '%s\n' "$@" | cmp -s - ../text || fail "not what it should print: $(head -c 300 ../text)"
}

# Standard error had nothing.
quiet() {
    [ ! -s ../said ] || fail "on standard error: $(head -c 300 ../said)"
}

# START END: standard error had one line, with this start and this end.
says() {
    [ "$(wc -l <../said)" -eq 1 ] || fail "not one line on standard error: $(head -c 300 ../said)"
    case $(cat ../said) in
        "onbar: $1"*"$2") ;;
        *) fail "on standard error: $(cat ../said)" ;;
    esac
}

cut_short() {
    says "$1" ": the command was cut short"
}

# The number in big-endian bytes of a file: FILE OFFSET COUNT
number() {
    od -An -v -tu1 -j "$2" -N "$3" "$1" 2>/dev/null | awk '{ for (i = 1; i <= NF; i++) n = 256 * n + $i } END { printf "%.0f", n }'
}

# A byte over one of a file: FILE OFFSET BYTE
poke() {
    printf "\\$3" | dd of="$1" bs=1 seek="$2" conv=notrunc 2>/dev/null
}

# Transactions of three lines each: the number of the first, how many, the byte that each writes on page 0 of A.
transactions() {
    awk -v first="$1" -v count="$2" -v byte="$3" 'BEGIN {
        for (n = first; n < first + count; n++) {
            printf "begin %d\nwrite %d A 0 0 %s\ncommit %d\n", n, n, byte, n
        }
    }'
}

# A site with one transaction.
site() {
    gives 0 -init A:4 B:2
    transactions 1 1 41 | gives 0 -T
}

page_41() {
    gives 0 -D A 0
    prints 'page A 0 stamp 3' '0000 41000000000000000000000000000000' ok
}

# Waits until a command succeeds, ten seconds at most: COMMAND..
until_holds() {
    tries=0
    until "$@"; do
        tries=$((tries + 1))
        [ "$tries" -lt 500 ] || fail "in vain: $*"
        sleep 0.02
    done
}

# Whether the log's record with this number is the last one of a batch that stands, where all batches have three records: 85 of
# them stand in a file, and file N at place N modulo 8.
is_committed() {
    batches=$((($1 - 1) / 3))
    place=$(((batches / 85 + 1) % 8))
    [ "$(number log $((8192 + 33024 * place + $1 - 1 - 255 * (batches / 85))) 1)" = 1 ]
}

# ---- words, statuses and texts

formats_and_shows() {
    gives 0 -init A:4 B:2
    prints 'space A pages 4' 'space B pages 2' ok
    quiet
    transactions 1 1 41 | gives 0 -T
    prints 'lines 3 commits 1 end 3' ok
    page_41
    quiet
    gives 0 -j 16 -T </dev/null
    prints 'lines 0 commits 0 end 3' ok
}

makes_each_file() {
    gives 7 -T </dev/null
    prints 'not formatted'
    quiet
    names=$(echo *)
    [ "$(echo "$names" | wc -w)" -eq 37 ] || fail "not 37 files: $names"
    for file in cat spare boot log vol00 vol16 chunk00 chunk15; do
        [ -f "$file" ] && [ ! -s "$file" ] || fail "$file is no empty file"
    done
}

refuses_words() {
    # the place of the first word that is refused, or of the one that is wanting, and the words
    while read -r place words; do
        # shellcheck disable=SC2086
        gives 5 $words
        prints "usage at word $place"
        quiet
    done <<'TEXT'
1
1 init
1 -X
2 -init
2 -init A
2 -init A:0
2 -init A:65537
2 -init 1A:4
3 -init A:4 A:4
3 -init A:4 B
2 -T x
2 -D
2 -D 1A
3 -D A x
4 -D A 0 0
2 -j 0 -T
2 -j 17 -T
3 -j 4
TEXT
    # a word that isn't UTF-8
    gives 24 "$(printf '\377')"
    prints_nothing
    says "the words can't be had" ''
}

refuses_script_lines() {
    gives 0 -init A:4
    while read -r place why; do
        read -r script
        # shellcheck disable=SC2059
        printf "$script" | gives 6 -T
        tail -n 1 ../text >../last
        mv ../last ../text
        prints "script fault at line $place: $why"
        quiet
    done <<'TEXT'
1 words
begin\n
2 words
begin 1\nwrite 1 A 0 0 4\n
1 not open
commit 7\n
2 already open
begin 2\nbegin 2\n
2 no space
begin 3\nwrite 3 C 0 0 41\n
2 no page
begin 4\nwrite 4 A 4 0 41\n
2 range
begin 5\nwrite 5 A 0 4080 41\n
TEXT
}

refuses_for_its_disks() {
    gives 7 -D A
    prints 'not formatted'
    site
    gives 8 -init A:4
    prints 'already formatted'
    gives 10 -D C
    prints 'no such space C'
    gives 12 -D A 4
    prints 'no such page 4'
    quiet
    cp log ../log
    poke log 41472 377
    gives 9 -D A
    prints 'bad record in log at slot 256'
    gives 9 -T </dev/null
    : >log
    gives 17 -D A
    prints 'log lost'
    gives 17 -T </dev/null
    quiet
    [ ! -s log ] || fail "a lost log was written"
    cp ../log log
    page_41
    for disk in spare boot vol07; do
        cp $disk ../disk
        poke $disk 0 0
        gives 9 -D A
        prints "bad record in $disk at slot 4294967295"
        cp ../disk $disk
    done
    # the mark of a restore under way, number 1, unprepared, to the end
    cp boot ../disk
    for at in 4360 4361 4362; do poke boot $at 1; done
    for form in '-T' '-D A 0'; do
        # shellcheck disable=SC2086
        gives 14 $form </dev/null
        prints 'restore 1 is active'
    done
    cp ../disk boot
    cp chunk00 ../chunk00
    : >chunk00
    gives 16 -D A 0
    prints 'chunk of A lost'
    gives 16 -T </dev/null
    prints 'chunk of A lost'
    gives 0 -D B 0
    gives 8 -init A:4
    [ ! -s chunk00 ] || fail "a lost chunk was written"
    cp ../chunk00 chunk00
    poke chunk00 4096 0
    poke chunk00 4097 0
    gives 9 -D A 0
    prints 'bad record in chunk00 at slot 4294967295'
    cp ../chunk00 chunk00
    page_41
}

fills_the_log() {
    gives 0 -init A:4
    # No file is backed up: 85 batches of three records stand in each of eight files.
    transactions 1 681 41 | gives 19 -T
    prints 'lines 2040 commits 680 end 2040' 'log full: file 1 not backed up'
    quiet
    gives 0 -D A 0
    prints 'page A 0 stamp 2040' '0000 41000000000000000000000000000000' ok
    gives 0 -T </dev/null
    prints 'lines 0 commits 0 end 2040' ok
}

# A space is shown again, and from a chunk of which nothing has to be written.
brings_a_lane_to_the_end() {
    gives 0 -init A:40
    { echo 'begin 1'; seq 0 39 | sed 's/.*/write 1 A & 0 41/'; echo 'commit 1'; } | gives 0 -T
    prints 'lines 42 commits 1 end 42' ok
    gives 0 -D A
    [ "$(grep -c '^page A [0-9]* stamp 42$' ../text)" -eq 40 ] || fail "it printed: $(head -c 300 ../text)"
    cp ../text ../first
    sum=$(cksum <chunk00)
    gives 0 -D A
    cmp -s ../first ../text || fail "another text at the second show"
    [ "$(cksum <chunk00)" = "$sum" ] || fail "the second show wrote"
}

notes_the_time() {
    gives 0 -init A:4
    before=$(date +%s)
    transactions 1 1 41 | gives 0 -T
    after=$(date +%s)
    time=$(number log $((41472 + 2 * 128 + 16)) 8)
    [ "$time" -ge "$before" ] && [ "$time" -le "$after" ] || fail "the Commit's time is $time, and not $before to $after"
}

# ---- memory, streams and disks that fail

lacks_memory() {
    site
    transactions 2 500 42 | gives 0 -T
    # Too little for the system to start it, then too little to go on, then enough.
    lacked=0
    for size in $(seq 2000 10 12000) $(seq 16000 16000 512000); do
        # (the shell that waits would say by which signal the system ended it)
        { sh -c 'ulimit -c 0; ulimit -v "$1"; shift; exec "$@"' - "$size" "$onbar" -D A 0 >../text 2>../said; } 2>/dev/null
        status=$?
        [ "$status" -ne 1 ] || { lacked=$((lacked + 1)) && prints_nothing && says 'out of memory' ''; }
        [ "$status" -ne 0 ] || break
    done
    [ "$status" -eq 0 ] || fail "not even the most memory was enough: status $status"
    [ "$lacked" -gt 0 ] || fail "want of memory was never met by status 1"
    prints 'page A 0 stamp 1503' '0000 42000000000000000000000000000000' ok
}

cannot_read() {
    site
    gives 2 -T </
    cut_short 'standard input: '
    gives 2 -T <&-
    cut_short 'standard input: '
    page_41
}

cannot_print() {
    site
    for where in /dev/full closed; do
        if [ "$where" = closed ]; then
            "$onbar" -D A 0 >&- 2>../said
        else
            "$onbar" -D A 0 >"$where" 2>../said
        fi
        ended $? 3 "onbar -D A 0 with $where as standard output"
        cut_short 'standard output: '
    done
    transactions 2 1 42 | "$onbar" -T >/dev/full 2>../said
    ended $? 3 "onbar -T with a full standard output"
    gives 0 -D A 0
    prints 'page A 0 stamp 6' '0000 42000000000000000000000000000000' ok
}

keeps_files_from_closed_streams() {
    site
    "$onbar" -D A 0 >&- 2>&- <&-
    ended $? 3 "onbar -D A 0 with all streams closed"
    "$onbar" -T </ 2>&- >../text
    ended $? 2 "onbar -T with standard error closed"
    "$onbar" -T <&- >&- 2>&-
    ended $? 2 "onbar -T with all streams closed"
    page_41
}

cannot_open() {
    site
    mv vol03 ../vol03
    mkdir vol03
    gives 4 -D A 0
    says 'vol03: ' ''
    rmdir vol03
    mv ../vol03 vol03
    page_41
    mkdir ../gone
    cd ../gone || fail "no folder"
    rmdir ../gone
    "$onbar" -init A:4 >../text 2>../said || status=$?
    [ "$status" -eq 4 ] || fail "in a folder that is gone: status $status"
    says 'cat: ' ''
}

cannot_write_the_folder() {
    chmod 555 .
    if [ "$(id -u)" -eq 0 ]; then
        chmod 755 "$room" ..
        setpriv --reuid=65534 --regid=65534 --clear-groups "$copy" -init A:4 >../text 2>../said
    else
        "$onbar" -init A:4 >../text 2>../said
    fi
    ended $? 4 "onbar in a folder that can't be written"
    says 'cat: ' ''
}

# A script of 1,800 records; what stands of it, once there is room again, is whole.
meets_the_end_of_the_disk() {
    cut_short 'log: '
    gives 0 -T </dev/null
    end=$(sed -n 's/^lines 0 commits 0 end //p' ../text)
    [ "$end" -gt 3 ] && [ $((end % 3)) -eq 0 ] || fail "what stands ends at $end"
    transactions 9001 1 43 | gives 0 -T
    gives 0 -D A 0
    prints "page A 0 stamp $((end + 3))" '0000 43000000000000000000000000000000' ok
}

fills_a_file() {
    site
    transactions 2 600 42 >../script
    # Blocks of 512 bytes, or of 1,024: the log's end is met in either case, in its third file or its seventh.
    (trap '' XFSZ; ulimit -f 250; exec "$onbar" -T) <../script >../text 2>../said
    ended $? 4 "onbar with a limit on files"
    meets_the_end_of_the_disk
}

fills_a_disk() {
    mkdir ../small
    mount -t tmpfs -o size=640k small ../small 2>/dev/null || { echo "$name: not tried, since no disk can be mounted"; return; }
    cd ../small || fail "no folder"
    site
    transactions 2 600 42 >../script
    "$onbar" -T <../script >../text 2>../said
    ended $? 4 "onbar on a full disk"
    mount -o remount,size=10m ../small
    meets_the_end_of_the_disk
    cd ../site || fail "no folder"
    umount ../small
}

# ---- commands that are killed, and two at once

# Runs a script of 600 transactions from a pipe that stays open behind it.
start_long() {
    mkfifo ../pipe
    { transactions 2 600 42; exec sleep 60; } >../pipe &
    writer=$!
    "$onbar" -T <../pipe >../first 2>../first_said &
    runner=$!
    until_holds is_committed 600
}

is_killed() {
    site
    start_long
    kill -KILL "$runner"
    wait "$runner" 2>/dev/null
    kill "$writer"
    gives 0 -T </dev/null
    end=$(sed -n 's/^lines 0 commits 0 end //p' ../text)
    [ "$end" -ge 600 ] || fail "a transaction that had been committed is gone: the log ends at $end"
    [ $((end % 3)) -eq 0 ] || fail "a transaction stands in part: the log ends at $end"
    transactions 9001 1 43 | gives 0 -T
    gives 0 -D A 0
    prints "page A 0 stamp $((end + 3))" '0000 43000000000000000000000000000000' ok
}

is_one_of_two() {
    site
    mkfifo ../pipe
    "$onbar" -T <../pipe >../first 2>../first_said &
    runner=$!
    exec 9>../pipe
    transactions 2 1 42 >&9
    until_holds is_committed 6
    sum=$(cat cat log boot | cksum)
    for words in -T '-D A 0' '-init C:1' -X; do
        # shellcheck disable=SC2086
        gives 4 $words </dev/null 9>&-
        prints_nothing
        says 'another command is at work in this folder' ''
    done
    [ "$(cat cat log boot | cksum)" = "$sum" ] || fail "the command that was refused wrote"
    transactions 3 1 43 >&9
    exec 9>&-
    wait "$runner"
    mv ../first ../text
    mv ../first_said ../said
    ended $? 0 "the first of two commands"
    prints 'lines 6 commits 2 end 9' ok
    quiet
    gives 0 -D A 0
    prints 'page A 0 stamp 9' '0000 43000000000000000000000000000000' ok
}

prints_nothing() {
    [ ! -s ../text ] || fail "it printed: $(cat ../text)"
}

# ---- system calls

# The calls on files that WORD.. makes, one a line: the call, the file's name, and for writes the place.
calls_of() {
    strace -f -y -o ../calls -e trace=openat,flock,fsync,fdatasync,pread64,pwrite64,write,ftruncate "$onbar" "$@" >../text 2>../said
    ended $? 0 "onbar $* under strace"
    sed -E 's/^[0-9]+ +//' ../calls | sed -nE '
        s/^openat\([^,]*, "([a-z0-9.]+)", ([A-Z_|]+).* = [0-9].*$/open \1 \2/p
        s/^(flock|fsync|fdatasync|pread64|ftruncate)\([0-9]+<[^>]*\/([a-z0-9]+)>.*$/\1 \2/p
        s/^pwrite64\([0-9]+<[^>]*\/([a-z0-9]+)>, .*, ([0-9]+)\) += [0-9]+$/write \1 \2/p
        s/^write\(1<.*$/print/p' >../listed
}

# Of the calls that are listed: the lock before any other file, none cut short when it is opened, the folder synced behind all
# names and before the first byte is read or written, and at the end of what is printed no write that isn't synced.
opens_in_order() {
    awk '
        $1 == "open" && $3 ~ /O_TRUNC/ { print "opened with O_TRUNC: " $2 }
        $1 == "ftruncate" { print "cut short: " $2 }
        $1 == "open" && $3 ~ /O_RDWR/ && $2 != "cat" && !locked { print $2 " was opened before the lock" }
        $1 == "flock" && $2 == "cat" { locked = 1 }
        $1 == "open" && $3 ~ /O_RDWR/ { named = 1; synced = 0 }
        $1 == "fsync" && $2 == "site" { synced = 1 }
        ($1 == "pread64" || $1 == "write") && !synced { print "the folder was not synced before a read or write of " $2 }
        $1 == "write" { open[$2] = 1 }
        $1 == "fdatasync" { delete open[$2] }
        $1 == "print" { for (file in open) print file " was not synced before the text" }
        END { if (!locked) print "no lock" }
    ' ../listed >../wrong
    [ ! -s ../wrong ] || fail "$(sort -u ../wrong | head -n 3)"
}

# Of a log: a gate is written only once its batch is synced.
gates_in_order() {
    awk '
        $1 == "fdatasync" && $2 == "log" { batch = 0 }
        $1 != "write" || $2 != "log" || $3 < 8192 { next }
        ($3 - 8192) % 33024 >= 256 { batch = 1 }
        ($3 - 8192) % 33024 < 256 && batch { print "a gate was opened over a batch that is not synced" }
    ' ../listed >../wrong
    [ ! -s ../wrong ] || fail "$(head -n 1 ../wrong)"
}

# Of a chunk: a page is written only once what is kept of it is synced, and the mark once the pages are.
steps_in_order() {
    awk '
        $1 == "fdatasync" && $2 == "chunk00" { kept = 0; page = 0 }
        $1 != "write" || $2 != "chunk00" || $3 < 4096 { next }
        $3 >= 77824 && kept { print "a page was written over what is kept and not synced" }
        $3 >= 77824 { page = 1 }
        $3 >= 8192 && $3 < 77824 { kept = 1 }
        $3 < 5120 && page { print "the mark was written over pages that are not synced" }
    ' ../listed >../wrong
    [ ! -s ../wrong ] || fail "$(head -n 1 ../wrong)"
}

syncs_what_it_writes() {
    calls_of -init A:4 B:2
    opens_in_order
    for file in cat spare boot log vol00 vol16 chunk00 chunk01; do
        grep -q "^write $file" ../listed || fail "-init wrote no $file"
    done
    grep -q '^write chunk02' ../listed && fail "-init wrote a chunk of no space"
    transactions 1 5 41 >../script
    calls_of -T <../script
    opens_in_order
    gates_in_order
    [ "$(grep -c '^fdatasync log' ../listed)" -ge 10 ] || fail "fewer than two syncs a commit"
    [ "$(grep -c '^write log' ../listed)" -eq 10 ] || fail "not two writes a commit"
    grep '^write' ../listed | grep -v '^write log' && fail "-T wrote another disk than the log"
    calls_of -D A
    opens_in_order
    steps_in_order
    grep '^write' ../listed | grep -v '^write chunk00' && fail "-D wrote another disk than its chunk"
    calls_of -D A
    grep -q '^write' ../listed && fail "a second -D wrote"
    # What a killed command left unsynced is synced before it is relied on.
    for file in cat spare boot vol00 vol16 log chunk00; do
        awk -v file="$file" '$1 == "fdatasync" && $2 == file { synced = 1 } $1 == "pread64" && $2 == file && !synced { exit 1 }' ../listed || fail "-D read $file before it was synced"
    done
}

# The command that is left of it, with the system's Nth answer to a call an error: CALL ERROR N WORD..
lets_fail() {
    call=$1 error=$2 n=$3
    shift 3
    strace -f -o ../calls -e trace="$call" -e inject="$call:error=$error:when=$n" "$onbar" "$@" >../text 2>../said
    ended $? 4 "onbar $*, where $call fails"
    grep -q INJECTED ../calls || fail "$call was not called"
    prints_nothing
}

meets_system_errors() {
    site
    # The syncs in order: catalogue, spare disk, boot file, 17 volumes, the log twice, the chunk.
    for place in 1:cat 2:spare 3:boot 4:vol00 20:vol16 21:log 23:chunk00; do
        lets_fail fdatasync EIO "${place%:*}" -D A 0
        cut_short "${place#*:}: Input/output error"
    done
    lets_fail fsync EIO 1 -D A 0
    says 'the folder: Input/output error' ''
    lets_fail flock ENOLCK 1 -D A 0
    says 'cat: No locks available' ''
    transactions 2 1 42 >../script
    lets_fail pwrite64 ENOSPC 1 -T <../script
    cut_short 'log: No space left on device'
    page_41
}

# CALLS FILE: the first of these calls that -D makes on a file, and how many calls of its name there are up to it.
first_on() {
    strace -f -y -o ../calls -e trace="$1" "$onbar" -D A 0 >../text 2>../said
    awk -v file="/$2>" '{ call = $2; sub(/\(.*/, "", call); n[call]++ } index($0, file) { print call, n[call]; exit }' ../calls
}

# An error where the length of the catalogue is asked for isn't taken for an empty file: a site would seem not formatted.
meets_errors_of_a_length() {
    site
    # shellcheck disable=SC2046
    set -- $(first_on fstat,newfstatat,statx cat)
    [ $# -eq 2 ] || return 0
    lets_fail "$1" EIO "$2" -D A 0
    cut_short 'cat: Input/output error'
    lets_fail "$1" EIO "$2" -init A:4
    cut_short 'cat: Input/output error'
    page_41
}

meets_reads_that_fail() {
    site
    for file in cat spare boot vol05 log chunk00; do
        # shellcheck disable=SC2046
        set -- $(first_on pread64 $file)
        lets_fail "$1" EIO "$2" -D A 0
        cut_short "$file: Input/output error"
        # A file that ends before its length isn't read as if it were shorter.
        strace -f -o ../calls -e trace="$1" -e inject="$1:retval=0:when=$2" "$onbar" -D A 0 >../text 2>../said
        ended $? 4 "onbar, where $file ends too early"
        cut_short "$file: "
    done
    page_41
}

# ---- all of them

can_trace() {
    command -v strace >/dev/null && strace -o /dev/null -e trace=fsync -e inject=fsync:error=EIO true 2>/dev/null
}

run() {
    name=$1
    mkdir -p "$room/$name/site"
    if (cd "$room/$name/site" && "$name") && [ ! -e "$room/$name/failed" ]; then
        passed=$((passed + 1))
    else
        failed=$((failed + 1))
    fi
}

of_files="formats_and_shows makes_each_file refuses_words refuses_script_lines refuses_for_its_disks fills_the_log
    brings_a_lane_to_the_end notes_the_time lacks_memory cannot_read cannot_print keeps_files_from_closed_streams cannot_open cannot_write_the_folder fills_a_file
    fills_a_disk is_killed is_one_of_two"
of_calls="syncs_what_it_writes meets_system_errors meets_errors_of_a_length meets_reads_that_fail"
if ! can_trace; then
    echo "not tried, since strace can't trace here: $of_calls"
    of_calls=
fi

built=$top/crates/onbar_main/out/onbar_main
if [ $# -eq 0 ]; then
    set -- "$built"
    [ ! -f "$built.by-rattle" ] || set -- "$@" "$built.by-rattle"
fi
for program in "$@"; do
    if [ ! -f "$program" ]; then
        echo "FAILED: there is no program $program: run rt ci, or name one"
        failed=$((failed + 1))
        continue
    fi
    echo "$program"
    # A copy that any user may run.
    copy=$room/onbar
    cp "$program" "$copy"
    chmod 755 "$copy"
    onbar=$copy
    for test in ${TESTS:-$of_files $of_calls}; do
        run "$test"
    done
    clear_room
done
echo "$passed passed, $failed failed"
[ "$failed" -eq 0 ]
