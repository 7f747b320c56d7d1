#!/bin/sh
# How fast a volume takes 256 MiB over a file, in pieces of 4 KiB and of 64 KiB, and checks them again, beside the kit's
# `sha2` alone over the same bytes in the same pieces: the best of three rounds each, in MiB a second by the clock and of
# processor time, each with its ratio to `sha2` alone. Ending an object is mostly its sync, which waits for the disk. A
# busy machine makes the times by the clock many times as long, those of the processor up to twice.
#
# It builds a program in a temporary folder, which holds the file too, and removes it. The folder has to be on a disk:
# TMPDIR names another one. Run it from anywhere in the repository.
set -eu

top=$(git -C "$(dirname "$0")" rev-parse --show-toplevel)
work=$(mktemp -d)
trap 'rm -rf "$work"' EXIT
case $(stat -f -c %T "$work") in
tmpfs | ramfs)
    echo "object_volume.sh: $work is in memory; set TMPDIR to a folder on a disk" >&2
    exit 1
    ;;
esac

bench=$work/crates/volume_bench
mkdir -p "$bench/src" "$bench/proofs/send_once" "$bench/proofs/send_all"
for crate in byte_fields log_history site_disk onbar_grammar bsa_descriptor block_chain gated_slots site_headers object_volume host_disk; do
    mkdir -p "$work/crates/$crate"
    for folder in src specs proofs; do
        if [ -d "$top/crates/$crate/$folder" ]; then
            cp -R "$top/crates/$crate/$folder" "$work/crates/$crate/$folder"
        fi
    done
    grep "^$crate[ :]" "$top/crates.txt" >>"$work/crates.txt"
done
echo 'volume_bench: site_disk host_disk object_volume block_chain sha2' >>"$work/crates.txt"

cat >"$bench/proofs/send_once/Invariants.antt" <<'TEXT'
use Rattle.std.specs.Prelude.{false}
use Rattle.site_disk.specs.Ledger.{MayUse}
use Rattle.host_disk.specs.Files.{file_bytes, file_ledger}
use Rattle.object_volume.specs.Volumes.{disk_of, IsOpen, IsSending}
use Rattle.volume_bench.proofs.send_once.Given as goal

abbrev pub invariant-loop-piece : goal.invariant-loop-piece
invariant-loop-piece l = record {
  may : MayUse l.era (file_ledger (disk_of l.volume));
  opened : IsOpen l.volume;
  begun : IsSending false file_bytes l.volume;
}
TEXT
cat >"$bench/proofs/send_all/Invariants.antt" <<'TEXT'
use Rattle.std.specs.Prelude.{false}
use Rattle.site_disk.specs.Ledger.{MayUse}
use Rattle.host_disk.specs.Files.{file_bytes, file_ledger}
use Rattle.object_volume.specs.Volumes.{disk_of, IsOpen, IsSending}
use Rattle.volume_bench.proofs.send_all.Given as goal

abbrev pub invariant-loop : goal.invariant-loop
invariant-loop l = record {
  may : MayUse l.era (file_ledger (disk_of l.volume));
  opened : IsOpen l.volume;
  begun : IsSending false file_bytes l.volume;
}
TEXT
cat >"$bench/src/main.rt" <<'TEXT'
#![tactic(auto)]

ghost use Rattle.std.specs.Prelude.{◌<◌, false, IfOk, OnOk};
ghost use Rattle.site_disk.specs.Ledger.{MayUse};
ghost use Rattle.host_disk.specs.Files.{file_bytes, file_ledger};
ghost use Rattle.object_volume.specs.Volumes.{disk_of, IsOpen, IsIdle, IsSending};

use block_chain::Run;
use host_disk::{FileDisk, HostFault};
use object_volume::{SendFault, Sent, Soundness, Volume, VolumeFault};
use sha2::{Digest, Sha256};
use site_disk::{Era, Failed};
use std::alloc::{AllocError, Global};
use std::fs::{self, File};
use std::io;
use std::process::ExitCode;
use std::rt::{Clock, Files};
use std::time::{CpuClock, Duration, Instant};

const PATH: &str = "volume";

const SITE: u64 = 7;

// 256 MiB, and the buffer that is sent so often.
const BLOCKS: u32 = 65_536;

const BUFFER: usize = 1_048_576;

const TIMES: u32 = 256;

const ROUNDS: u32 = 3;

#[derive(Clone, Copy)]
enum Fault {
    OutOfMemory,
    Disk,
    System,
    WrongDigest,
}

impl From<HostFault> for Fault {
    fn from(_: HostFault) -> Fault {
        Fault::Disk
    }
}

impl From<Failed> for Fault {
    fn from(_: Failed) -> Fault {
        Fault::Disk
    }
}

impl From<VolumeFault> for Fault {
    fn from(_: VolumeFault) -> Fault {
        Fault::Disk
    }
}

impl From<SendFault> for Fault {
    fn from(_: SendFault) -> Fault {
        Fault::Disk
    }
}

impl From<AllocError> for Fault {
    fn from(_: AllocError) -> Fault {
        Fault::OutOfMemory
    }
}

impl From<io::Error> for Fault {
    fn from(_: io::Error) -> Fault {
        Fault::System
    }
}

// A moment, and the processor time up to it.
#[derive(Clone, Copy)]
struct Moment {
    clock: Instant,
    used: Duration,
}

// Nanoseconds that passed, and those of them that the processor was used.
#[derive(Clone, Copy)]
struct Spent {
    passed: u64,
    used: u64,
}

fn nanos(time: Duration) -> u64 {
    u64::try_from(time.as_nanos()).unwrap_or(u64::MAX)
}

fn now<R: Clock + CpuClock>(rt: &R) -> io::Result<Moment> {
    Ok(Moment {
        clock: Instant::now(rt)?,
        used: rt.process_cpu_time()?,
    })
}

fn since<R: Clock + CpuClock>(rt: &R, start: &Moment) -> io::Result<Spent> {
    let passed = start.clock.elapsed(rt)?;
    let used = rt.process_cpu_time()?.saturating_sub(start.used);
    Ok(Spent {
        passed: nanos(passed),
        used: nanos(used),
    })
}

// Bytes without a short period.
fn buffer(alloc: Global) -> Result<Vec<u8>, AllocError> {
    let mut bytes = vec![in alloc; 0; BUFFER]?;
    let mut state: u32 = 1;
    for byte in &mut bytes {
        state = state.wrapping_mul(1_664_525).wrapping_add(1_013_904_223);
        *byte = (state >> 24) as u8;
    }
    Ok(bytes)
}

fn hash_once(hasher: &mut Sha256, bytes: &[u8], len: usize)
    requires { 0 < len }
{
    for piece in bytes.chunks(len) {
        hasher.update(piece);
    }
}

fn hash_all(bytes: &[u8], len: usize) -> [u8; 32]
    requires { 0 < len }
{
    let mut hasher = Sha256::new();
    for _ in 0..TIMES {
        hash_once(&mut hasher, bytes, len);
    }
    hasher.finalize()
}

fn send_once(
    volume: &mut Volume<FileDisk>,
    era: &Era,
    bytes: &[u8],
    len: usize,
) -> Result<(), SendFault>
    requires some { 0 < len }
    requires may { MayUse era.now (file_ledger (disk_of volume.old)) }
    requires opened { IsOpen volume.old }
    requires begun { IsSending false file_bytes volume.old }
    ensures may { MayUse era.now (file_ledger (disk_of volume.new)) }
    ensures opened { OnOk result (IsOpen volume.new) }
    ensures begun { OnOk result (IsSending false file_bytes volume.new) }
{
    for piece in bytes.chunks(len) {
        volume.send(era, piece)?;
    }
    Ok(())
}

fn send_all(
    volume: &mut Volume<FileDisk>,
    era: &Era,
    bytes: &[u8],
    len: usize,
) -> Result<(), SendFault>
    requires some { 0 < len }
    requires may { MayUse era.now (file_ledger (disk_of volume.old)) }
    requires opened { IsOpen volume.old }
    requires begun { IsSending false file_bytes volume.old }
    ensures may { MayUse era.now (file_ledger (disk_of volume.new)) }
    ensures opened { OnOk result (IsOpen volume.new) }
    ensures begun { OnOk result (IsSending false file_bytes volume.new) }
{
    for _ in 0..TIMES {
        send_once(volume, era, bytes, len)?;
    }
    Ok(())
}

// A new volume in an empty file, open.
fn formatted<R: Files<File = File>>(
    rt: &R,
    alloc: Global,
    era: &Era,
) -> Result<Volume<FileDisk>, Fault>
    ensures may { IfOk result (λ volume. MayUse era.now (file_ledger (disk_of volume))) }
    ensures opened { IfOk result IsOpen }
    ensures idle { IfOk result IsIdle }
{
    let live: Vec<Vec<Run>> = Vec::new(alloc);
    let disk = FileDisk::open(rt, era, PATH)?;
    let mut volume = Volume::new(alloc, disk, 3);
    volume.format(era, SITE, BLOCKS)?;
    volume.open(era, SITE, &live)?;
    Ok(volume)
}

// One round: the times of hashing alone, of sending, of ending and of checking, in pieces of so many bytes.
fn round<R>(rt: &R, alloc: Global, bytes: &[u8], len: usize) -> Result<(), Fault>
where
    R: Clock + CpuClock + Files<File = File> + Print,
    requires { 0 < len }
{
    let start = now(rt)?;
    let digest = hash_all(bytes, len);
    let hash = since(rt, &start)?;
    let era = Era::first();
    let mut volume = formatted(rt, alloc, &era)?;
    let start = now(rt)?;
    volume.begin();
    send_all(&mut volume, &era, bytes, len)?;
    let send = since(rt, &start)?;
    let start = now(rt)?;
    let sent = volume.end(&era)?;
    let end = since(rt, &start)?;
    let start = now(rt)?;
    let found = volume.check(&era, &sent.runs, sent.size, &sent.digest)?;
    let check = since(rt, &start)?;
    if sent.digest != digest || found != Soundness::Sound {
        return Err(Fault::WrongDigest);
    }
    println!(rt;
        "{len} {} {} {} {} {} {} {} {}",
        hash.passed,
        hash.used,
        send.passed,
        send.used,
        end.passed,
        end.used,
        check.passed,
        check.used
    )?;
    fs::remove_file(rt, PATH)?;
    Ok(())
}

fn run<R>(rt: &R, alloc: Global) -> Result<(), Fault>
where
    R: Clock + CpuClock + Files<File = File> + Print,
{
    let bytes = buffer(alloc)?;
    for _ in 0..ROUNDS {
        round(rt, alloc, &bytes, 4_096)?;
        round(rt, alloc, &bytes, 65_536)?;
    }
    Ok(())
}

fn main(rt: HostRuntime) -> ExitCode {
    match run(&rt, rt.alloc()) {
        Ok(()) => ExitCode::from(0),
        Err(Fault::OutOfMemory) => ExitCode::from(1),
        Err(Fault::Disk) => ExitCode::from(2),
        Err(Fault::System) => ExitCode::from(3),
        Err(Fault::WrongDigest) => ExitCode::from(4),
    }
}
TEXT

cd "$bench"
if ! rt run >times 2>"$work/log"; then
    cat "$work/log"
    exit 1
fi
awk '
    function low(what, time) { if (!(what in best) || time < best[what]) best[what] = time }
    function rate(time) { return 256 / (time / 1e9) }
    function show(name, piece, what, used) {
        used = what " used"
        printf "  %-20s%8.0f MiB/s%7.2f%12.0f MiB/s%7.2f\n", name, rate(best[piece what]), best[piece "hash"] / best[piece what], \
            rate(best[piece used]), best[piece "hash used"] / best[piece used]
    }
    {
        low($1 "hash", $2); low($1 "hash used", $3)
        low($1 "send", $4); low($1 "send used", $5)
        low($1 "end", $6); low($1 "end used", $7)
        low($1 "check", $8); low($1 "check used", $9)
        low($1 "send, end", $4 + $6); low($1 "send, end used", $5 + $7)
        low($1 "end, check", $6 + $8); low($1 "end, check used", $7 + $9)
    }
    END {
        for (piece = 4096; piece <= 65536; piece *= 16) {
            printf "pieces of %d KiB         by the clock  ratio   processor time  ratio\n", piece / 1024
            show("sha2 alone", piece, "hash")
            show("sending", piece, "send")
            show("ending", piece, "end")
            show("checking", piece, "check")
            show("sending and ending", piece, "send, end")
            show("ending and checking", piece, "end, check")
        }
    }
' times
