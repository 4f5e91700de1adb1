#!/bin/sh
# Grows a stream to 1 GiB by pieces of 64 KiB, and cuts it to nothing in one call, or by pieces while nothing that was given back is
# released, on a volume of 4,194,304 blocks of 4,096 bytes that is empty, and on one where every second block is taken. Prints the
# time of each quarter: where they are alike, time is linear in the blocks. Beside it, `fallocate` of the same pieces on a file of the
# system's own, where there is one. Then how many blocks all calls together changed, by the growth and after the removal: those that a
# removal changes are few, so that a file of hundreds of tables passes the log. Only what is written of the volume is in memory: data blocks
# are taken, not written. Builds a small program over the crates here, outside the repository; where they aren't proved yet, that takes
# some minutes.
# usage: bench/streams.sh [PIECES]
set -eu
root=$(dirname "$(dirname "$(readlink -f "$0")")")
pieces=${1:-16384}
work=$(mktemp -d)
trap 'rm -rf "$work"' EXIT

mkdir -p "$work/repo/crates/stream_bench/src" "$work/repo/crates/stream_bench/specs" "$work/repo/crates/stream_bench/proofs"
for crate in bfs_bytes bfs_base bfs_super bfs_inode bfs_txn bfs_bitmap bfs_stream bfs_growth bfs_cuts; do
    mkdir -p "$work/repo/crates/$crate"
    cp -r "$root/crates/$crate/src" "$root/crates/$crate/specs" "$root/crates/$crate/proofs" "$work/repo/crates/$crate/"
    grep "^$crate:" "$root/crates.txt" >>"$work/repo/crates.txt"
done
echo "stream_bench: bfs_growth bfs_cuts bfs_stream bfs_bitmap bfs_inode bfs_txn bfs_super bfs_base bfs_bytes byteorder" >>"$work/repo/crates.txt"
bench=$work/repo/crates/stream_bench
: >"$bench/specs/Lib.antt"
: >"$bench/proofs/Lib.antt"
for loop in quarter_up:loop quarter_down:loop-i; do
    mkdir -p "$bench/proofs/${loop%%:*}"
    cat >"$bench/proofs/${loop%%:*}/Invariants.antt" <<ANTT
use Rattle.std.proofs.Common.{◌≡◌}
use Rattle.bfs_stream.specs.Grown.{IsOfVolume}
use Rattle.bfs_txn.specs.Changed.{Ascends, AreOfSize}
use Rattle.stream_bench.proofs.${loop%%:*}.Given as goal

abbrev pub invariant-${loop#*:} : goal.invariant-${loop#*:}
invariant-${loop#*:} g l =
    (l.stream ≡ l.fn.stream) × (l.under.block_size ≡ l.fn.under.block_size) × (l.under.block_size ≡ l.stream.sizes.block_size)
    × IsOfVolume l.stream.sizes l.bitmap × Ascends l.group × AreOfSize l.under.block_size l.group
ANTT
done
# what each function that makes calls asks and keeps
held='    requires size { under.old.block_size ≡ stream.old.sizes.block_size }
    requires volume { IsOfVolume stream.old.sizes bitmap.old }
    requires ascends { Ascends group.old }
    requires sized { AreOfSize under.old.block_size group.old }
    ensures same { stream.new ≡ stream.old }
    ensures volume { IsOfVolume stream.old.sizes bitmap.new }
    ensures ascends { Ascends group.new }
    ensures sized { AreOfSize under.new.block_size group.new }
    ensures size { under.new.block_size ≡ under.old.block_size }'
cat >"$bench/src/main.rt" <<RATTLE
// Times the growth and the cuts of a stream.
#![tactic(auto)]
ghost use Rattle.std.specs.Prelude.{◌≡◌, ◌≤◌, ◌<◌, ◌+◌, ◌*◌, IfOk, OnOk, length};
ghost use Rattle.bfs_super.specs.Conditions.{IsValid};
ghost use Rattle.bfs_stream.specs.Grown.{IsOfVolume};
ghost use Rattle.bfs_txn.specs.Changed.{Ascends, AreOfSize};

use bfs_bitmap::Bitmap;
use bfs_bytes::{Run, put_run, put_u32};
use bfs_stream::Stream;
use bfs_super::{Super, SuperFault};
use bfs_txn::{Changed, Edits, MemBlocks, Overlay};
use std::alloc::{AllocError, Global};
use std::io;
use std::rt::Clock;
use std::time::Instant;

const PIECES: u64 = $pieces;
const PIECE: u64 = 16;

/// The superblock of a volume of 4,194,304 blocks of 4,096 bytes, in 128 groups.
fn superblock() -> Result<Super, SuperFault>
    ensures valid { IfOk result IsValid }
{
    let mut sector = [0u8; 512];
    put_u32(&mut sector, 32, 0x42465331);
    put_u32(&mut sector, 36, 0x42494745);
    put_u32(&mut sector, 40, 4096);
    put_u32(&mut sector, 44, 12);
    put_u32(&mut sector, 48, 4194304);
    put_u32(&mut sector, 64, 4096);
    put_u32(&mut sector, 68, 0xdd121031);
    put_u32(&mut sector, 72, 1);
    put_u32(&mut sector, 76, 15);
    put_u32(&mut sector, 80, 128);
    put_run(&mut sector, 88, run(200, 512));
    put_u32(&mut sector, 112, 0x15b6830e);
    put_run(&mut sector, 116, run(800, 1));
    put_run(&mut sector, 124, run(801, 1));
    Super::parse(&sector)
}

fn run(start: u16, len: u16) -> Run {
    Run {
        group: 0,
        start,
        len,
    }
}

/// Writes the bitmap: the first 1,024 blocks are used, and of the others what the byte says.
fn fill(bytes: &mut [u8], byte: u8)
    requires { 8192 ≤ length bytes.old }
    ensures { length bytes.new ≡ length bytes.old }
{
    let end = bytes.len();
    bytes[4096..end].fill(byte);
    bytes[4096..4224].fill(255);
}

/// Block 0 and the bitmap, in blocks of so many bytes.
fn memory(alloc: Global, byte: u8, size: u32) -> Result<MemBlocks, AllocError>
    requires some { 1024 ≤ size }
    requires small { size ≤ 8192 }
    ensures { IfOk result (λ m. m.block_size ≡ size) }
{
    let block = size as usize;
    let mut bytes = vec![in alloc; 0u8; block * 129]?;
    fill(&mut bytes, byte);
    Ok(MemBlocks::new(bytes, size))
}

/// One call that grows the stream.
fn grow(stream: &mut Stream, bitmap: &mut Bitmap, group: &mut Changed, under: &mut MemBlocks) -> bool
$held
{
    let mut edits = Overlay::begin(group, under);
    let grown = bfs_growth::grow(stream, bitmap, &mut edits, PIECE).is_ok();
    edits.keep();
    bitmap.keep();
    grown
}

/// One call that cuts the stream.
fn cut(stream: &mut Stream, bitmap: &mut Bitmap, group: &mut Changed, under: &mut MemBlocks, blocks: u64) -> bool
$held
{
    let mut edits = Overlay::begin(group, under);
    let gone = bfs_cuts::trim(stream, bitmap, &mut edits, blocks).is_ok();
    edits.keep();
    bitmap.keep();
    gone
}

fn quarter_up(rt: &(impl Print + Clock), stream: &mut Stream, bitmap: &mut Bitmap, group: &mut Changed, under: &mut MemBlocks) -> io::Result<bool>
$held
{
    let start = Instant::now(rt)?;
    let mut good = true;
    for _ in 0..PIECES / 4 {
        if !grow(stream, bitmap, group, under) {
            good = false;
        }
    }
    println!(rt; "grow {}", start.elapsed(rt)?.as_nanos())?;
    Ok(good)
}

fn quarter_down(rt: &(impl Print + Clock), stream: &mut Stream, bitmap: &mut Bitmap, group: &mut Changed, under: &mut MemBlocks, from: u64) -> io::Result<bool>
$held
{
    let start = Instant::now(rt)?;
    let mut good = true;
    for i in 0..PIECES / 4 {
        if !cut(stream, bitmap, group, under, from.saturating_sub(PIECE * (i + 1))) {
            good = false;
        }
    }
    println!(rt; "cut {}", start.elapsed(rt)?.as_nanos())?;
    Ok(good)
}

fn all_down(rt: &(impl Print + Clock), stream: &mut Stream, bitmap: &mut Bitmap, group: &mut Changed, under: &mut MemBlocks) -> io::Result<bool>
$held
{
    let start = Instant::now(rt)?;
    let good = cut(stream, bitmap, group, under, 0);
    println!(rt; "remove {}", start.elapsed(rt)?.as_nanos())?;
    Ok(good)
}

fn up(rt: &(impl Print + Clock), stream: &mut Stream, bitmap: &mut Bitmap, group: &mut Changed, under: &mut MemBlocks) -> io::Result<bool>
$held
{
    let one = quarter_up(rt, stream, bitmap, group, under)?;
    let two = quarter_up(rt, stream, bitmap, group, under)?;
    let three = quarter_up(rt, stream, bitmap, group, under)?;
    let four = quarter_up(rt, stream, bitmap, group, under)?;
    Ok(one && two && three && four)
}

fn down(rt: &(impl Print + Clock), stream: &mut Stream, bitmap: &mut Bitmap, group: &mut Changed, under: &mut MemBlocks) -> io::Result<bool>
$held
{
    let quarter = PIECE * (PIECES / 4);
    let one = quarter_down(rt, stream, bitmap, group, under, 4 * quarter)?;
    let two = quarter_down(rt, stream, bitmap, group, under, 3 * quarter)?;
    let three = quarter_down(rt, stream, bitmap, group, under, 2 * quarter)?;
    let four = quarter_down(rt, stream, bitmap, group, under, quarter)?;
    Ok(one && two && three && four)
}

fn times(rt: &(impl Print + Clock), alloc: Global, byte: u8, whole: bool) -> io::Result<bool> {
    let Ok(sup) = superblock() else {
        return Ok(false);
    };
    if sup.block_size != 4096 {
        return Ok(false);
    }
    if sup.num_blocks < 2000 {
        return Ok(false);
    }
    let Ok(mut under) = memory(alloc, byte, 4096) else {
        return Ok(false);
    };
    let mut group = Changed::new(alloc);
    let mut bitmap = Bitmap::of(alloc, &sup);
    let mut stream = Stream::at(alloc, 900, &sup);
    let grown = up(rt, &mut stream, &mut bitmap, &mut group, &mut under)?;
    println!(rt; "changed {}", group.len())?;
    let gone = if whole {
        all_down(rt, &mut stream, &mut bitmap, &mut group, &mut under)?
    } else {
        down(rt, &mut stream, &mut bitmap, &mut group, &mut under)?
    };
    println!(rt; "after {}", group.len())?;
    Ok(grown && gone)
}

fn main(rt: HostRuntime) -> io::Result<()> {
    println!(rt; "volume empty")?;
    let empty = times(&rt, rt.alloc(), 0, true)?;
    let pieces = times(&rt, rt.alloc(), 0, false)?;
    println!(rt; "volume every_second_block_taken")?;
    let half = times(&rt, rt.alloc(), 0x55, true)?;
    let more = times(&rt, rt.alloc(), 0x55, false)?;
    if !(empty && pieces && half && more) {
        println!(rt; "failed")?;
    }
    Ok(())
}
RATTLE
(cd "$bench" && rt fmt >/dev/null && rt run) >"$work/ours" 2>"$work/log" || { tail -n 40 "$work/log" >&2; exit 1; }
if grep -q failed "$work/ours"; then
    echo "a call failed" >&2
    exit 1
fi

# the system's own file, grown and cut by the same pieces
cat >"$work/own.py" <<'PYTHON'
import os, sys, time
pieces = int(sys.argv[1])
path = sys.argv[2]
with open(path, "wb") as f:
    os.posix_fallocate(f.fileno(), 0, 65536 * pieces)
    t = time.perf_counter()
    os.ftruncate(f.fileno(), 0)
    print("remove", int((time.perf_counter() - t) * 1e9))
    for q in range(4):
        t = time.perf_counter()
        for i in range(pieces // 4):
            os.posix_fallocate(f.fileno(), (q * (pieces // 4) + i) * 65536, 65536)
        print("grow", int((time.perf_counter() - t) * 1e9))
    for q in range(4):
        t = time.perf_counter()
        for i in range(pieces // 4):
            os.ftruncate(f.fileno(), 65536 * (pieces - q * (pieces // 4) - i - 1))
        print("cut", int((time.perf_counter() - t) * 1e9))
PYTHON
if command -v python3 >/dev/null 2>&1; then
    { echo "volume the_system's_file"; python3 "$work/own.py" "$pieces" "$work/file"; } >"$work/own"
else
    echo "skipped: python3 is not installed" >&2
    : >"$work/own"
fi

echo "$(nproc) cores, load $(cut -d' ' -f1 /proc/loadavg), $pieces pieces of 64 KiB"
echo
echo "| ms, for each quarter of the pieces where they are four | grow | cut in one call | cut by pieces |"
echo "|---|---|---|---|"
cat "$work/ours" "$work/own" | awk '
    function line() { if (name != "") printf "| %s | %s | %s | %s |\n", name, grow, remove, cut }
    $1 == "volume" { line(); name = $2; gsub("_", " ", name); grow = ""; cut = ""; remove = ""; grown = 0 }
    $1 == "grow" && grown < 4 { grow = grow sprintf("%s%.0f", grow == "" ? "" : ", ", $2 / 1e6); grown++ }
    $1 == "cut" { cut = cut sprintf("%s%.0f", cut == "" ? "" : ", ", $2 / 1e6) }
    $1 == "remove" { remove = sprintf("%.0f", $2 / 1e6) }
    END { line() }'
for moment in 'changed by the growth' 'after by the growth and the removal'; do
    grep "^${moment%% *} " "$work/ours" | awk -v moment="${moment#* }" '{ printf "%s%d", n++ ? ", " : "\nBlocks that were changed " moment ": ", $2 } END { print "." }'
done
