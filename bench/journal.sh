#!/bin/sh
# Blocks a second through seal, log and home of a device on a real file, beside `dd` that writes the same bytes to the same places
# (each block twice, array blocks and superblock sectors too) with the same number of calls of fsync, and beside a loop of pwrite and
# fsync in one process, in one run. Our side is a small program over FileDisk and Device, which is proved and built in a copy of the
# crates below it. Prints the median of 5 runs each. usage: bench/journal.sh
set -eu
root=$(dirname "$(dirname "$(readlink -f "$0")")")
work=$(mktemp -d)
trap 'rm -rf "$work"' EXIT
below="bfs_base bfs_bytes bfs_disk bfs_super bfs_log bfs_txn bfs_device"
program="$work/crates/bench_journal"
tests="$root/crates/bfs_journal_tests"
mkdir -p "$program/src" "$program/proofs/groups"
cp "$root/HANDLES" "$work/"
for crate in $below; do
    cp -R "$root/crates/$crate" "$work/crates/"
    grep "^$crate:" "$root/crates.txt" >> "$work/crates.txt"
done
echo "bench_journal: $below byteorder" >> "$work/crates.txt"
git init -q "$work"
# The groups are those of the tests.
sed -e '/^\/\/\/ A device over this disk with three groups sealed/,$d' -e '/^use crate::volumes/d' -e '/^use bfs_device/d' \
    -e '/^use bfs_disk/d' "$tests/src/groups.rt" > "$program/src/groups.rt"
cp -R "$tests/proofs/groups/are_data" "$tests/proofs/groups/set_all" "$program/proofs/groups/"
cp "$tests/proofs/Lib.antt" "$tests/proofs/Once.antt" "$program/proofs/"
sed -i 's/bfs_journal_tests/bench_journal/' "$program"/proofs/groups/*/*.antt
cat > "$program/src/main.rt" <<'RATTLE'
// Seals groups of so many blocks on a volume in a file, one after the other, and steps until each is home.
#![tactic(auto)]

ghost use Rattle.std.specs.Prelude.{◌≡◌, IsTrue};

mod groups;

use bfs_device::{Device, Progress};
use bfs_disk::{Disk, FileDisk};
use bfs_super::Super;
use groups::{group_of, is_next};
use std::alloc::Global;
use std::env;
use std::process::ExitCode;

fn has_empty_log(sup: Super) -> bool
    ensures { IsTrue result → sup.log_start ≡ sup.log_end }
{
    sup.log_start == sup.log_end
}

// Steps until the device is idle, and gives the disk back.
fn run_down<D: Disk + Drop>(mut device: Device<D>) -> Option<D> {
    for _ in 0..100_000u64 {
        match device.step() {
            Ok(Progress::Idle) => return Some(device.into_disk()),
            Ok(_) => {}
            Err(_) => return None,
        }
    }
    None
}

// One group through seal, log and home, behind the blocks that are used.
fn one_group<D: Disk + Drop>(alloc: Global, mut disk: D, count: u64, fill: u8) -> Option<D> {
    let Ok(sectors) = disk.sectors() else {
        return None;
    };
    if sectors < 2 {
        return None;
    }
    let mut sector = [0; 512];
    let Ok(()) = disk.read(1, &mut sector) else {
        return None;
    };
    let Ok(sup) = Super::parse(&sector) else {
        return None;
    };
    let geometry = sup.geometry();
    let needed = u64::from(geometry.block_size / 512).checked_mul(geometry.blocks)?;
    let size = sup.block_size as usize;
    if sectors < needed || size > 8192 {
        return None;
    }
    if !has_empty_log(sup) {
        return None;
    }
    let used = geometry.used;
    let Ok(group) = group_of(alloc, [1, 1, used], used, count, size, fill) else {
        return None;
    };
    if !is_next(&sup, 0, used, &group) {
        return None;
    }
    let Ok(mut device) = Device::adopt(alloc, disk, sup) else {
        return None;
    };
    device.seal(group);
    run_down(device)
}

fn number(text: Option<String>) -> u64 {
    match text {
        Some(text) => text.as_str().parse().unwrap_or(0),
        None => 0,
    }
}

// The words are the file, the blocks of a group, and how many groups.
fn main(rt: HostRuntime) -> ExitCode {
    let alloc = rt.alloc();
    let Ok(mut args) = env::args(&rt) else {
        return ExitCode::from(2);
    };
    let _ = args.next();
    let Some(path) = args.next() else {
        return ExitCode::from(2);
    };
    let count = number(args.next());
    let groups = number(args.next());
    let Ok(mut disk) = FileDisk::named(&rt, path.as_str()) else {
        return ExitCode::from(7);
    };
    for n in 0..groups {
        disk = match one_group(alloc, disk, count, (n % 256) as u8) {
            Some(disk) => disk,
            None => return ExitCode::from(4),
        };
    }
    ExitCode::from(0)
}
RATTLE
(cd "$program" && rt run -- >"$work/build.log" 2>&1) || test $? -eq 2 || { tail -20 "$work/build.log"; exit 1; }
python3 - "$program/out/bench_journal" "$work" <<'PYTHON'
import os
import statistics
import struct
import subprocess
import sys
import time

program, work = sys.argv[1:]
RUNS = 5
image = os.path.join(work, "volume.img")
BLOCKS, LOG, USED = 4200, 2047, 2053  # of 1,024 bytes: the log behind the bitmap, then root and indices, used up to here


def make():
    sector = struct.pack("<32s4I2q2I3i", b"bench", 0x42465331, 0x42494745, 1024, 10, BLOCKS, USED, 1024, 0xDD121031, 1, 13, 1)
    sector += struct.pack("<Ii2H2qI", 0x434C454E, 0, 2, LOG, 0, 0, 0x15B6830E)
    sector += struct.pack("<i2Hi2H", 0, LOG + 2, 1, 0, LOG + 3, 1)
    with open(image, "wb") as file:
        file.truncate(1024 * BLOCKS)
        file.seek(512)
        file.write(sector)
    return USED


def run(words):
    subprocess.run(words, check=True, stdout=subprocess.DEVNULL, stderr=subprocess.DEVNULL)


def device(count, groups, used):
    run([program, image, str(count), str(groups)])


def parts(count, used):
    # the log, the gate, the blocks at home, the tail: bytes a write, writes, the first place in units of the write
    return [(1024, count + (count + 125) // 126, 2), (512, 1, 1), (1024, count, used), (512, 1, 1)]


def dd(count, groups, used):
    for _ in range(groups):
        for size, writes, place in parts(count, used):
            run(["dd", "if=/dev/zero", f"of={image}", f"bs={size}", f"count={writes}", f"seek={place}", "conv=notrunc,fsync"])


def loop(count, groups, used):
    file = os.open(image, os.O_RDWR)
    for _ in range(groups):
        for size, writes, place in parts(count, used):
            block = bytes(size)
            for i in range(writes):
                os.pwrite(file, block, size * (place + i))
            os.fsync(file)
    os.close(file)


print(f"{os.cpu_count()} cores, load {os.getloadavg()[0]:.1f}\n")
print("| blocks of a group | groups | who | median, ms | blocks a second | times that of the device |\n|---|---|---|---|---|---|")
for count, groups in [(1, 50), (16, 50), (126, 20), (400, 20), (1800, 10)]:
    times = {}
    for _ in range(RUNS):  # by turns, so that what else the machine does meets them alike
        for name, call in [("device", device), ("dd", dd), ("pwrite, fsync", loop)]:
            used = make()
            start = time.perf_counter()
            call(count, groups, used)
            times.setdefault(name, []).append(time.perf_counter() - start)
    own = statistics.median(times["device"])
    for name, runs in times.items():
        median = statistics.median(runs)
        print(f"| {count} | {groups} | {name} | {1000 * median:.0f} | {count * groups / median:.0f} | {median / own:.2f} |")
PYTHON
