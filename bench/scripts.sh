#!/bin/sh
# Parses a script and writes the reply text of a history with an entry for each of its lines (the time that the history takes is
# taken off), and reads the command of each line too, beside `wc`, a plain loop over the same bytes in C, and one in awk, in one run. Two scripts are made: the short lines
# of a workload, and those of a mail user. Prints the median processor time of 5 runs each (of awk's loop one), and the most memory
# that was taken. Our side is a small program over bfs_script, which is proved and built in a copy of the crates below it. What
# isn't installed is skipped. usage: bench/scripts.sh [LINES]
set -eu
root=$(dirname "$(dirname "$(readlink -f "$0")")")
lines=${1:-1000000}
work=$(mktemp -d)
trap 'rm -rf "$work"' EXIT
below="bfs_bytes bfs_base bfs_tree bfs_text bfs_command bfs_script"
program="$work/crates/bench_scripts"
mkdir -p "$program/src" "$program/specs" "$program/proofs"
: >"$program/specs/Lib.antt"
: >"$program/proofs/Lib.antt"
for crate in $below; do
    mkdir -p "$work/crates/$crate"
    cp -R "$root/crates/$crate/src" "$root/crates/$crate/specs" "$root/crates/$crate/proofs" "$work/crates/$crate/"
    grep "^$crate:" "$root/crates.txt" >>"$work/crates.txt"
done
echo "bench_scripts: $below byteorder memchr itoa" >>"$work/crates.txt"
cat >"$program/src/main.rt" <<'RATTLE'
// Reads a script. With the word `parse` it is parsed; with `lines`, the command of each line is read too; with `history`, a
// history with an entry for each line is made of a parsed script; with `text`, its text is written.
#![tactic(auto)]

use bfs_script::{Script, parse, text};
use bfs_tree::{Call, Entry, Reply};
use std::alloc::{AllocError, Global};
use std::env;
use std::fs;
use std::io;
use std::io::Write;
use std::process::ExitCode;

// What a line is answered: done, made, or refused.
fn reply_to(number: u32) -> Reply {
    match number % 4 {
        0 => Reply::NotFound,
        1 => Reply::Made { id: 600 },
        _ => Reply::Done,
    }
}

// Reads the command of each line, and sums their numbers.
fn read_lines(alloc: Global, script: &Script) -> Result<u64, AllocError> {
    let mut sum: u64 = 0;
    for at in 0..script.len() {
        let line = script.line(alloc, at)?;
        sum = sum.wrapping_add(u64::from(line.number));
    }
    Ok(sum)
}

fn history(alloc: Global, lines: u32) -> Result<Vec<Entry>, AllocError> {
    let mut entries = Vec::new(alloc);
    for number in 0..lines {
        entries.push(Entry {
            session: number % 4 + 1,
            tag: number,
            stamp: 1,
            call: Call::Sync,
            reply: reply_to(number),
        })?;
    }
    Ok(entries)
}

// How many steps a word asks for behind the reading.
fn steps_in(word: Option<String>) -> u8 {
    match word {
        Some(word) => match word.as_bytes() {
            b"parse" => 1,
            b"lines" => 2,
            b"history" => 3,
            b"text" => 4,
            _ => 0,
        },
        None => 0,
    }
}

fn main(rt: HostRuntime) -> ExitCode {
    let alloc = rt.alloc();
    let Ok(mut args) = env::args(&rt) else {
        return ExitCode::from(2);
    };
    let _ = args.next();
    let Some(path) = args.next() else {
        return ExitCode::from(2);
    };
    let steps = steps_in(args.next());
    let Ok(bytes) = fs::read(&rt, path.as_str()) else {
        return ExitCode::from(5);
    };
    if steps == 0 {
        return ExitCode::from(0);
    }
    let Ok(script) = parse(alloc, &bytes) else {
        return ExitCode::from(9);
    };
    if steps == 1 {
        return ExitCode::from(0);
    }
    if steps == 2 {
        return match read_lines(alloc, &script) {
            Ok(0) => ExitCode::from(1),
            Ok(_) => ExitCode::from(0),
            Err(_) => ExitCode::from(7),
        };
    }
    let Ok(lines) = u32::try_from(script.len()) else {
        return ExitCode::from(8);
    };
    let Ok(entries) = history(alloc, lines) else {
        return ExitCode::from(7);
    };
    if steps == 3 {
        return ExitCode::from(0);
    }
    let Ok(words) = text(alloc, &entries) else {
        return ExitCode::from(7);
    };
    match io::writer(&rt).write_all(&words) {
        Ok(()) => ExitCode::from(0),
        Err(_) => ExitCode::from(6),
    }
}
RATTLE
(cd "$program" && rt fmt >/dev/null && rt run -- >"$work/build.log" 2>&1) || test $? -eq 2 || { tail -n 20 "$work/build.log" >&2; exit 1; }

if command -v cc >/dev/null 2>&1; then
    cat >"$work/loop.c" <<'C'
#include <fcntl.h>
#include <stdio.h>
#include <stdlib.h>
#include <sys/stat.h>
#include <unistd.h>
int main(int argc, char **argv) {
    struct stat info;
    int file = open(argv[1], O_RDONLY);
    if (argc != 2 || file < 0 || fstat(file, &info) != 0) return 1;
    unsigned char *bytes = malloc(info.st_size);
    for (off_t got = 0; got < info.st_size;) {
        ssize_t more = read(file, bytes + got, info.st_size - got);
        if (more <= 0) return 1;
        got += more;
    }
    long lines = 0, words = 0;
    int inside = 0;
    for (off_t i = 0; i < info.st_size; i++) {
        if (bytes[i] == '\n') lines++;
        if (bytes[i] == '\n' || bytes[i] == ' ') inside = 0;
        else if (!inside) { inside = 1; words++; }
    }
    printf("%ld %ld\n", lines, words);
    return 0;
}
C
    cc -O2 -o "$work/loop" "$work/loop.c"
else
    echo "skipped: cc is not installed" >&2
fi

python3 - "$program/out/bench_scripts" "$work" "$lines" <<'PYTHON'
import os
import random
import shutil
import statistics
import subprocess
import sys

program, work, lines = sys.argv[1], sys.argv[2], int(sys.argv[3])
draw = random.Random(7)
letters = "".join(draw.choice("abcdefghijklmnopqrstuvwxyz") for _ in range(10000))
loop = os.path.join(work, "loop")


def workload(n):
    """The lines of a workload: short names in four folders."""
    s, a, b = n % 4 + 1, draw.randrange(32), draw.randrange(32)
    return draw.choice([
        f"{s} make /s{s}/f{a}", f"{s} mkdir /s{s}/d{a}", f"{s} rm /s{s}/f{a}", f"{s} mv /s{s}/f{a} /s{s}/f{b}",
        f"{s} attr /s{s}/f{a} x LONG:{b}", f"{s} size /s{s}/f{a} {512 * b}", f"{s} ls /s{s}", f"{s} sync",
    ])


def mail(n):
    """A mail user's lines: a file for each mail, its text, four attributes, a move and a look."""
    s, i = n % 4 + 1, n // 10
    path = f"/home{i % 10}/inbox/mail-{i:07d}"
    text = letters[(start := draw.randrange(9000)):start + 240]
    return [
        f"{s} make {path}", f"{s} size {path} 720", f"{s} write {path} 0 :{text}", f"{s} write {path} 240 :{text}",
        f"{s} attr {path} MAIL:subject CSTR:The%20agenda%20of%20the%20meeting%20of%20week%20{i % 52}",
        f"{s} attr {path} MAIL:from CSTR:somebody.{i % 500}@example.org",
        f"{s} attr {path} MAIL:to CSTR:everybody@lists.example.org", f"{s} attr {path} MAIL:when LLNG:{1700000000000000 + i}",
        f"{s} stat {path}", f"{s} mv {path} /home{i % 10}/read/mail-{i:07d}",
    ][n % 10]


def run(words):
    """Seconds of processor time and KiB of one run."""
    with open(os.path.join(work, "printed"), "wb") as out:
        child = subprocess.Popen(words, stdout=out)
        _, status, usage = os.wait4(child.pid, 0)
    spent = usage.ru_utime + usage.ru_stime
    if status != 0:
        sys.exit(f"{words[0]} failed with {status}")
    return spent, usage.ru_maxrss


with open("/proc/loadavg") as load:
    print(f"{os.cpu_count()} processors, load {load.read().split()[0]}, {lines} lines each")
for name, line in (("workload", workload), ("mail", mail)):
    path = os.path.join(work, "script")
    with open(path, "w") as script:
        for n in range(lines):
            script.write(line(n) + "\n")
    size = os.path.getsize(path)
    tools = {"read": [program, path], "read, parse": [program, path, "parse"], "read, parse, each line": [program, path, "lines"],
             "read, parse, history": [program, path, "history"],
             "read, parse, history, text": [program, path, "text"]}
    if shutil.which("wc"):
        tools["wc"] = ["wc", path]
    if os.path.exists(loop):
        tools["loop in C"] = [loop, path]
    if shutil.which("awk"):
        tools["loop in awk"] = ["awk", '{ for (i = 1; i <= length($0); i++) if (substr($0, i, 1) == " ") n++ } END { print n }', path]
    times, most = {tool: [] for tool in tools}, {}
    for turn in range(5):
        for tool, words in tools.items():
            if turn > 0 and tool == "loop in awk":
                continue
            spent, memory = run(words)
            times[tool].append(spent)
            most[tool] = memory
    middle = {tool: statistics.median(spent) for tool, spent in times.items()}
    print(f"\n{name}: {size / 2**20:.1f} MiB, {size / lines:.1f} bytes a line\n")
    print("| who | median, s | MiB a second | memory, MiB | times the script's bytes |")
    print("|---|---|---|---|---|")
    for tool, spent in middle.items():
        print(f"| {tool} | {spent:.3f} | {size / 2**20 / spent:.0f} | {most[tool] / 1024:.0f} | {most[tool] * 1024 / size:.1f} |")
    text = middle["read, parse, history, text"] - middle["read, parse, history"]
    ours = {"reading, parsing and writing the text": middle["read, parse"] + text,
            "that and reading the command of each line": middle["read, parse, each line"] + text}
    held = (most["read, parse"] - most["read"]) * 1024 / size
    print(f"\nthe parsed script takes {held:.1f} times the bytes of the script, beside them")
    for what, spent in ours.items():
        print(f"{what} takes {spent:.3f} s")
        for other in ("loop in C", "loop in awk"):
            if "wc" in middle and other in middle:
                print(f"- {spent / (middle['wc'] + middle[other]):.2f} times what wc and the {other} take together")
PYTHON
