#!/bin/sh
# Times the plain program that answers calls from maps: a list of a directory, searches of two indices over it, and a write and a
# read of a piece of a file whose bytes are known, beside the same work over Rust's ordered map. Prints milliseconds, the
# least of ten turns. Builds a small program over the crates here, outside the repository; where they aren't proved yet, that
# takes some minutes. What isn't installed is skipped.
# usage: bench/model.sh [NODES [BYTES]]
set -eu
root=$(dirname "$(dirname "$(readlink -f "$0")")")
nodes=${1:-10000}
bytes=${2:-65536}
work=$(mktemp -d)
trap 'rm -rf "$work"' EXIT

# ours: a program crate in a copy of the crates that it stands on
mkdir -p "$work/repo/crates/model_bench/src" "$work/repo/crates/model_bench/specs" "$work/repo/crates/model_bench/proofs"
for crate in bfs_bytes bfs_base bfs_tree bfs_known bfs_plain bfs_model; do
    mkdir -p "$work/repo/crates/$crate"
    cp -r "$root/crates/$crate/src" "$root/crates/$crate/specs" "$root/crates/$crate/proofs" "$work/repo/crates/$crate/"
    grep "^$crate:" "$root/crates.txt" >>"$work/repo/crates.txt"
done
echo "model_bench: bfs_model bfs_plain bfs_known bfs_tree bfs_base bfs_bytes byteorder" >>"$work/repo/crates.txt"
bench=$work/repo/crates/model_bench
: >"$bench/specs/Lib.antt"
: >"$bench/proofs/Lib.antt"
cat >"$bench/src/main.rt" <<RATTLE
// Times calls on a plain tree.
#![tactic(auto)]

use bfs_model::Model;
use bfs_tree::{Bytes, Call, Key, MakeKind, Reply};
use std::alloc::{AllocError, Global};
use std::io;
use std::rt::Clock;
use std::time::Instant;

const NODES: u64 = $nodes;
const BYTES: u64 = $bytes;
const ROOT: u64 = 0x10_0000;

fn name_of(i: u64) -> [u8; 13] {
    let digits = *b"0123456789abcdef";
    let mut name = *b"file-00000000";
    let mut left = i.wrapping_mul(2654435761) % 4294967296;
    for place in 0..8 {
        name[12 - place] = digits[(left % 16) as usize];
        left /= 16;
    }
    name
}

fn filled(alloc: Global) -> Result<Model, AllocError> {
    let mut tree = Model::new(alloc, ROOT, 0)?;
    for i in 0..NODES {
        tree.make(ROOT, &name_of(i), &MakeKind::File, 0o644, 1)?;
    }
    Ok(tree)
}

/// How many names, or rows, a reply has.
fn count(reply: &Reply) -> usize {
    match reply {
        Reply::Names { names } => names.as_slice().len(),
        Reply::Rows { rows } => rows.as_slice().len(),
        _ => 0,
    }
}

fn names(alloc: Global, tree: &Model) -> Result<usize, AllocError> {
    let low = Key::Text(Bytes::from_slice(alloc, b"a")?);
    let high = Key::Text(Bytes::from_slice(alloc, b"z")?);
    Ok(count(&tree.index_find(b"name", &low, &high)?))
}

fn sizes(tree: &Model) -> Result<usize, AllocError> {
    Ok(count(&tree.index_find(b"size", &Key::I64(0), &Key::I64(9))?))
}

/// One call, which has to be done.
fn does(tree: &mut Model, call: &Call) -> Result<bool, AllocError> {
    if tree.is_ready(1, call) {
        match tree.apply(1, call, 1)? {
            Reply::Done => Ok(true),
            _ => Ok(false),
        }
    } else {
        Ok(false)
    }
}

fn hold(write: bool) -> Call {
    Call::Hold {
        id: 0,
        at: 0,
        length: BYTES,
        write,
    }
}

/// Ends a hold with bytes that are all the letter x.
fn release(alloc: Global) -> Result<Call, AllocError> {
    let mut bytes = Vec::new(alloc);
    for _ in 0..BYTES {
        bytes.push(b'x')?;
    }
    Ok(Call::Release {
        id: 0,
        bytes: Bytes::new(bytes),
        whole: true,
        before: 0,
        after: 0,
    })
}

fn piece(tree: &mut Model, end: &Call, write: bool) -> Result<bool, AllocError> {
    let held = does(tree, &hold(write))?;
    let done = does(tree, end)?;
    Ok(held && done)
}

fn report(rt: &impl Print, name: &str, nanoseconds: u128, good: bool) -> io::Result<()> {
    if good {
        println!(rt; "{name} {nanoseconds}")
    } else {
        println!(rt; "failed {name}")
    }
}

fn listed(tree: &Model) -> bool {
    match tree.list(ROOT) {
        Ok(reply) => count(&reply) as u64 == NODES,
        Err(_) => false,
    }
}

fn named(alloc: Global, tree: &Model) -> bool {
    match names(alloc, tree) {
        Ok(found) => found as u64 == NODES,
        Err(_) => false,
    }
}

fn sized(tree: &Model) -> bool {
    match sizes(tree) {
        Ok(found) => found > 0,
        Err(_) => false,
    }
}

fn moved(tree: &mut Model, end: &Call, write: bool) -> bool {
    match piece(tree, end, write) {
        Ok(done) => done,
        Err(_) => false,
    }
}

fn searches(rt: &(impl Print + Clock), alloc: Global, tree: &Model) -> io::Result<()> {
    let start = Instant::now(rt)?;
    let good = listed(tree);
    report(rt, "list", start.elapsed(rt)?.as_nanos(), good)?;
    let start = Instant::now(rt)?;
    let good = named(alloc, tree);
    report(rt, "names", start.elapsed(rt)?.as_nanos(), good)?;
    let start = Instant::now(rt)?;
    let good = sized(tree);
    report(rt, "sizes", start.elapsed(rt)?.as_nanos(), good)
}

fn pieces(rt: &(impl Print + Clock), tree: &mut Model, end: &Call) -> io::Result<()> {
    let start = Instant::now(rt)?;
    let good = moved(tree, end, true);
    report(rt, "write", start.elapsed(rt)?.as_nanos(), good)?;
    let start = Instant::now(rt)?;
    let good = moved(tree, end, false);
    report(rt, "read", start.elapsed(rt)?.as_nanos(), good)
}

/// The tree with its first file as long as the piece, and the call that ends a hold on it.
fn start(alloc: Global) -> Result<(Model, Call), AllocError> {
    let mut tree = filled(alloc)?;
    tree.set_size(0, BYTES, 2)?;
    Ok((tree, release(alloc)?))
}

fn main(rt: HostRuntime) -> io::Result<()> {
    if let Ok((mut tree, end)) = start(rt.alloc()) {
        for _ in 0..10 {
            searches(&rt, rt.alloc(), &tree)?;
            pieces(&rt, &mut tree, &end)?;
        }
    }
    Ok(())
}
RATTLE
(cd "$bench" && rt fmt >/dev/null && rt run) >"$work/ours" 2>"$work/log" || { tail -n 40 "$work/log" >&2; exit 1; }
if grep -q failed "$work/ours" || ! grep -q read "$work/ours"; then
    echo "a call failed" >&2
    exit 1
fi

# the same work over Rust's ordered map
if command -v rustc >/dev/null 2>&1; then
    cat >"$work/map.rs" <<RUST
use std::collections::BTreeMap;
use std::time::Instant;
fn name_of(i: u64) -> Vec<u8> {
    let left = i.wrapping_mul(2654435761) % 4294967296;
    format!("file-{left:08x}").into_bytes()
}
fn time<T>(name: &str, mut call: impl FnMut() -> T) {
    let start = Instant::now();
    let made = call();
    println!("{name} {}", start.elapsed().as_nanos());
    drop(std::hint::black_box(made));
}
fn main() {
    let (count, bytes): (u64, u64) = ($nodes, $bytes);
    let nodes: BTreeMap<u64, (u64, Vec<u8>, u64)> = (0..count).map(|i| (i, (7, name_of(i), 0))).collect();
    let mut known: BTreeMap<(u64, u64), u8> = BTreeMap::new();
    for _ in 0..10 {
        time("list", || {
            let mut names: Vec<Vec<u8>> = nodes.values().filter(|n| n.0 == 7).map(|n| n.1.clone()).collect();
            names.sort();
            names
        });
        time("names", || {
            let mut rows: Vec<(Vec<u8>, u64)> = nodes.iter().map(|(id, n)| (n.1.clone(), *id)).collect();
            rows.sort();
            rows.iter().map(|r| (r.0.clone(), r.1, nodes[&r.1].1.clone())).collect::<Vec<_>>()
        });
        time("sizes", || {
            let mut rows: Vec<(u64, u64)> = nodes.iter().map(|(id, n)| (n.2, *id)).collect();
            rows.sort();
            rows.iter().map(|r| (r.0, r.1, nodes[&r.1].1.clone())).collect::<Vec<_>>()
        });
        time("write", || {
            known.retain(|k, _| k.0 != 0 || k.1 >= bytes);
            let mut all = known.clone();
            for place in 0..bytes {
                all.insert((0, place), b'x');
            }
            known = all;
        });
        time("read", || known.iter().all(|(k, b)| k.0 != 0 || k.1 >= bytes || *b == b'x'));
    }
}
RUST
    rustc -O -o "$work/map" "$work/map.rs" && "$work/map" >"$work/map.out"
else
    echo "skipped: rustc is not installed" >&2
fi

echo "$(nproc) cores, load $(cut -d' ' -f1 /proc/loadavg), $nodes nodes, $bytes bytes"
echo
echo "| least of ten, ms | list | find by name | find by size | write | read |"
echo "|---|---|---|---|---|---|"
show() {
    awk -v name="$1" '!($1 in t) || $2 < t[$1] { t[$1] = $2 } END { printf "| %s | %.2f | %.2f | %.2f | %.2f | %.2f |\n", name, t["list"] / 1e6, t["names"] / 1e6, t["sizes"] / 1e6, t["write"] / 1e6, t["read"] / 1e6 }'
}
show "bfs_model" <"$work/ours"
[ -f "$work/map.out" ] && show "BTreeMap (rustc -O)" <"$work/map.out"
