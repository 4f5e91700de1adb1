#!/bin/sh
# Puts names into a tree of pages in memory, finds each and reads them all back, beside Rust's BTreeMap and SQLite on the same
# keys in one run. Prints calls a second. Builds a small program over the crates here, outside the repository; where they aren't
# proved yet, that takes some minutes. What isn't installed is skipped.
# usage: bench/trees.sh [NAMES]
set -eu
root=$(dirname "$(dirname "$(readlink -f "$0")")")
names=${1:-100000}
work=$(mktemp -d)
trap 'rm -rf "$work"' EXIT

# ours: a program crate in a copy of the crates that it stands on
mkdir -p "$work/repo/crates/tree_bench/src" "$work/repo/crates/tree_bench/specs" "$work/repo/crates/tree_bench/proofs"
for crate in bfs_bytes bfs_base bfs_node bfs_txn bfs_pages bfs_values bfs_insert bfs_remove bfs_range; do
    mkdir -p "$work/repo/crates/$crate"
    cp -r "$root/crates/$crate/src" "$root/crates/$crate/specs" "$root/crates/$crate/proofs" "$work/repo/crates/$crate/"
    grep "^$crate:" "$root/crates.txt" >>"$work/repo/crates.txt"
done
echo "tree_bench: bfs_pages bfs_range bfs_values bfs_insert bfs_remove bfs_node bfs_txn bfs_base bfs_bytes byteorder" >>"$work/repo/crates.txt"
bench=$work/repo/crates/tree_bench
: >"$bench/specs/Lib.antt"
: >"$bench/proofs/Lib.antt"
for call in put look all take; do
    mkdir -p "$bench/proofs/${call}_one"
    cat >"$bench/proofs/${call}_one/Invariants.antt" <<ANTT
use Rattle.tree_bench.proofs.${call}_one.Given as goal

abbrev pub ghosts-$call : goal.ghosts-$call
ghosts-$call a = record { name = a.ledger.name; parts = a.ledger.parts }
ANTT
done
cat >"$bench/src/main.rt" <<RATTLE
// Times a tree of pages in memory.
#![tactic(auto)]
ghost use Rattle.std.specs.Prelude.{◌≡◌};
ghost use Rattle.bfs_base.specs.Keys.{IsKey};
ghost use Rattle.bfs_base.specs.declared.kind.KeyKind.TheVariants.{Text};

use bfs_insert::insert;
use bfs_node::{Header, KeyKind, blank, is_key};
use bfs_pages::{MemPages, find};
use bfs_range::range;
use bfs_remove::remove;
use bfs_txn::Steps;
use std::alloc::{AllocError, Global};
use std::io;
use std::marker::Brand;
use std::rt::Clock;
use std::sync::ledger::{Blank, Ledger};
use std::time::Instant;

const NAMES: u64 = $names;

fn key_of(i: u64) -> [u8; 13] {
    let digits = *b"0123456789abcdef";
    let mut key = *b"file-00000000";
    let mut left = i.wrapping_mul(2654435761) % 4294967296;
    for place in 0..8 {
        key[12 - place] = digits[(left % 16) as usize];
        left /= 16;
    }
    key
}

fn other(i: u64) -> u64 {
    i.wrapping_mul(7919) % NAMES
}

fn empty(alloc: Global) -> Result<Vec<u8>, AllocError> {
    let mut bytes = Vec::new(alloc);
    let mut page = [0u8; 1024];
    let header = Header {
        magic: 0x69f6c2e8,
        node_size: 1024,
        levels: 1,
        data_type: 0,
        root_pointer: 1024,
        free_pointer: -1,
        maximum_size: 2048,
    };
    header.print(&mut page);
    bytes.extend_from_slice(&page)?;
    blank(&mut page);
    bytes.extend_from_slice(&page)?;
    Ok(bytes)
}

fn put<L: Ledger>(pages: &mut MemPages, key: &[u8], value: i64, ledger: Blank) -> bool
    requires key { IsKey Text key.now }
    requires name { ledger.name ≡ L.name }
    requires parts { ledger.parts ≡ L.parts }
    requires some { L.parts ≡ 1 }
{
    let mut steps = Steps::<L>::begin(ledger);
    insert(pages, KeyKind::Text, key, value, &mut steps).is_ok()
}

fn look<L: Ledger>(pages: &mut MemPages, key: &[u8], ledger: Blank) -> bool
    requires name { ledger.name ≡ L.name }
    requires parts { ledger.parts ≡ L.parts }
    requires some { L.parts ≡ 1 }
{
    let mut steps = Steps::<L>::begin(ledger);
    match find(pages, KeyKind::Text, key, &mut steps) {
        Ok(Some(_)) => true,
        _ => false,
    }
}

fn take<L: Ledger>(pages: &mut MemPages, key: &[u8], ledger: Blank) -> bool
    requires name { ledger.name ≡ L.name }
    requires parts { ledger.parts ≡ L.parts }
    requires some { L.parts ≡ 1 }
{
    let mut steps = Steps::<L>::begin(ledger);
    remove(pages, KeyKind::Text, key, &mut steps).is_ok()
}

fn all<L: Ledger>(alloc: Global, pages: &mut MemPages, ledger: Blank) -> usize
    requires name { ledger.name ≡ L.name }
    requires parts { ledger.parts ≡ L.parts }
    requires some { L.parts ≡ 1 }
{
    let mut steps = Steps::<L>::begin(ledger);
    match range(alloc, pages, KeyKind::Text, None, None, &mut steps) {
        Ok(found) => found.as_slice().len(),
        Err(_) => 0,
    }
}

fn put_one(pages: &mut MemPages, i: u64) -> bool {
    let key = key_of(i);
    is_key(KeyKind::Text, &key) && put::<Brand>(pages, &key, 7, Blank::new(1))
}

fn look_one(pages: &mut MemPages, i: u64) -> bool {
    let key = key_of(other(i));
    look::<Brand>(pages, &key, Blank::new(1))
}

fn take_one(pages: &mut MemPages, i: u64) -> bool {
    let key = key_of(other(i));
    take::<Brand>(pages, &key, Blank::new(1))
}

fn all_one(alloc: Global, pages: &mut MemPages) -> usize {
    all::<Brand>(alloc, pages, Blank::new(1))
}

fn times(rt: &(impl Print + Clock), alloc: Global, pages: &mut MemPages) -> io::Result<bool> {
    let start = Instant::now(rt)?;
    let mut good = true;
    for i in 0..NAMES {
        if !put_one(pages, i) {
            good = false;
        }
    }
    println!(rt; "insert {}", start.elapsed(rt)?.as_nanos())?;
    let start = Instant::now(rt)?;
    for i in 0..NAMES {
        if !look_one(pages, i) {
            good = false;
        }
    }
    println!(rt; "find {}", start.elapsed(rt)?.as_nanos())?;
    println!(rt; "bytes {}", pages.bytes().len())?;
    let start = Instant::now(rt)?;
    let rows = all_one(alloc, pages);
    println!(rt; "range {}", start.elapsed(rt)?.as_nanos())?;
    println!(rt; "rows {rows}")?;
    let start = Instant::now(rt)?;
    for i in 0..NAMES {
        if !take_one(pages, i) {
            good = false;
        }
    }
    println!(rt; "remove {}", start.elapsed(rt)?.as_nanos())?;
    Ok(good)
}

fn main(rt: HostRuntime) -> io::Result<()> {
    let bytes = match empty(rt.alloc()) {
        Ok(bytes) => bytes,
        Err(_) => return Ok(()),
    };
    if bytes.len() % 1024 == 0 {
        let mut pages = MemPages::new(bytes);
        if !times(&rt, rt.alloc(), &mut pages)? {
            println!(rt; "failed")?;
        }
    }
    Ok(())
}
RATTLE
(cd "$bench" && rt fmt >/dev/null && rt run) >"$work/ours" 2>"$work/log" || { tail -n 40 "$work/log" >&2; exit 1; }
if grep -q failed "$work/ours"; then
    echo "a call failed" >&2
    exit 1
fi

# Rust's ordered map
if command -v rustc >/dev/null 2>&1; then
    cat >"$work/map.rs" <<RUST
use std::collections::BTreeMap;
use std::time::Instant;
fn key_of(i: u64) -> [u8; 13] {
    let mut key = *b"file-00000000";
    let mut left = i.wrapping_mul(2654435761) % 4294967296;
    for place in 0..8 {
        key[12 - place] = b"0123456789abcdef"[(left % 16) as usize];
        left /= 16;
    }
    key
}
fn main() {
    let count: u64 = $names;
    let mut map: BTreeMap<Vec<u8>, i64> = BTreeMap::new();
    let start = Instant::now();
    for i in 0..count { map.insert(key_of(i).to_vec(), i as i64); }
    println!("insert {}", start.elapsed().as_nanos());
    let start = Instant::now();
    for i in 0..count { let at = i * 7919 % count; assert_eq!(map.get(&key_of(at)[..]), Some(&(at as i64))); }
    println!("find {}", start.elapsed().as_nanos());
    let start = Instant::now();
    let all: Vec<(Vec<u8>, Vec<i64>)> = map.iter().map(|(k, v)| (k.clone(), vec![*v])).collect();
    println!("range {}", start.elapsed().as_nanos());
    println!("rows {}", all.len());
    let start = Instant::now();
    for i in 0..count { map.remove(&key_of(i * 7919 % count)[..]); }
    println!("remove {}", start.elapsed().as_nanos());
}
RUST
    rustc -O -o "$work/map" "$work/map.rs" && "$work/map" >"$work/map.out"
else
    echo "skipped: rustc is not installed" >&2
fi

# SQLite: one statement for all calls of a kind, in one transaction
if command -v sqlite3 >/dev/null 2>&1; then
    {
        echo "CREATE TABLE names (key BLOB PRIMARY KEY, value INTEGER) WITHOUT ROWID; BEGIN;"
        echo ".timer on"
        echo "WITH RECURSIVE n(i) AS (SELECT 0 UNION ALL SELECT i + 1 FROM n WHERE i + 1 < $names) INSERT INTO names SELECT printf('file-%08x', (i * 2654435761) % 4294967296), i FROM n;"
        echo "WITH RECURSIVE n(i) AS (SELECT 0 UNION ALL SELECT i + 1 FROM n WHERE i + 1 < $names) SELECT sum(value) FROM n CROSS JOIN names ON key = printf('file-%08x', (((i * 7919) % $names) * 2654435761) % 4294967296);"
        echo "SELECT sum(length(key) + value) FROM (SELECT key, value FROM names ORDER BY key);"
        echo "DELETE FROM names WHERE key IN (WITH RECURSIVE n(i) AS (SELECT 0 UNION ALL SELECT i + 1 FROM n WHERE i + 1 < $names) SELECT printf('file-%08x', (((i * 7919) % $names) * 2654435761) % 4294967296) FROM n);"
    } | sqlite3 :memory: >"$work/sqlite.out"
else
    echo "skipped: sqlite3 is not installed" >&2
fi

echo "$(nproc) cores, load $(cut -d' ' -f1 /proc/loadavg), $names names"
echo
echo "| calls a second | insert | find | read all back (rows) | remove |"
echo "|---|---|---|---|---|"
show() {
    # name, then the seconds of each
    awk -v name="$1" -v names="$names" 'function rate(s) { return s > 0 ? sprintf("%d", names / s) : "" } { t[$1] = $2 } END { printf "| %s | %s | %s | %s | %s |\n", name, rate(t["insert"]), rate(t["find"]), rate(t["range"]), rate(t["remove"]) }'
}
awk '/^(insert|find|range|remove) / { print $1, $2 / 1e9 }' "$work/ours" | show "bfs over MemPages"
[ -f "$work/map.out" ] && awk '/^(insert|find|range|remove) / { print $1, $2 / 1e9 }' "$work/map.out" | show "BTreeMap (rustc -O)"
[ -f "$work/sqlite.out" ] && awk '/^Run Time/ { split("insert find range remove", word, " "); print word[++n], $4 }' "$work/sqlite.out" | show "SQLite in memory, one statement each"
grep '^bytes ' "$work/ours" | awk '{ printf "\nThe tree has %.1f MiB of pages.\n", $2 / 1048576 }'
