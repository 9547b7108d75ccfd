"""How long a page takes to be found in the page cache, and to be kept: the same whether 64 or 4,096 pages are held.

It makes a small program over a copy of the crates nb_host and nb_cache, proves and builds it, and runs it with few and with
many pages. Half of the looks find their page, and each page that isn't found is kept in the place of another. A time is that
of the longer run less that of the shorter one, for each look. It passes where 4,096 pages take at most 4 times as long as 64:
walking the pages would take 64 times as long, and what is left comes from the processor's caches.
"""

import os
import shutil
import statistics
import subprocess
import sys
import tempfile
import time

LOOKS, RUNS, MOST = 1_000_000, 7, 4.0
HERE = os.path.dirname(os.path.abspath(__file__))

MAIN = """#![tactic(auto)]

ghost use Rattle.std.specs.Prelude.{◌≡◌};

use nb_cache::Cache;
use std::env;
use std::io;

// Keeps a page, unless it would drop a waiting one.
fn keep(cache: &mut Cache, page: u32)
    requires { cache.old.page_size ≡ 64 }
    ensures { cache.new.page_size ≡ cache.old.page_size }
{
    if let None = cache.would_drop(page) {
        cache.keep(page, &[1; 64]);
    }
}

// Looks for a page, and keeps it where it isn't held.
fn use_page(cache: &mut Cache, page: u32) -> bool
    requires { cache.old.page_size ≡ 64 }
    ensures { cache.new.page_size ≡ cache.old.page_size }
{
    if cache.look(page, &mut [0; 64]) {
        return true;
    }
    keep(cache, page);
    false
}

// How many of so many looks for twice as many pages as are held find theirs.
fn found(cache: &mut Cache, pages: u32, looks: u32) -> u32
    requires { cache.old.page_size ≡ 64 }
{
    let mut found: u32 = 0;
    let mut random: u32 = 1;
    for _ in 0..looks {
        random = random.wrapping_mul(1664525).wrapping_add(1013904223);
        if use_page(cache, (random >> 8) % pages.max(1).wrapping_mul(2).max(1)) {
            found = found.wrapping_add(1);
        }
    }
    found
}

fn number(words: &[String], place: usize) -> u32 {
    match words.get(place) {
        Some(word) => word.as_str().parse().unwrap_or(0),
        None => 0,
    }
}

fn main(rt: HostRuntime) -> io::Result<()> {
    let mut words = Vec::new(rt.alloc());
    for word in env::args(&rt)?.skip(1) {
        words.push(word)?;
    }
    let pages = number(words.as_slice(), 0);
    let looks = number(words.as_slice(), 1);
    if pages == 0 || pages > 4096 {
        return Ok(());
    }
    if let Ok(mut cache) = Cache::new(rt.alloc(), pages, 64) {
        let found = found(&mut cache, pages, looks);
        println!(rt; "{found}")?;
    }
    Ok(())
}
"""

INVARIANTS = """use Rattle.std.proofs.Common.{◌≡◌}
use Rattle.cache_bench.proofs.found.Given as goal

abbrev pub invariant-loop : goal.invariant-loop
invariant-loop l = l.cache.page_size ≡ 64
"""


def write(folder, name, text):
    path = os.path.join(folder, name)
    os.makedirs(os.path.dirname(path), exist_ok=True)
    with open(path, "w", encoding="utf-8") as file:
        file.write(text)


def build(folder):
    """The program, proved and built."""
    without_out = shutil.ignore_patterns("out", "must-fail", "wrong")
    for crate in ("nb_host", "nb_cache"):
        shutil.copytree(os.path.join(HERE, "..", "crates", crate), os.path.join(folder, "crates", crate), ignore=without_out)
    write(folder, "crates.txt", "nb_host: arrayvec thiserror\nnb_cache: nb_host lru\ncache_bench: nb_cache nb_host\n")
    crate = os.path.join(folder, "crates", "cache_bench")
    write(crate, "src/main.rt", MAIN)
    write(crate, "specs/Lib.antt", "")
    write(crate, "proofs/Lib.antt", "")
    write(crate, "proofs/found/Invariants.antt", INVARIANTS)
    built = os.path.join(crate, "out", "cache_bench")
    ran = subprocess.run(["rt", "run"], cwd=crate, stdout=subprocess.DEVNULL, stderr=subprocess.PIPE, text=True)
    if not os.access(built, os.X_OK):
        sys.exit(f"the program was not built:\n{ran.stderr}")
    return built


def nanoseconds(built, pages):
    """The time of one look, as the median of the runs."""
    times = []
    for _ in range(RUNS):
        spent = []
        for looks in (LOOKS, 3 * LOOKS):
            began = time.perf_counter()
            subprocess.run([built, str(pages), str(looks)], stdout=subprocess.DEVNULL, check=True)
            spent.append(time.perf_counter() - began)
        times.append((spent[1] - spent[0]) / (2 * LOOKS) * 1e9)
    return statistics.median(times)


def main():
    with tempfile.TemporaryDirectory() as folder:
        built = build(folder)
        few, many = nanoseconds(built, 64), nanoseconds(built, 4096)
    passes = many < MOST * few
    print(f"{'PASS' if passes else 'FAIL'} cache: {many:.0f} ns a look with 4,096 pages held, {few:.0f} ns with 64")
    sys.exit(0 if passes else 1)


if __name__ == "__main__":
    main()
