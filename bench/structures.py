#!/usr/bin/env python3
"""Times the server's data structures by themselves, and how the time of one call grows with their size.

Run it at the top of the repository:
    python3 bench/structures.py [NAME..]
For each measure (by default all) it makes a repository in a temporary folder, with the crates that the measure needs
and a small program over them, proves and builds that, and shows what the program says. Only ratios mean anything from
one machine to another.
"""
import os
import shutil
import subprocess
import sys
import tempfile

BOOKS = '''//! Takes buffers out of the books, binds them and gives them back.
#![tactic(auto)]

use clover_alloc::Books;
use clover_words::Pool;
use std::io;
use std::time::Instant;

const TURNS: u32 = 1_000_000;

// Takes a buffer, binds it and gives it back. False where no buffer is free.
fn turn(books: &mut Books) -> bool {
    let batch = books.take(1);
    match batch.items().first() {
        Some(tag) => {
            let tag = *tag;
            books.bind(tag);
            books.give_back(tag);
            true
        }
        None => false,
    }
}

// So many turns, while a buffer is free.
fn turns(books: &mut Books, count: u32) -> bool {
    for _ in 0..count {
        if !turn(books) {
            return false;
        }
    }
    true
}

// Takes so many batches of 64.
fn fill(books: &mut Books, batches: u32) {
    for _ in 0..batches {
        let _batch = books.take(64);
    }
}

// The time of the turns over books of which so many batches are out.
fn measure(rt: HostRuntime, pool: Pool, batches: u32) -> io::Result<()> {
    let nodes = pool.nodes;
    let buffers = pool.total();
    match Books::make(rt.alloc(), pool) {
        Ok(books) => {
            let mut books = books;
            fill(&mut books, batches);
            let start = Instant::now(&rt)?;
            let all = turns(&mut books, TURNS);
            let time = start.elapsed(&rt)?.as_millis();
            let counts = books.counts();
            println!(rt; "{buffers:>6} buffers on {nodes:>2} nodes, {} free: {time:>4} ms for {TURNS} turns, whole: {all}", counts.free)
        }
        Err(_) => println!(rt; "no memory"),
    }
}

fn main(rt: HostRuntime) -> io::Result<()> {
    for (nodes, buffers) in [(1, 1024), (1, 8192), (1, 65_536), (16, 64), (16, 512), (16, 4096)] {
        if let Ok(pool) = Pool::check(nodes, buffers, 1, 1, 1_048_575) {
            let batches = (pool.total() / 64) as u32;
            measure(rt, pool, 0)?;
            measure(rt, pool, batches / 2)?;
            measure(rt, pool, batches.saturating_sub(1))?;
        }
    }
    Ok(())
}
'''

NAMES = '''//! Looks keys up in a list of names.
#![tactic(auto)]

ghost use Rattle.std.specs.Prelude.{◌≡◌};

use clover_dir::Names;
use clover_map::Key;
use std::io;
use std::time::Instant;

const MOST: usize = 16_384;
const LOOK_UPS: u32 = 1_000_000;

// A key of twelve bytes, which says this number behind one that jumps about.
fn key_of(number: u32) -> Option<Key> {
    let mut bytes = [0u8; 12];
    bytes[..4].copy_from_slice(&number.wrapping_mul(2_654_435_761).to_be_bytes());
    bytes[8..].copy_from_slice(&number.to_be_bytes());
    Key::of(&bytes).ok()
}

// Puts the key of the number behind the others, where it is new and there is room.
fn add(names: &mut Names, number: u32)
    requires { names.old.most ≡ MOST }
    ensures { names.new.most ≡ MOST }
{
    if let Some(key) = key_of(number) {
        if names.len() < MOST {
            match names.find(&key) {
                Some(_) => {}
                None => names.push(number, key),
            }
        }
    }
}

fn fill(names: &mut Names, count: u32)
    requires { names.old.most ≡ MOST }
{
    for number in 0..count {
        add(names, number);
    }
}

// How many of the look-ups, of one key after the other, find their key.
fn look_up(names: &Names, count: u32) -> u32 {
    let mut number = 0u32;
    let mut found = 0u32;
    for _ in 0..LOOK_UPS {
        let slot = key_of(number).and_then(|key| names.find(&key));
        if slot == Some(number) {
            found = found.saturating_add(1);
        }
        number = if number < count { number.saturating_add(1) } else { 0 };
    }
    found
}

// The time to put so many keys into a list, and that of the look-ups among them.
fn measure(rt: HostRuntime, count: u32) -> io::Result<()> {
    match Names::make(rt.alloc(), MOST as u32) {
        Ok(names) => {
            let mut names = names;
            let start = Instant::now(&rt)?;
            fill(&mut names, count);
            let filled = start.elapsed(&rt)?.as_millis();
            let start = Instant::now(&rt)?;
            let found = look_up(&names, count);
            let time = start.elapsed(&rt)?.as_millis();
            println!(rt; "{count:>6} keys: {filled:>4} ms to put them, {time:>4} ms for {LOOK_UPS} look-ups, {found} found")
        }
        Err(_) => println!(rt; "no memory"),
    }
}

fn main(rt: HostRuntime) -> io::Result<()> {
    for count in [64, 256, 1024, 4096, 16_384] {
        measure(rt, count)?;
    }
    Ok(())
}
'''

# what the checker cannot find alone of it: a key that was not found is new, and filling keeps the room
NAMES_PROOFS = {
    "add/Answers.antt": '''use Rattle.std.proofs.Common.{refl}
use Rattle.measure.proofs.add.Goals as goal

pub push-requires-clause-new : goal.push-requires-clause-new
push-requires-clause-new c = c.in-None.ensures.none.0 refl
''',
    "fill/Invariants.antt": '''use Rattle.std.proofs.Common.{◌≡◌}
use Rattle.measure.proofs.fill.Given as goal

abbrev pub invariant-loop-number : goal.invariant-loop-number
invariant-loop-number l = l.names.most ≡ 16384
''',
}

# the crates that a measure stands on, its program, and what the checker needs besides
MEASURES = {
    "books": ("clover_list clover_words clover_alloc", BOOKS, {}),
    "names": ("clover_list clover_words clover_map clover_rule clover_port clover_dir atomic_table", NAMES, NAMES_PROOFS),
}


def show(name: str, crates: str, program: str, proofs: dict[str, str]) -> None:
    """Proves, builds and runs the program over the crates, and prints what it says."""
    with tempfile.TemporaryDirectory() as folder:
        lines = []
        for line in open("crates.txt", encoding="utf-8"):
            crate = line.split(":")[0].split(" ")[0].strip()
            if crate in crates.split():
                lines.append(line)
                shutil.copytree(f"crates/{crate}", f"{folder}/crates/{crate}", ignore=shutil.ignore_patterns("out", "must-fail"))
        os.makedirs(f"{folder}/crates/measure/src")
        with open(f"{folder}/crates/measure/src/main.rt", "w", encoding="utf-8") as file:
            file.write(program)
        for path, text in proofs.items():
            os.makedirs(os.path.dirname(f"{folder}/crates/measure/proofs/{path}"), exist_ok=True)
            with open(f"{folder}/crates/measure/proofs/{path}", "w", encoding="utf-8") as file:
                file.write(text)
        with open(f"{folder}/crates.txt", "w", encoding="utf-8") as file:
            file.writelines(lines + [f"measure: {crates}\n"])
        run = subprocess.run(["rt", "run"], cwd=f"{folder}/crates/measure", capture_output=True, text=True)
        print(f"{name}:")
        print(run.stdout, end="")
        if run.returncode != 0:
            sys.exit(run.stderr)


def main() -> None:
    for name in sys.argv[1:] or MEASURES:
        show(name, *MEASURES[name])


if __name__ == "__main__":
    main()
