#!/bin/sh
# Times the table of lines of a text of 4 MB, then 100,000 offsets of positions and 100,000 positions of offsets.
# The program is written to a temporary folder, beside copies of the crates that it uses. The first part of the wait is
# the proof of these crates, without which nothing is built.
set -eu
top=$(cd "$(dirname "$0")/.." && pwd)
command -v rt >/dev/null || { echo "positions: no rt here, skipped"; exit 0; }
work=$(mktemp -d)
trap 'rm -rf "$work"' EXIT
mkdir -p "$work/crates/positions/src"
for crate in gs_base gs_text; do
    mkdir "$work/crates/$crate"
    for part in src specs proofs; do
        if [ -d "$top/crates/$crate/$part" ]; then
            cp -r "$top/crates/$crate/$part" "$work/crates/$crate/"
        fi
    done
done
cat > "$work/crates.txt" <<'END'
gs_base: sqlite_items
gs_text: gs_base sqlite_items
positions: gs_base gs_text
END
cat > "$work/crates/positions/src/main.rt" <<'END'
#![tactic(auto)]

use gs_base::Mem;
use gs_text::{Lines, Pos, PosUnit};
use std::alloc::Global;
use std::test::Fail;
use std::time::Instant;

const LINE: &str = "\tcount := count + 1 // é€😀 some words of a comment\n";
const SIZE: usize = 4_194_304;
const ASKED: u32 = 100_000;

/// A text of the given size or a little more.
fn sample(alloc: Global) -> Mem<String> {
    let mut text = String::new(alloc);
    for _ in 0..SIZE / LINE.len() {
        text.push_str(LINE)?;
    }
    Ok(text)
}

/// The next of a fixed run of numbers that look random.
fn next(state: u64) -> u64 {
    state.wrapping_mul(6364136223846793005).wrapping_add(1442695040888963407)
}

fn main(rt: HostRuntime) -> Result<(), Fail> {
    let text = sample(rt.alloc())?;
    let text = text.as_str();
    assert!(rt; text.len() < 5_000_000);
    let start = Instant::now(&rt)?;
    let lines = Lines::new(rt.alloc(), text)?;
    let took = start.elapsed(&rt)?.as_micros();
    let size = text.len();
    println!(rt; "the lines of {size} bytes: {took} us")?;

    let mut state = 1u64;
    let mut sum = 0u32;
    let start = Instant::now(&rt)?;
    for _ in 0..ASKED {
        state = next(state);
        let line = (state >> 33) as u32 % 80_000;
        let pos = Pos { line, character: (state >> 40) as u32 % 60 };
        sum = sum.wrapping_add(lines.offset_at(text, pos, PosUnit::Utf16));
    }
    let took = start.elapsed(&rt)?.as_micros();
    println!(rt; "{ASKED} offsets of positions: {took} us (sum {sum})")?;

    let start = Instant::now(&rt)?;
    let mut asked = 0u32;
    for _ in 0..ASKED {
        state = next(state);
        let offset = (state >> 33) as u32 % 4_000_000;
        if text.is_char_boundary(offset as usize) {
            let pos = lines.pos_at(text, offset, PosUnit::Utf16);
            sum = sum.wrapping_add(pos.line).wrapping_add(pos.character);
            asked = asked.wrapping_add(1);
        }
    }
    let took = start.elapsed(&rt)?.as_micros();
    println!(rt; "{asked} positions of offsets: {took} us (sum {sum})")?;
    Ok(())
}
END
cd "$work/crates/positions"
rt run
