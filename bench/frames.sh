#!/bin/sh
# Feeds 64 MB to a Framer in pieces of 512 bytes, asking for frames after each piece: as one frame, and as
# frames with bodies of 100 bytes. Half as much is fed first, so that a cost that is not linear shows.
# The program is written to a temporary folder, beside copies of the crates that it uses. The first part of the wait is
# the proof of these crates, without which nothing is built.
set -eu
top=$(cd "$(dirname "$0")/.." && pwd)
command -v rt >/dev/null || { echo "frames: no rt here, skipped"; exit 0; }
work=$(mktemp -d)
trap 'rm -rf "$work"' EXIT
mkdir -p "$work/crates/feeding/src" "$work/crates/feeding/proofs/read" "$work/crates/feeding/proofs/take_frames"
for crate in gs_base gs_frames; do
    mkdir "$work/crates/$crate"
    for part in src specs proofs; do
        if [ -d "$top/crates/$crate/$part" ]; then
            cp -r "$top/crates/$crate/$part" "$work/crates/$crate/"
        fi
    done
done
cat > "$work/crates.txt" <<'END'
gs_base: sqlite_items
gs_frames: gs_base sqlite_items
feeding: gs_base gs_frames sqlite_items
END
cat > "$work/crates/feeding/proofs/read/Invariants.antt" <<'END'
use Rattle.std.proofs.Common.{◌≡◌, ◌+◌, length}
use Rattle.feeding.proofs.read.Given as goal

abbrev pub invariant-pieces : goal.invariant-pieces
invariant-pieces l = l.framer.at + length l.framer.rest + length l.rest ≡ length l.fn.stream

abbrev pub decreases-pieces : goal.decreases-pieces
decreases-pieces l = length l.rest
END
cat > "$work/crates/feeding/proofs/take_frames/Invariants.antt" <<'END'
use Rattle.std.proofs.Common.{◌≡◌, ◌+◌, length}
use Rattle.feeding.proofs.take_frames.Given as goal

abbrev pub invariant-loop : goal.invariant-loop
invariant-loop l = l.framer.at + length l.framer.rest ≡ l.fn.framer.at + length l.fn.framer.rest
END
cat > "$work/crates/feeding/src/main.rt" <<'END'
#![tactic(auto)]

ghost use Rattle.std.specs.Prelude.{◌≡◌, ◌+◌, length};

use gs_base::Mem;
use gs_frames::{Framer, Next, frame};
use std::alloc::Global;
use std::test::Fail;
use std::time::Instant;

const PIECE: usize = 512;

/// Takes the frames that are there, and counts them.
fn take_frames(framer: &mut Framer, alloc: Global, count: &mut u64)
    ensures { framer.new.at + length framer.new.rest ≡ framer.old.at + length framer.old.rest }
{
    for _ in 0..u64::MAX {
        match framer.next(alloc) {
            Next::Frame(_) => *count = count.wrapping_add(1),
            _ => return,
        }
    }
}

/// Reads a stream, and counts its frames.
fn read(alloc: Global, stream: &[u8]) -> Mem<u64> {
    let mut framer = Framer::new();
    let mut count = 0;
    let mut rest = stream;
    'pieces: while !rest.is_empty() {
        let (piece, behind) = rest.split_at(PIECE.min(rest.len()));
        framer.feed(alloc, piece)?;
        take_frames(&mut framer, alloc, &mut count);
        rest = behind;
    }
    Ok(count)
}

/// Frames with bodies of this size, of this many bytes or a little more in all.
fn sample(alloc: Global, body: usize, size: usize) -> Mem<Vec<u8>> {
    let body = vec![in alloc; b'x'; body]?;
    let one = frame(alloc, body.as_slice())?;
    let mut stream = Vec::new(alloc);
    for _ in 0..u64::MAX {
        if stream.len() >= size {
            break;
        }
        stream.extend_from_slice(one.as_slice())?;
    }
    Ok(stream)
}

fn measure(rt: &HostRuntime, body: usize, size: usize) -> Result<(), Fail> {
    let stream = sample(rt.alloc(), body, size)?;
    let start = Instant::now(rt)?;
    let count = read(rt.alloc(), stream.as_slice())?;
    let took = start.elapsed(rt)?.as_micros();
    let size = stream.len();
    println!(rt; "{size} bytes, {count} frames with bodies of {body} bytes: {took} us")?;
    Ok(())
}

fn main(rt: HostRuntime) -> Result<(), Fail> {
    measure(&rt, 33_554_432, 33_554_432)?;
    measure(&rt, 67_108_864, 67_108_864)?;
    measure(&rt, 100, 33_554_432)?;
    measure(&rt, 100, 67_108_864)?;
    Ok(())
}
END
cd "$work/crates/feeding"
rt run
