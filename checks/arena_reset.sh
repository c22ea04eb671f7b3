#!/bin/sh
# Shows that an arena is not reset while an IR over it is still used: the borrow checker refuses the program below.
# Run after the gate, at the top of the repository: sh checks/arena_reset.sh
set -eu
top=$(cd "$(dirname "$0")/.." && pwd)
work=$(mktemp -d)
trap 'rm -rf "$work"' EXIT
mkdir "$work/crates"
for name in heco_nums heco_noise heco_written heco_ir; do
    mkdir "$work/crates/$name"
    for part in src specs proofs; do
        if [ -d "$top/crates/$name/$part" ]; then cp -r "$top/crates/$name/$part" "$work/crates/$name/$part"; fi
    done
    grep "^$name:" "$top/crates.txt" >> "$work/crates.txt"
done
echo 'arena_reset: bumpalo heco_nums heco_ir' >> "$work/crates.txt"
mkdir -p "$work/crates/arena_reset/src"
cat > "$work/crates/arena_reset/src/lib.rt" <<'PROGRAM'
//! An arena is reset while an IR over it is still used.
#![tactic(auto)]

use bumpalo::Bump;
use heco_ir::{Builder, Scalar};
use heco_nums::List;
use std::alloc::Global;

pub fn reset_too_early(alloc: Global, arena: &mut Bump) -> u32 {
    let nodes = Builder::<Scalar>::open(arena);
    let ir = nodes.finish(List::new(alloc));
    let _ = arena.reset();
    ir.len()
}
PROGRAM
cd "$work/crates/arena_reset"
if rt check > "$work/log" 2>&1; then
    echo 'not refused'
    exit 1
fi
if grep -qi 'e0502' "$work/log"; then
    echo 'refused, as it must be: the arena is still borrowed'
else
    cat "$work/log"
    exit 1
fi
