#!/usr/bin/env bash
# What a walk over the words of one partition costs, beside a plain Rust loop over the same generator.
# Builds a program over a copy of the crate hv_pick in a folder of its own, checks that both give the
# same sum of words, and prints the nanoseconds a row of both and their ratio, each at its best of
# several runs. Ends with 1 where the sums differ or a target is missed.
set -eu
rows=10000000
runs=9
most_nanoseconds=5
most_ratio=1.5

for tool in rt rustc; do
    if ! command -v "$tool" >/dev/null; then
        echo "walk: skipped, as $tool isn't here"
        exit 0
    fi
done

top=$(cd "$(dirname "$0")/.." && pwd)
work=$(mktemp -d)
trap 'rm -rf "$work"' EXIT

echo 'hv_pick: rand_pcg rand_core' >"$work/crates.txt"
mkdir -p "$work/crates/hv_pick"
cp -R "$top"/crates/hv_pick/{src,specs,proofs} "$work/crates/hv_pick/"
cd "$work/crates"
rt new walk start_io >"$work/log" 2>&1
echo 'walk: hv_pick' >>"$work/crates.txt"
rm -rf walk/src walk/specs walk/proofs walk/stdin walk/stdout
mkdir -p walk/src walk/proofs/sum_of_words

cat >walk/src/main.rt <<'END'
//! Prints the sum of the words of one partition's first rows, and the nanoseconds that it took.
#![tactic(auto)]

use hv_pick::Walker;
use std::env;
use std::io;
use std::time::Instant;

fn sum_of_words(seed: u64, part: u32, rows: u32) -> u64 {
    let mut walker = Walker::new(seed, part);
    let mut sum: u64 = 0;
    for row in 0..rows {
        sum = sum.wrapping_add(u64::from(walker.at(row)));
    }
    sum
}

fn main(rt: HostRuntime) -> io::Result<()> {
    let mut rows: u32 = 0;
    for word in env::args(&rt)? {
        if let Ok(number) = word.parse::<u32>() {
            rows = number;
        }
    }
    let start = Instant::now(&rt)?;
    let sum = sum_of_words(42, 54, rows);
    let took = start.elapsed(&rt)?;
    println!(rt; "{sum} {}", took.as_nanos())?;
    Ok(())
}
END

cat >walk/proofs/sum_of_words/Invariants.antt <<'END'
use Rattle.std.proofs.Common.{◌≤◌}
use Rattle.walk.proofs.sum_of_words.Given as goal

abbrev pub invariant-loop-row : goal.invariant-loop-row
invariant-loop-row l = l.walker.next ≤ l.row
END

cat >"$work/plain.rs" <<'END'
// The same sum by a plain loop over the generator.
use std::env;
use std::time::Instant;

struct Generator {
    state: u64,
    increment: u64,
}

impl Generator {
    fn new(seed: u64, stream: u64) -> Generator {
        let increment = (stream << 1) | 1;
        let mut generator = Generator { state: seed.wrapping_add(increment), increment };
        generator.step();
        generator
    }

    fn step(&mut self) {
        self.state = self.state.wrapping_mul(6364136223846793005).wrapping_add(self.increment);
    }

    fn next_word(&mut self) -> u32 {
        let state = self.state;
        self.step();
        ((((state >> 18) ^ state) >> 27) as u32).rotate_right((state >> 59) as u32)
    }
}

fn sum_of_words(seed: u64, part: u32, rows: u32) -> u64 {
    let mut generator = Generator::new(seed, u64::from(part));
    let mut sum: u64 = 0;
    for _ in 0..rows {
        sum = sum.wrapping_add(u64::from(generator.next_word()));
    }
    sum
}

fn main() {
    let rows: u32 = env::args().nth(1).and_then(|word| word.parse().ok()).unwrap_or(0);
    let start = Instant::now();
    let sum = sum_of_words(42, 54, rows);
    let took = start.elapsed();
    println!("{sum} {}", took.as_nanos());
}
END

if ! (cd walk && rt run -- "$rows") >>"$work/log" 2>&1; then
    echo "walk: the program isn't built"
    tail -n 20 "$work/log"
    exit 1
fi
rustc -O -o "$work/plain" "$work/plain.rs"

best_walk=
best_plain=
for _ in $(seq "$runs"); do
    read -r walk_sum walk_took <<<"$(./walk/out/walk "$rows")"
    read -r plain_sum plain_took <<<"$("$work/plain" "$rows")"
    if [ "$walk_sum" != "$plain_sum" ]; then
        echo "walk: the sums differ: $walk_sum, and $plain_sum by the plain loop"
        exit 1
    fi
    if [ -z "$best_walk" ] || [ "$walk_took" -lt "$best_walk" ]; then best_walk=$walk_took; fi
    if [ -z "$best_plain" ] || [ "$plain_took" -lt "$best_plain" ]; then best_plain=$plain_took; fi
done

awk -v rows="$rows" -v walk="$best_walk" -v plain="$best_plain" -v most="$most_nanoseconds" -v ratio="$most_ratio" '
BEGIN {
    printf "walk: %.2f ns a row, plain loop %.2f ns a row, ratio %.2f (targets: %s ns, ratio %s)\n", \
        walk / rows, plain / rows, walk / plain, most, ratio
    exit !(walk / rows < most && walk / plain <= ratio)
}'
