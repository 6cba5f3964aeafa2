#!/usr/bin/env bash
# What a view of distinct values costs over 1,000,000 rows, by how many different values there are.
#
# Has a small program over hv_csv's table and hv_range's `Distinct` summarize one partition of 1,000,000 whole
# numbers, 500, 50,000 and 1,000,000 of them different, in a random order, with k 500. Checks each answer, the k least
# values and whether there are more, against plain Python's, and prints the time of `summarize` alone, the best of nine
# passes. Target: more different values take at most 3 times as long as 500.
#
# The program is made, proved and built in a temporary folder, over copies of the crates; with a folder as its
# argument, in that folder, which stays.
set -u
cd "$(dirname "$0")/.." || exit 1
for tool in rt python3; do
    command -v "$tool" > /dev/null || { echo "distinct.sh: skipped, $tool isn't here"; exit 0; }
done
if [ $# -gt 0 ]; then
    work=$1
    mkdir -p "$work" && rm -rf "$work/repo" || exit 1
else
    work=$(mktemp -d) || exit 1
    trap 'rm -rf "$work"' EXIT
fi
crates="hv_value hv_outer hv_column hv_csv hv_sketch hv_range"

make_program() {
    mkdir -p "$work/repo/crates" && cd "$work/repo" && git init -q . || return 1
    for crate in $crates; do
        sed -n "/^$crate:/p" "$1/crates.txt" >> crates.txt
        mkdir "crates/$crate" && cp -r "$1/crates/$crate/src" "$1/crates/$crate/specs" "$1/crates/$crate/proofs" "crates/$crate/"
    done
    sed -n 's/^hv_range: hv_value hv_sketch/rows: hv_value hv_outer hv_column hv_csv hv_sketch hv_range/p' "$1/crates.txt" >> crates.txt
    mkdir -p crates/rows/src crates/rows/specs crates/rows/proofs
    : > crates/rows/specs/Lib.antt
    : > crates/rows/proofs/Lib.antt
    cat > crates/rows/src/main.rt <<'RT'
//! The 500 least different whole numbers of a partition on standard input, in nine passes. Prints the nanoseconds of
//! the best pass and whether there are more, and then each number in a line.
#![tactic(auto)]

ghost use Rattle.std.specs.Prelude.{◌<◌, ◌^◌, length};

use hv_csv::base_table;
use hv_outer::{ReadSource, read_all};
use hv_range::{Distinct, DistinctSummary};
use hv_sketch::Vizketch;
use hv_value::{CellRef, Kind, Mem, Memory, Schema, Table, Text};
use std::alloc::Global;
use std::io;
use std::time::Instant;

fn schema_of(alloc: Global) -> Mem<Schema> {
    let x = (Text::of(alloc, "x")?, Kind::Int);
    Schema::new(vec![in alloc; x]?).map_err(|_| Memory)
}

/// The nanoseconds of the best of nine passes, and the summary.
fn passes<T: Table>(rt: &HostRuntime, table: &T, view: &Distinct) -> Mem<(u128, DistinctSummary)>
    requires { view.now.col < length (T.columns table.now) }
{
    let mut summary = view.zero(rt.alloc())?;
    let mut best = u128::MAX;
    for _ in 0..9 {
        let Ok(start) = Instant::now(rt) else { return Err(Memory) };
        summary = view.summarize(rt.alloc(), table)?;
        let Ok(took) = start.elapsed(rt) else { return Err(Memory) };
        best = best.min(took.as_nanos());
    }
    Ok((best, summary))
}

fn measure(rt: &HostRuntime, bytes: &[u8]) -> Mem<(u128, DistinctSummary)>
    requires { length bytes.now < 2 ^ 26 }
{
    let alloc = rt.alloc();
    let schema = schema_of(alloc)?;
    let view = Distinct::new(0, 500);
    let table = base_table(alloc, &schema, 0, bytes)?;
    if !view.fits(&schema) {
        return Err(Memory);
    }
    passes(rt, &table, &view)
}

fn main(rt: HostRuntime) -> io::Result<()> {
    let Ok(bytes) = read_all(rt.alloc(), &mut ReadSource::new(rt.stdin()), (1 << 26) - 1) else {
        return println!(rt; "no bytes");
    };
    let Ok((best, summary)) = measure(&rt, bytes.as_slice()) else {
        return println!(rt; "no memory");
    };
    println!(rt; "{best} {}", u8::from(summary.more))?;
    for cell in summary.values.as_slice() {
        if let CellRef::Int(number) = cell.lent() {
            println!(rt; "{number}")?;
        }
    }
    Ok(())
}
RT
    cd crates/rows && rt fmt > /dev/null && rt run < /dev/null > "$work/build.log" 2>&1
    [ -x out/rows ] || { tail -n 20 "$work/build.log"; return 1; }
}

here=$PWD
(make_program "$here") || exit 1

cat > "$work/measure.py" <<'PY'
import random, subprocess, sys
program = sys.argv[1]
ROWS, KEPT, MOST = 1_000_000, 500, 3
random.seed(11)
costs = []
for different in (500, 50_000, 1_000_000):
    rows = [1_000_000 + i % different for i in range(ROWS)]
    random.shuffle(rows)
    part = ("x\n" + "".join(f"{x}\n" for x in rows)).encode()
    output = subprocess.run([program], input=part, stdout=subprocess.PIPE, check=True).stdout
    took, more, *values = map(int, output.split())
    rising = sorted(set(rows))
    if values != rising[:KEPT] or more != (len(rising) > KEPT):
        sys.exit(f"distinct.sh: a wrong answer for {different} different values")
    costs.append(took)
    print(f"{different:>9} different values: {took / 1e6:.2f} milliseconds, {took / ROWS:.1f} nanoseconds a row")
growth = max(costs) / costs[0]
print(f"more different values take at most {growth:.2f} times as long as 500; target of {MOST}: " + ("met" if growth <= MOST else "MISSED"))
sys.exit(1 if growth > MOST else 0)
PY
python3 "$work/measure.py" "$work/repo/crates/rows/out/rows"
