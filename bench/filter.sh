#!/usr/bin/env bash
# What a filter costs over 1,000,000 rows: a whole number compared, a text compared, contained and begun with, by
# predicates that are prepared once; and what a sample of half the rows and the union of two filters cost.
#
# Has a small program count the rows of a partition of 1,000,000 rows that a filter keeps, in two ways: by hv_expr's
# `ReadyPred` over hv_csv's table, the predicate alone; and as the program does it, by hv_made's `made_part` of a
# lineage with the filter over a base that was read before. Samples and unions are made in the second way alone, a union
# of two filters of the numbers with what these cost. Checks each count against plain Python's, and prints the nanoseconds a
# row, the best of nine passes. Targets of both: at most 10 for a whole number, 40 for an equal text. One that contains a
# text costs at most 10 plain loops, a sample of half the rows 3, the union of two filters 5, a plain loop being that of
# plain_range.rs in the same run.
#
# The program is made, proved and built in a temporary folder, over copies of the crates; with a folder as its
# argument, in that folder, which stays.
set -u
cd "$(dirname "$0")/.." || exit 1
for tool in rt rustc python3; do
    command -v "$tool" > /dev/null || { echo "filter.sh: skipped, $tool isn't here"; exit 0; }
done
if [ $# -gt 0 ]; then
    work=$1
    mkdir -p "$work" && rm -rf "$work/repo" || exit 1
else
    work=$(mktemp -d) || exit 1
    trap 'rm -rf "$work"' EXIT
fi
crates="hv_value hv_outer hv_pick hv_member hv_column hv_csv hv_part hv_expr hv_lineage hv_made"

make_program() {
    mkdir -p "$work/repo/crates" && cd "$work/repo" && git init -q . || return 1
    for crate in $crates; do
        sed -n "/^$crate:/p" "$1/crates.txt" >> crates.txt
        mkdir "crates/$crate" && cp -r "$1/crates/$crate/src" "$1/crates/$crate/specs" "$1/crates/$crate/proofs" "crates/$crate/"
    done
    sed -n 's/^hv_made:/rows: hv_outer hv_made/p' "$1/crates.txt" >> crates.txt
    mkdir -p crates/rows/src crates/rows/specs crates/rows/proofs
    : > crates/rows/specs/Lib.antt
    : > crates/rows/proofs/Lib.antt
    cat > crates/rows/src/main.rt <<'RT'
//! Counts the rows of a partition on standard input that a filter keeps, in nine passes, by the predicate alone and by
//! the table of a lineage. Prints the count and the nanoseconds of the best pass, of both.
#![tactic(auto)]

ghost use Rattle.std.specs.Prelude.{◌<◌, ◌^◌, ◌≡◌, length, true};
ghost use Rattle.hv_expr.specs.Ready.{is_pred_within};

use hv_csv::base_table;
use hv_expr::{How, Pred, ReadyPred, Rel, TextTest};
use hv_lineage::{Base, How2, Lineage};
use hv_made::{base_part, made_part, share_part};
use hv_outer::{ReadSource, read_all};
use hv_value::{Cell, Kind, MAX_ROWS, Mem, Memory, Schema, Table, Text};
use std::alloc::Global;
use std::sync::Arc;
use std::time::Instant;
use std::{env, io};

fn schema_of(alloc: Global) -> Mem<Schema> {
    let x = (Text::of(alloc, "x")?, Kind::Int);
    let t = (Text::of(alloc, "t")?, Kind::Text);
    Schema::new(vec![in alloc; x, t]?).map_err(|_| Memory)
}

fn test_of(alloc: Global, how: How, fold: bool, text: &str) -> Mem<Pred> {
    let col = Text::of(alloc, "t")?;
    let text = Text::of(alloc, text)?;
    Ok(Pred::Match { col, test: TextTest { how, fold, text } })
}

fn pred_of(alloc: Global, word: &str) -> Mem<Pred> {
    match word {
        "int" => Ok(Pred::Cmp { col: Text::of(alloc, "x")?, how: Rel::Ge, to: Cell::Int(500_000) }),
        "low" => Ok(Pred::Cmp { col: Text::of(alloc, "x")?, how: Rel::Lt, to: Cell::Int(250_000) }),
        "order" => Ok(Pred::Cmp {
            col: Text::of(alloc, "t")?,
            how: Rel::Lt,
            to: Cell::Text(Text::of(alloc, "Los Angeles")?),
        }),
        "equal" => Ok(Pred::Cmp {
            col: Text::of(alloc, "t")?,
            how: Rel::Eq,
            to: Cell::Text(Text::of(alloc, "Los Angeles")?),
        }),
        "contains" => test_of(alloc, How::Contains, false, "Ang"),
        "begins" => test_of(alloc, How::Begins, false, "Los"),
        "folded" => test_of(alloc, How::Equals, true, "LOS ANGELES"),
        _ => test_of(alloc, How::Equals, false, "Los Angeles"),
    }
}

fn count<T: Table>(alloc: Global, table: &T, ready: &ReadyPred) -> Mem<u32>
    requires { is_pred_within (length (T.columns table.now)) ready.now ≡ true }
{
    let mut count: u32 = 0;
    for row in 0..MAX_ROWS {
        match table.next_row(row) {
            Some(next) if next == row => {}
            _ => return Ok(count),
        }
        count = count.saturating_add(u32::from(ready.eval(alloc, table, row)?));
    }
    Ok(count)
}

/// The count of the rows that a filter keeps, and the nanoseconds of the best of nine passes.
fn passes<T: Table>(rt: &HostRuntime, table: &T, ready: &ReadyPred) -> Mem<(u32, u128)>
    requires { is_pred_within (length (T.columns table.now)) ready.now ≡ true }
{
    let mut found = 0;
    let mut best = u128::MAX;
    for _ in 0..9 {
        let Ok(start) = Instant::now(rt) else { return Err(Memory) };
        found = count(rt.alloc(), table, ready)?;
        let Ok(took) = start.elapsed(rt) else { return Err(Memory) };
        best = best.min(took.as_nanos());
    }
    Ok((found, best))
}

fn measure(rt: &HostRuntime, bytes: &[u8], word: &str) -> Mem<(u32, u128)>
    requires { length bytes.now < 2 ^ 26 }
{
    let alloc = rt.alloc();
    let schema = schema_of(alloc)?;
    let pred = pred_of(alloc, word)?;
    let table = base_table(alloc, &schema, 0, bytes)?;
    let ready = ReadyPred::of(alloc, &pred, &schema)?;
    passes(rt, &table, &ready)
}

/// A table of this schema.
fn table_of(alloc: Global) -> Mem<Arc<Lineage>> {
    let schema = schema_of(alloc)?;
    let table = Text::of(alloc, "rows")?;
    Lineage::base(alloc, Base::Named { schema, table, parts: 1 })
}

fn filter_of(alloc: Global, base: &Arc<Lineage>, word: &str) -> Mem<Arc<Lineage>> {
    Lineage::filter(alloc, base, pred_of(alloc, word)?).map_err(|_| Memory)
}

/// Half the rows, by their words.
fn sample_of(alloc: Global, base: &Arc<Lineage>) -> Mem<Arc<Lineage>> {
    Lineage::sample(alloc, base, 5, 2_147_483_648).map_err(|_| Memory)
}

/// The rows of either of two filters.
fn union_of(alloc: Global, base: &Arc<Lineage>) -> Mem<Arc<Lineage>> {
    let high = filter_of(alloc, base, "int")?;
    let low = filter_of(alloc, base, "low")?;
    Lineage::combine(alloc, How2::Union, &high, &low).map_err(|_| Memory)
}

/// What a word names over a table of this schema.
fn lineage_of(alloc: Global, word: &str) -> Mem<Arc<Lineage>> {
    let base = table_of(alloc)?;
    match word {
        "sample" => sample_of(alloc, &base),
        "union" => union_of(alloc, &base),
        _ => filter_of(alloc, &base, word),
    }
}

/// The same of the table that hv_made makes of the lineage over the base's, without the reading of the base.
fn measure_made(rt: &HostRuntime, bytes: &[u8], word: &str) -> Mem<(u32, u128)>
    requires { length bytes.now < 2 ^ 26 }
{
    let alloc = rt.alloc();
    let lineage = lineage_of(alloc, word)?;
    let table = base_part(alloc, lineage.origin().schema(), 0, bytes)?;
    let mut found = 0;
    let mut best = u128::MAX;
    for _ in 0..9 {
        let base = share_part(alloc, &table)?;
        let Ok(start) = Instant::now(rt) else { return Err(Memory) };
        let made = made_part(alloc, &lineage, base)?;
        let Ok(took) = start.elapsed(rt) else { return Err(Memory) };
        found = made.member().count();
        best = best.min(took.as_nanos());
    }
    Ok((found, best))
}

fn show(rt: &HostRuntime, measured: Mem<(u32, u128)>) -> io::Result<()> {
    match measured {
        Ok((found, best)) => println!(rt; "{found} {best}"),
        Err(_) => println!(rt; "no memory"),
    }
}

fn main(rt: HostRuntime) -> io::Result<()> {
    let alloc = rt.alloc();
    let mut last = String::new(alloc);
    for word in env::args(&rt)? {
        last = word;
    }
    let Ok(bytes) = read_all(alloc, &mut ReadSource::new(rt.stdin()), (1 << 26) - 1) else {
        return println!(rt; "no bytes");
    };
    let word = last.as_str();
    if word != "sample" && word != "union" {
        show(&rt, measure(&rt, bytes.as_slice(), word))?;
    }
    show(&rt, measure_made(&rt, bytes.as_slice(), word))
}
RT
    cd crates/rows && rt fmt > /dev/null && rt run -- int < /dev/null > "$work/build.log" 2>&1
    [ -x out/rows ] || { tail -n 20 "$work/build.log"; return 1; }
}

here=$PWD
rustc -O -o "$work/plain" bench/plain_range.rs || exit 1
(make_program "$here") || exit 1

cat > "$work/measure.py" <<'PY'
import random, subprocess, sys
program, plain = sys.argv[1:]
ROWS = 1_000_000
LOOPS = {"contains": 10, "sample": 3, "union": 5}
random.seed(7)
TEXTS = ["", "AA", "DL", "Los Angeles", "Los Alamos", "los angeles", "San Diego", "New York"]
rows = [(random.randint(0, 999_999), random.choice(TEXTS)) for _ in range(ROWS)]
part = ("x,t\n" + "".join(f"{x},{t}\n" for x, t in rows)).encode()
HERE = "Los Angeles"
def words(seed, part):
    state = (seed + 2 * part + 1) % 2**64
    while True:
        state = (state * 6364136223846793005 + 2 * part + 1) % 2**64
        word = ((state >> 18 ^ state) >> 27) % 2**32
        turn = state >> 59
        yield (word >> turn | word << (32 - turn)) % 2**32

WANT = {
    "int": (lambda x, t: x >= 500_000, 10),
    "equal": (lambda x, t: t == HERE, 40),
    "test": (lambda x, t: t == HERE, 40),
    "order": (lambda x, t: t < HERE, None),
    "begins": (lambda x, t: t.startswith("Los"), None),
    "contains": (lambda x, t: "Ang" in t, None),
    "folded": (lambda x, t: t.casefold() == HERE.casefold(), None),
    "union": (lambda x, t: x >= 500_000 or x < 250_000, None),
    "sample": (lambda x, t: next(row_words) < 2**31, None),
}
row_words = words(5, 0)
def plain_loop():
    output = subprocess.run([plain, str(ROWS)], stdout=subprocess.PIPE, check=True, text=True).stdout
    return int(output.split()[1]) / ROWS

loop = min(plain_loop() for _ in range(5))
print(f"one plain loop: {loop:.2f} nanoseconds a row")
missed = 0
for name, (keeps, target) in WANT.items():
    want = sum(keeps(x, t) for x, t in rows)
    lines = subprocess.run([program, name], input=part, stdout=subprocess.PIPE, check=True).stdout.splitlines()
    ways = ("the predicate alone", "the table of a lineage")
    for way, line in zip(ways[-1:] if name in ("sample", "union") else ways, lines, strict=True):
        found, took = map(int, line.split())
        if found != want:
            sys.exit(f"filter.sh: {name}, {way}, kept {found} rows, wanted {want}")
        each = took / ROWS
        line = f"{name}, {way}: {found} rows, {each:.1f} nanoseconds a row"
        if target is not None:
            line += f"; target of {target}: " + ("met" if each <= target else "MISSED")
            missed += each > target
        if name in LOOPS:
            times = each / loop
            most = LOOPS[name]
            line += f", {times:.2f} plain loops; target of {most}: " + ("met" if times <= most else "MISSED")
            missed += times > most
        print(line)
sys.exit(1 if missed else 0)
PY
python3 "$work/measure.py" "$work/repo/crates/rows/out/rows" "$work/plain"
