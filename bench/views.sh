#!/usr/bin/env bash
# What views cost over 1,000,000 rows on one thread, as multiples of one plain loop: a plain Rust program (plain_range.rs)
# that takes the range over the same whole numbers and their marks of missing cells, in the same run.
#
# Has a small program over hv_part's table, of a column of whole numbers, one in 16 of them missing, and one of eight
# short texts, take the range, the distinct values and a histogram of the numbers, a heat map of them by the texts with
# four left boundaries, a trellis of histograms by eight buckets of the numbers, the next 20 rows by text and number,
# the rows whose text has a letter, and three pages of 500 keys of the numbers, near the start, in the middle and near
# the end: of all rows, and of a table that was filtered to half of them, whose rows are listed. Then, of a table of
# 1,008 different numbers (eight of them in one row of sixteen each), of the texts and of numbers that are all
# different: the heavy hitters with k 20, of the last with k 1,000 too, and what is frequent, which is the heavy hitters
# and then the counts of their values. Of all rows and of half of them also a sample of 10,000 rows with 100 quantiles of
# the numbers. Checks each range against the plain program's and all else against plain Python's, the heavy hitters by
# hv_heavy's way to cut, the sample by PCG's words, and prints the nanoseconds a row, the best of the passes of five
# runs. Targets: of all rows the range at most 1.5 plain loops, the histogram 2.5, the heat map 8, the trellis 7, the
# next rows 6, the search for a text 10, the sample 6; the heavy hitters of the 1,008 numbers 5, of the texts 10,
# frequent numbers and texts twice that, the heavy hitters of different numbers with k 1,000 40, and at most 64 MB above
# the tables; the range of half the rows at most 3 plain loops a kept row; of all rows no page more than a third dearer
# than another. Ends with 1 where an answer is wrong, or a target is missed by more than half.
#
# The program is made, proved and built in a temporary folder, over copies of the crates; with a folder as its
# argument, in that folder, which stays.
set -u
cd "$(dirname "$0")/.." || exit 1
for tool in rt rustc python3; do
    command -v "$tool" > /dev/null || { echo "views.sh: skipped, $tool isn't here"; exit 0; }
done
if [ $# -gt 0 ]; then
    work=$1
    mkdir -p "$work" && rm -rf "$work/repo" || exit 1
else
    work=$(mktemp -d) || exit 1
    trap 'rm -rf "$work"' EXIT
fi
crates="hv_value hv_member hv_column hv_part hv_sketch hv_range hv_bucket hv_hist hv_grid hv_next hv_heavy hv_pick hv_quant hv_expr hv_find"

make_program() {
    mkdir -p "$work/repo/crates" && cd "$work/repo" && git init -q . || return 1
    for crate in $crates; do
        sed -n "/^$crate:/p" "$1/crates.txt" >> crates.txt
        mkdir "crates/$crate" && cp -r "$1/crates/$crate/src" "$1/crates/$crate/specs" "$1/crates/$crate/proofs" "crates/$crate/"
    done
    sed -n "s/^hv_find: hv_value hv_sketch hv_next hv_expr\(.*\)/views: $crates\1 rand_pcg rand_core/p" "$1/crates.txt" >> crates.txt
    mkdir -p crates/views/src crates/views/specs crates/views/proofs/numbers crates/views/proofs/carriers crates/views/proofs/few crates/views/proofs/different crates/views/proofs/half
    : > crates/views/specs/Lib.antt
    : > crates/views/proofs/Lib.antt
    cat > crates/views/src/main.rt <<'RT'
//! Takes views of a column of whole numbers and one of texts, over all rows and over half of them, in fifteen passes.
//! Prints for each the rows, the nanoseconds of the best pass, and its value: of a chart a digest of its counts, of next
//! rows how many come before, the keys, their rows and two of their numbers, of a sample its rows and a digest of its
//! quantiles. Then takes heavy hitters, and the counts of their
//! values, of columns of few numbers, of texts and of numbers that are all different.
#![tactic(auto)]

ghost use Rattle.std.specs.Prelude.{◌≡◌, ◌≤◌, ◌∷◌, [], length, map, true, IfOk};
ghost use Rattle.std.specs.Arc.{arc_value};
ghost use Rattle.hv_value.specs.Cells.{cell_lent, is_of_kind};
ghost use Rattle.hv_value.specs.declared.cell.Kind.TheVariants as kind;

use hv_bucket::{Axis, Buckets, IntBuckets, TextBuckets};
use hv_column::Column;
use hv_expr::{How, TextTest};
use hv_find::Find;
use hv_grid::{ByAxis, HeatMap, Trellis};
use hv_heavy::{CountOf, CountShown, HeavySummary, MisraGries};
use hv_hist::Histogram;
use hv_member::Member;
use hv_next::{NextRows, NextSummary};
use hv_part::PartTable;
use hv_quant::{Sample, quantiles};
use hv_range::{Distinct, Range, RangeSummary};
use hv_sketch::{Counts, Vizketch};
use hv_value::{Cell, CellRef, Kind, Mem, Memory, Order, OrderKey, Schema, Table, Text};
use std::alloc::Global;
use std::env;
use std::io;
use std::sync::Arc;
use std::time::Instant;

const MOST_ROWS: u32 = 1_000_000;

/// The numbers above which the pages begin: few of the rows come before the first, and few after the last.
const NEAR_START: i64 = -999_000_000;
const MIDDLE: i64 = 0;
const NEAR_END: i64 = 996_000_000;

fn next(state: u64) -> u64 {
    state.wrapping_mul(6364136223846793005).wrapping_add(1442695040888963407)
}

fn cell_of(state: u64) -> CellRef<'static>
    ensures { is_of_kind kind.Int (cell_lent result) ≡ true }
{
    let word = state / 65536;
    if word % 16 == 0 {
        CellRef::Missing
    } else {
        CellRef::Int((word % 2_000_000_001) as i64 - 1_000_000_000)
    }
}

fn carrier_of(state: u64) -> CellRef<'static>
    ensures { is_of_kind kind.Text (cell_lent result) ≡ true }
{
    CellRef::Text(match state / 1_099_511_627_776 % 8 {
        0 => "AA",
        1 => "AS",
        2 => "B6",
        3 => "DL",
        4 => "F9",
        5 => "HA",
        6 => "UA",
        _ => "WN",
    })
}

/// One of 1,008 numbers: each of the first eight in one row of sixteen.
fn few_of(state: u64) -> CellRef<'static>
    ensures { is_of_kind kind.Int (cell_lent result) ≡ true }
{
    let word = state / 4_294_967_296;
    if word % 2 == 0 {
        CellRef::Int((word / 2 % 8) as i64)
    } else {
        CellRef::Int((word / 2 % 1000) as i64 + 8)
    }
}

/// A number that no other state has, but for its last bit.
fn different_of(state: u64) -> CellRef<'static>
    ensures { is_of_kind kind.Int (cell_lent result) ≡ true }
{
    CellRef::Int((state / 2) as i64)
}

fn is_kept(state: u64) -> bool {
    state / 4_294_967_296 % 2 == 0
}

/// The numbers, a cell for each state of the generator.
fn numbers(alloc: Global, rows: u32) -> Mem<Arc<Column>>
    requires { rows ≤ MOST_ROWS }
    ensures kind { IfOk result (λ column. (arc_value column).kind ≡ kind.Int) }
    ensures length { IfOk result (λ column. length (arc_value column).cells ≡ rows) }
{
    let mut column = Column::new(alloc, Kind::Int)?;
    let mut state = 1;
    for row in 0..rows {
        let _ = row;
        state = next(state);
        column.push(cell_of(state))?;
    }
    Ok(Arc::new(alloc, column)?)
}

/// The texts, a cell for each state of the generator.
fn carriers(alloc: Global, rows: u32) -> Mem<Arc<Column>>
    requires { rows ≤ MOST_ROWS }
    ensures kind { IfOk result (λ column. (arc_value column).kind ≡ kind.Text) }
    ensures length { IfOk result (λ column. length (arc_value column).cells ≡ rows) }
{
    let mut column = Column::new(alloc, Kind::Text)?;
    let mut state = 1;
    for row in 0..rows {
        let _ = row;
        state = next(state);
        column.push(carrier_of(state))?;
    }
    Ok(Arc::new(alloc, column)?)
}

/// The few numbers, a cell for each state of the generator.
fn few(alloc: Global, rows: u32) -> Mem<Arc<Column>>
    requires { rows ≤ MOST_ROWS }
    ensures kind { IfOk result (λ column. (arc_value column).kind ≡ kind.Int) }
    ensures length { IfOk result (λ column. length (arc_value column).cells ≡ rows) }
{
    let mut column = Column::new(alloc, Kind::Int)?;
    let mut state = 1;
    for row in 0..rows {
        let _ = row;
        state = next(state);
        column.push(few_of(state))?;
    }
    Ok(Arc::new(alloc, column)?)
}

/// The different numbers, a cell for each state of the generator.
fn different(alloc: Global, rows: u32) -> Mem<Arc<Column>>
    requires { rows ≤ MOST_ROWS }
    ensures kind { IfOk result (λ column. (arc_value column).kind ≡ kind.Int) }
    ensures length { IfOk result (λ column. length (arc_value column).cells ≡ rows) }
{
    let mut column = Column::new(alloc, Kind::Int)?;
    let mut state = 1;
    for row in 0..rows {
        let _ = row;
        state = next(state);
        column.push(different_of(state))?;
    }
    Ok(Arc::new(alloc, column)?)
}

/// About half the rows.
fn half(alloc: Global, rows: u32) -> Mem<Member>
    ensures { IfOk result (λ made. made.size ≡ rows) }
{
    let mut found = Vec::new(alloc);
    let mut state = 1;
    for row in 0..rows {
        state = next(state);
        if is_kept(state) {
            found.push(row)?;
        }
    }
    Member::from_rows(rows, found)
}

fn schema_of(alloc: Global) -> Mem<Schema>
    ensures { IfOk result (λ schema. map (λ column. column.1) schema ≡ kind.Int ∷ kind.Text ∷ []) }
{
    let mut columns = Vec::new(alloc);
    columns.push((Text::of(alloc, "x")?, Kind::Int))?;
    columns.push((Text::of(alloc, "t")?, Kind::Text))?;
    Schema::new(columns).map_err(|_| Memory)
}

fn table_of(alloc: Global, rows: u32, member: Member) -> Mem<PartTable>
    requires few { rows ≤ MOST_ROWS }
    requires size { member.size ≡ rows }
{
    let mut columns = Vec::new(alloc);
    columns.push(numbers(alloc, rows)?)?;
    columns.push(carriers(alloc, rows)?)?;
    Ok(PartTable::new(schema_of(alloc)?, 0, columns, member))
}

fn counted_schema(alloc: Global) -> Mem<Schema>
    ensures { IfOk result (λ schema. map (λ column. column.1) schema ≡ kind.Int ∷ kind.Text ∷ kind.Int ∷ []) }
{
    let mut columns = Vec::new(alloc);
    columns.push((Text::of(alloc, "few")?, Kind::Int))?;
    columns.push((Text::of(alloc, "t")?, Kind::Text))?;
    columns.push((Text::of(alloc, "different")?, Kind::Int))?;
    Schema::new(columns).map_err(|_| Memory)
}

fn counted_table(alloc: Global, rows: u32, member: Member) -> Mem<PartTable>
    requires few { rows ≤ MOST_ROWS }
    requires size { member.size ≡ rows }
{
    let mut columns = Vec::new(alloc);
    columns.push(few(alloc, rows)?)?;
    columns.push(carriers(alloc, rows)?)?;
    columns.push(different(alloc, rows)?)?;
    Ok(PartTable::new(counted_schema(alloc)?, 0, columns, member))
}

/// So many buckets of the numbers; one number in ten is outside.
fn by_number(n: u32) -> Mem<Axis> {
    let buckets = IntBuckets::new(-900_000_000, 900_000_000, n).map_err(|_| Memory)?;
    Ok(Axis {
        col: 0,
        buckets: Buckets::Int(buckets),
    })
}

/// The texts by four left boundaries; the first of the texts is below them.
fn by_carrier(alloc: Global) -> Mem<Axis> {
    let mut bounds = Vec::new(alloc);
    for bound in ["AS", "DL", "UA", "WN"].as_slice() {
        bounds.push(Text::of(alloc, bound)?)?;
    }
    let buckets = TextBuckets::new(bounds).map_err(|_| Memory)?;
    Ok(Axis {
        col: 1,
        buckets: Buckets::Text(buckets),
    })
}

/// The nanoseconds of the best of fifteen passes, and the summary.
fn measured<V: Vizketch, T: Table>(
    rt: &HostRuntime,
    view: &V,
    table: &T,
) -> Mem<(u128, V::Summary)> {
    if !view.fits(table.schema()) {
        return Err(Memory);
    }
    let mut summary = view.zero(rt.alloc())?;
    let mut best = u128::MAX;
    for _ in 0..15 {
        let Ok(start) = Instant::now(rt) else { return Err(Memory) };
        summary = view.summarize(rt.alloc(), table)?;
        let Ok(took) = start.elapsed(rt) else { return Err(Memory) };
        best = best.min(took.as_nanos());
    }
    Ok((best, summary))
}

fn number_of(cell: &Cell) -> i64 {
    match cell.lent() {
        CellRef::Int(n) => n,
        _ => 0,
    }
}

fn show_range(rt: &HostRuntime, name: &str, best: u128, range: &RangeSummary) -> io::Result<()> {
    let low = number_of(&range.least);
    let high = number_of(&range.greatest);
    println!(rt; "{name} {best} {} {} {low} {high} {}", range.count, range.missing, range.sum)
}

fn show_views<T: Table>(rt: &HostRuntime, rows: &str, table: &T) -> io::Result<()> {
    let Ok((best, range)) = measured(rt, &Range::new(0, Kind::Int), table) else {
        return println!(rt; "no memory");
    };
    show_range(rt, rows, best, &range)?;
    let Ok((best, distinct)) = measured(rt, &Distinct::new(0, 500), table) else {
        return println!(rt; "no memory");
    };
    let count = distinct.values.as_slice().len();
    println!(rt; "{rows} {best} {count} {}", u8::from(distinct.more))?;
    show_chart(rt, rows, histogram(rt, table))?;
    show_chart(rt, rows, heat_map(rt, table))?;
    show_chart(rt, rows, trellis(rt, table))?;
    show_page(rt, rows, first_keys(rt.alloc()), table)?;
    show_found(rt, rows, with_an_a(rt.alloc()), table)?;
    show_page(rt, rows, keys_above(rt.alloc(), NEAR_START), table)?;
    show_page(rt, rows, keys_above(rt.alloc(), MIDDLE), table)?;
    show_page(rt, rows, keys_above(rt.alloc(), NEAR_END), table)?;
    show_quantiles(rt, rows, numbers_sampled(rt.alloc()), table)
}

/// Counts in their order as one number, after others.
fn digest(before: u64, counts: &Counts) -> u64 {
    let mut digest = before;
    for count in counts.as_slice() {
        digest = digest.wrapping_mul(31).wrapping_add(*count);
    }
    digest
}

/// The nanoseconds of a histogram of 100 buckets, and the digest of its counts.
fn histogram<T: Table>(rt: &HostRuntime, table: &T) -> Mem<(u128, u64)> {
    let view = Histogram::new(by_number(100)?);
    let (best, counts) = measured(rt, &view, table)?;
    Ok((best, digest(0, &counts)))
}

/// The same of a heat map, of 20 buckets of numbers by the texts.
fn heat_map<T: Table>(rt: &HostRuntime, table: &T) -> Mem<(u128, u64)> {
    let view = HeatMap::new(by_number(20)?, by_carrier(rt.alloc())?);
    let (best, counts) = measured(rt, &view, table)?;
    Ok((best, digest(0, &counts)))
}

/// The same of a trellis, of a histogram for each of eight buckets.
fn trellis<T: Table>(rt: &HostRuntime, table: &T) -> Mem<(u128, u64)> {
    let view = Trellis::new(ByAxis(by_number(8)?), Histogram::new(by_number(100)?));
    let (best, summary) = measured(rt, &view, table)?;
    let mut found = 0;
    for counts in summary.groups() {
        found = digest(found, counts);
    }
    Ok((best, found.wrapping_mul(31).wrapping_add(summary.rest())))
}

fn show_chart(rt: &HostRuntime, rows: &str, chart: Mem<(u128, u64)>) -> io::Result<()> {
    match chart {
        Ok((best, digest)) => println!(rt; "{rows} {best} {digest}"),
        Err(_) => println!(rt; "no memory"),
    }
}

/// The numbers, up or down.
fn by_numbers(alloc: Global, down: bool) -> Mem<Order> {
    Ok(Order::new(vec![in alloc; OrderKey { col: 0, down }]?))
}

/// The first 20 keys by the texts and then the numbers.
fn first_keys(alloc: Global) -> Mem<NextRows> {
    let text = OrderKey {
        col: 1,
        down: false,
    };
    let number = OrderKey {
        col: 0,
        down: false,
    };
    let order = Order::new(vec![in alloc; text, number]?);
    Ok(NextRows::new(order, None, 20))
}

/// The 500 keys above a number.
fn keys_above(alloc: Global, number: i64) -> Mem<NextRows> {
    let order = by_numbers(alloc, false)?;
    let after = vec![in alloc; Cell::Int(number)]?;
    Ok(NextRows::new(order, Some(after), 500))
}

/// The rows whose text has an A, the greatest number first.
fn with_an_a(alloc: Global) -> Mem<Find> {
    let order = by_numbers(alloc, true)?;
    let col: u32 = 1;
    let cols = vec![in alloc; col]?;
    let text = Text::of(alloc, "A")?;
    let test = TextTest {
        how: How::Contains,
        fold: false,
        text,
    };
    Ok(Find::new(cols, test, order, None))
}

/// A sample of 10,000 rows, for 100 quantiles of the numbers.
fn numbers_sampled(alloc: Global) -> Mem<Sample> {
    let order = by_numbers(alloc, false)?;
    Ok(Sample::new(order, 5, 10_000, 100))
}

/// The number that ends a key, 0 where it is missing.
fn last_number(key: &[Cell]) -> i64 {
    let mut number = 0;
    for cell in key {
        number = number_of(cell);
    }
    number
}

/// Of next rows: the rows before, the keys, the rows that have them, and the numbers that end the first key and the last.
fn page_of(summary: &NextSummary) -> (u64, u64, u64, i64, i64) {
    let mut keys: u64 = 0;
    let mut rows: u64 = 0;
    let mut first = 0;
    let mut last = 0;
    for row in summary.rows.as_slice() {
        last = last_number(row.key.as_slice());
        if keys == 0 {
            first = last;
        }
        keys = keys.wrapping_add(1);
        rows = rows.wrapping_add(row.count);
    }
    (summary.before, keys, rows, first, last)
}

/// The nanoseconds of next rows, and what they are.
fn page<T: Table>(
    rt: &HostRuntime,
    view: &NextRows,
    table: &T,
) -> Mem<(u128, (u64, u64, u64, i64, i64))> {
    let (best, summary) = measured(rt, view, table)?;
    Ok((best, page_of(&summary)))
}

fn show_page<T: Table>(
    rt: &HostRuntime,
    rows: &str,
    view: Mem<NextRows>,
    table: &T,
) -> io::Result<()> {
    let Ok(view) = view else {
        return println!(rt; "no memory");
    };
    let shown = page(rt, &view, table);
    drop(view);
    match shown {
        Ok((best, (before, keys, counted, first, last))) => {
            println!(rt; "{rows} {best} {before} {keys} {counted} {first} {last}")
        }
        Err(_) => println!(rt; "no memory"),
    }
}

/// The nanoseconds of a search, the rows that were found, those before, and the number that ends the first key.
fn found<T: Table>(rt: &HostRuntime, view: &Find, table: &T) -> Mem<(u128, (u64, u64, i64))> {
    let (best, summary) = measured(rt, view, table)?;
    let first = match &summary.first {
        Some(key) => last_number(key.as_slice()),
        None => 0,
    };
    Ok((best, (summary.above, summary.before, first)))
}

fn show_found<T: Table>(
    rt: &HostRuntime,
    rows: &str,
    view: Mem<Find>,
    table: &T,
) -> io::Result<()> {
    let Ok(view) = view else {
        return println!(rt; "no memory");
    };
    let shown = found(rt, &view, table);
    drop(view);
    match shown {
        Ok((best, (above, before, first))) => {
            println!(rt; "{rows} {best} {above} {before} {first}")
        }
        Err(_) => println!(rt; "no memory"),
    }
}

/// The numbers of keys in their order as one.
fn digest_of_keys(keys: &[Vec<Cell>]) -> u64 {
    let mut found: u64 = 0;
    for key in keys {
        found = found.wrapping_mul(31).wrapping_add(last_number(key.as_slice()).cast_unsigned());
    }
    found
}

/// The nanoseconds of a sample, how many rows it has, and the digest of its quantiles.
fn sampled<T: Table>(rt: &HostRuntime, view: &Sample, table: &T) -> Mem<(u128, (usize, u64))> {
    let (best, summary) = measured(rt, view, table)?;
    let keys = quantiles(rt.alloc(), view, &summary)?;
    Ok((best, (summary.rows.as_slice().len(), digest_of_keys(keys.as_slice()))))
}

fn show_quantiles<T: Table>(
    rt: &HostRuntime,
    rows: &str,
    view: Mem<Sample>,
    table: &T,
) -> io::Result<()> {
    let Ok(view) = view else {
        return println!(rt; "no memory");
    };
    let shown = sampled(rt, &view, table);
    drop(view);
    match shown {
        Ok((best, (sample, digest))) => println!(rt; "{rows} {best} {sample} {digest}"),
        Err(_) => println!(rt; "no memory"),
    }
}

/// Of heavy hitters: the pairs, a digest of their estimates, and the first value and the last, 0 for a text.
fn hitters_of(summary: &HeavySummary) -> (u64, u64, i64, i64) {
    let mut pairs: u64 = 0;
    let mut found: u64 = 0;
    let mut first = 0;
    let mut last = 0;
    for pair in summary.pairs.as_slice() {
        last = number_of(&pair.value);
        if pairs == 0 {
            first = last;
        }
        pairs = pairs.wrapping_add(1);
        found = found.wrapping_mul(31).wrapping_add(pair.estimate);
    }
    (pairs, found, first, last)
}

fn show_hitters<T: Table>(
    rt: &HostRuntime,
    rows: &str,
    col: u32,
    k: u32,
    table: &T,
) -> io::Result<()> {
    let Ok((best, summary)) = measured(rt, &MisraGries::new(col, k), table) else {
        return println!(rt; "no memory");
    };
    let (pairs, found, first, last) = hitters_of(&summary);
    println!(rt; "{rows} {best} {} {} {pairs} {found} {first} {last}", summary.missing, summary.n)
}

/// The values of heavy hitters.
fn values_of(alloc: Global, summary: &HeavySummary) -> Mem<Vec<Cell>> {
    let mut values = Vec::new(alloc);
    for pair in summary.pairs.as_slice() {
        values.push(Cell::of(alloc, pair.value.lent())?)?;
    }
    Ok(values)
}

/// Of counts the cells that there are, and those that are more than one in 21 of them: how many, and a digest.
fn frequent_of(value: &CountShown) -> (u64, u64, u64) {
    let mut many: u64 = 0;
    let mut found: u64 = 0;
    for count in value.counts.as_slice() {
        let count = *count;
        if count.wrapping_mul(21) > value.n {
            many = many.wrapping_add(1);
            found = found.wrapping_mul(31).wrapping_add(count);
        }
    }
    (value.n, many, found)
}

/// The nanoseconds of the counts of values, and what is frequent of them.
fn counted<T: Table>(rt: &HostRuntime, view: &CountOf, table: &T) -> Mem<(u128, (u64, u64, u64))> {
    let (best, counts) = measured(rt, view, table)?;
    let value = view.value(rt.alloc(), &counts)?;
    Ok((best, frequent_of(&value)))
}

/// The nanoseconds of heavy hitters, and the view of the counts of their values.
fn candidates<T: Table>(rt: &HostRuntime, col: u32, table: &T) -> Mem<(u128, CountOf)> {
    let (best, summary) = measured(rt, &MisraGries::new(col, 20), table)?;
    let values = values_of(rt.alloc(), &summary)?;
    Ok((best, CountOf::new(col, values)))
}

fn show_frequent<T: Table>(rt: &HostRuntime, rows: &str, col: u32, table: &T) -> io::Result<()> {
    let Ok((first, view)) = candidates(rt, col, table) else {
        return println!(rt; "no memory");
    };
    let shown = counted(rt, &view, table);
    drop(view);
    match shown {
        Ok((second, (n, many, found))) => {
            println!(rt; "{rows} {first} {second} {n} {many} {found}")
        }
        Err(_) => println!(rt; "no memory"),
    }
}

fn show_counted<T: Table>(rt: &HostRuntime, rows: &str, table: &T) -> io::Result<()> {
    show_hitters(rt, rows, 0, 20, table)?;
    show_hitters(rt, rows, 1, 20, table)?;
    show_frequent(rt, rows, 0, table)?;
    show_frequent(rt, rows, 1, table)?;
    show_hitters(rt, rows, 2, 20, table)?;
    show_hitters(rt, rows, 2, 1000, table)
}

fn whole_table(alloc: Global, rows: u32) -> Mem<PartTable>
    requires { rows ≤ MOST_ROWS }
{
    table_of(alloc, rows, Member::full(rows))
}

fn half_table(alloc: Global, rows: u32) -> Mem<PartTable>
    requires { rows ≤ MOST_ROWS }
{
    let member = half(alloc, rows)?;
    table_of(alloc, rows, member)
}

fn whole_counted(alloc: Global, rows: u32) -> Mem<PartTable>
    requires { rows ≤ MOST_ROWS }
{
    counted_table(alloc, rows, Member::full(rows))
}

fn main(rt: HostRuntime) -> io::Result<()> {
    let mut rows: u32 = 0;
    for word in env::args(&rt)? {
        if let Ok(number) = word.parse::<u32>() {
            rows = number;
        }
    }
    let rows = rows.min(MOST_ROWS);
    let Ok(whole) = whole_table(rt.alloc(), rows) else {
        return println!(rt; "no memory");
    };
    show_views(&rt, "all", &whole)?;
    let Ok(half) = half_table(rt.alloc(), rows) else {
        return println!(rt; "no memory");
    };
    show_views(&rt, "half", &half)?;
    let Ok(counted) = whole_counted(rt.alloc(), rows) else {
        return println!(rt; "no memory");
    };
    show_counted(&rt, "all", &counted)
}
RT
    cat > crates/views/proofs/numbers/Invariants.antt <<'ANTT'
use Rattle.std.proofs.Common.{◌≡◌, length}
use Rattle.hv_value.specs.declared.cell.Kind.TheVariants as kind
use Rattle.views.proofs.numbers.Given as goal

abbrev pub invariant-loop-row : goal.invariant-loop-row
invariant-loop-row l = (l.column.kind ≡ kind.Int) × (length l.column.cells ≡ l.row)
ANTT
    sed -e 's/kind.Int/kind.Text/' -e 's/views.proofs.numbers/views.proofs.carriers/' crates/views/proofs/numbers/Invariants.antt > crates/views/proofs/carriers/Invariants.antt
    for column in few different; do
        sed "s/views.proofs.numbers/views.proofs.$column/" crates/views/proofs/numbers/Invariants.antt > "crates/views/proofs/$column/Invariants.antt"
    done
    cat > crates/views/proofs/half/Invariants.antt <<'ANTT'
use Rattle.hv_member.specs.Sets.{IsSetBelow}
use Rattle.views.proofs.half.Given as goal

abbrev pub invariant-loop-row : goal.invariant-loop-row
invariant-loop-row l = IsSetBelow l.row l.found.items
ANTT
    cat > crates/views/proofs/half/Answers.antt <<'ANTT'
use Rattle.std.proofs.Common.{arith}
use Rattle.hv_member.proofs.RisingLemmas.{IsSetBelow-more, IsSetBelow-push}
use Rattle.views.proofs.half.Goals as goal
use Rattle.views.proofs.half.Goals.{then-is_kept+in_ok-push, else-is_kept}

pub loop-row-preserved : goal.loop-row-preserved
loop-row-preserved c =
    elim c.if-is_kept.branch [
      | then-is_kept+in_ok-push w ↦ rw (w.found-is, w.in_ok-push.ensures.items) (IsSetBelow-push _ _ c.loop-row.invariant)
      | else-is_kept w ↦ rw w.found-is (IsSetBelow-more _ _ _ (omega arith) c.loop-row.invariant)
    ]
ANTT
    cd crates/views && rt fmt > /dev/null && rt run -- 1000 < /dev/null > "$work/build.log" 2>&1
    [ -x out/views ] || { tail -n 20 "$work/build.log"; return 1; }
}

rustc -O -o "$work/plain" bench/plain_range.rs || exit 1

here=$PWD
(make_program "$here") || exit 1

cat > "$work/measure.py" <<'PY'
import collections, heapq, subprocess, sys
views, plain = sys.argv[1:]
ROWS, RUNS = 1_000_000, 5
LO, HI = -900_000_000, 900_000_000
CHARTS = ["histogram", "heat map", "trellis"]
# the numbers above which the pages begin
PAGES = {"page near the start": -999_000_000, "page in the middle": 0, "page near the end": 996_000_000}
QUANTILES = "quantiles k 10,000"
VIEWS = ["range", "distinct", *CHARTS, "next rows", "find", *PAGES, QUANTILES]
# of the second table, of all its rows: the column and k of each, and its target
HEAVY = {("heavy", "few", 20): 5, ("heavy", "texts", 20): 10, ("frequent", "few", 20): 10, ("frequent", "texts", 20): 20}
HEAVY |= {("heavy", "different", 20): None, ("heavy", "different", 1000): 40}
TARGETS = {("range", "all"): 1.5, ("histogram", "all"): 2.5, ("heat map", "all"): 8, ("trellis", "all"): 7, ("range", "half"): 3}
TARGETS |= {("next rows", "all"): 6, ("find", "all"): 10, (QUANTILES, "all"): 6}
TARGETS |= {(view, "all"): target for view, target in HEAVY.items()}
TEXTS = ["AA", "AS", "B6", "DL", "F9", "HA", "UA", "WN"]
MOST_TIMES = 4 / 3
MOST_MB = 64

def words():
    """The word of each row of the first partition with seed 5: those of PCG's XSH RR 64/32, on stream 0."""
    multiplier, increment = 6364136223846793005, 1
    state = ((5 + increment) * multiplier + increment) % 2**64
    for _ in range(ROWS):
        mixed, turn = ((state >> 18 ^ state) >> 27) % 2**32, state >> 59
        yield (mixed >> turn | mixed << 32 - turn) % 2**32
        state = (state * multiplier + increment) % 2**64

def rows():
    """The number of each row or None, the place of its text among eight, and whether it is kept."""
    state = 1
    for _ in range(ROWS):
        state = (state * 6364136223846793005 + 1442695040888963407) % 2**64
        word = state >> 16
        yield (word % 2_000_000_001 - 10**9 if word % 16 else None), (state >> 40) % 8, (state >> 32) % 2 == 0

def bucket(x, n):
    """The bucket of a number, n where it is outside, n + 1 where it is missing."""
    return n + 1 if x is None else (x - LO) * n // (HI - LO + 1) if LO <= x <= HI else n

def charts(some):
    """The counts of the histogram, the heat map and the trellis."""
    histogram, heat, groups, rest = [0] * 102, [0] * 81, [[0] * 102 for _ in range(8)], 0
    for x, text, _ in some:
        place, column = bucket(x, 100), (None, 0, 0, 1, 1, 1, 2, 3)[text]
        histogram[place] += 1
        heat[80 if place >= 100 or column is None else bucket(x, 20) * 4 + column] += 1
        if place < 100:
            groups[bucket(x, 8)][place] += 1
        else:
            rest += 1
    return histogram, heat, sum(groups, []) + [rest]

def page(keys, count, above=None):
    """What is shown of the first keys, each with its number of rows, of tuples that end with a number or None."""
    def rank(key):
        return [*key[:-1], key[-1] is not None, key[-1] or 0]
    rows = collections.Counter(keys)
    some = [key for key in rows if above is None or key[-1] is not None and key[-1] > above]
    first = heapq.nsmallest(count, some, rank)
    shown = [len(keys) - sum(rows[key] for key in some), len(first), sum(rows[key] for key in first), first[0][-1] or 0, first[-1][-1] or 0]
    return list(map(str, shown))

def quantiles(some):
    """What is shown of 100 quantiles of the numbers of 10,000 rows, of numbers or None each after its word and its row's number."""
    sample = sorted((x is not None, x or 0) for _, _, x in heapq.nsmallest(10_000, some))
    places = [j * (len(sample) - 1) // 99 for j in range(100)]
    return [str(len(sample)), str(digest(sample[place][1] for place in places))]

def keyed(some):
    """What is shown of the next rows, of the search, and of each page."""
    yield page([(text, x) for x, text, _ in some], 20)
    found = [x for x, text, _ in some if "A" in TEXTS[text]]
    yield [str(len(found)), "0", str(max(x for x in found if x is not None))]
    for above in PAGES.values():
        yield page([(x,) for x, _, _ in some], 500, above)

def columns():
    """The columns of the second table: few numbers, texts by their places among eight, numbers that are all different."""
    state, few, texts, different = 1, [], [], []
    for _ in range(ROWS):
        state = (state * 6364136223846793005 + 1442695040888963407) % 2**64
        word = state >> 32
        few.append(word // 2 % 1000 + 8 if word % 2 else word // 2 % 8)
        texts.append((state >> 40) % 8)
        different.append(state >> 1)
    if len(set(different)) != ROWS:
        sys.exit("views.sh: the different numbers aren't")
    return {"few": few, "texts": texts, "different": different}

def cut(pairs, k):
    """At most k pairs: each loses the largest estimate that isn't kept."""
    less = sorted(pairs.values(), reverse=True)[k] if len(pairs) > k else 0
    return collections.Counter({value: estimate - less for value, estimate in pairs.items() if estimate > less})

def hitters(values, k):
    """The heavy hitters as hv_heavy finds them: counts that are cut where there are more than 4,096 + k, and at the end."""
    done, counts = collections.Counter(), collections.Counter()
    for value in values:
        counts[value] += 1
        if len(counts) > 4096 + k:
            done, counts = cut(done + counts, k), collections.Counter()
    return cut(done + counts, k)

def are_lawful(values, k, pairs):
    """Whether no estimate is too high, and what is lost of each count is within the bounds."""
    left = len(values) - sum(pairs.values())
    return len(pairs) <= k and all(0 <= count - pairs[value] and (k + 1) * (count - pairs[value]) <= left for value, count in collections.Counter(values).items())

def heavy_shown(kind, column, values, k):
    """What is shown of heavy hitters, or of what is frequent."""
    if kind == "frequent":
        counts = collections.Counter(values)
        frequent = [counts[value] for value in sorted(counts) if counts[value] * (k + 1) > ROWS]
        return list(map(str, [ROWS, len(frequent), digest(frequent)]))
    pairs = hitters(values, k)
    if not are_lawful(values, k, pairs):
        sys.exit("views.sh: the heavy hitters of plain Python aren't")
    rising = sorted(pairs)
    ends = [rising[0], rising[-1]] if rising and column != "texts" else [0, 0]
    return list(map(str, [0, ROWS, len(rising), digest(pairs[value] for value in rising), *ends]))

def digest(counts):
    found = 0
    for count in counts:
        found = (found * 31 + count) % 2**64
    return found

def said(view):
    """A view's name; of heavy hitters and of what is frequent with the column and k."""
    return view if isinstance(view, str) else f"{view[0]} ({view[1]}, k {view[2]})"

def lines_of(program):
    output = subprocess.run([program, str(ROWS)], stdout=subprocess.PIPE, check=True, text=True).stdout
    return [line.split() for line in output.splitlines()]

def kilobytes(process, key):
    """A number of kilobytes that the system tells of a process."""
    with open(f"/proc/{process.pid}/status") as told:
        return next(int(line.split()[1]) for line in told if line.startswith(key + ":"))

def grown():
    """How many megabytes the program takes at most for the heavy hitters of different numbers, above what it has when all tables are made."""
    with subprocess.Popen([views, str(ROWS)], stdout=subprocess.PIPE, text=True) as process:
        before = most = 0
        for place, _ in enumerate(process.stdout):
            if place == len(ORDER) - 3:
                before = kilobytes(process, "VmRSS")
            elif place == len(ORDER) - 1:
                most = kilobytes(process, "VmHWM")
    return (most - before) / 1024

all_rows = list(rows())
kept_rows = [row for row in all_rows if row[2]]
counts = {"all": len(all_rows), "half": len(kept_rows)}
wanted = {}
for name, some in (("all", all_rows), ("half", kept_rows)):
    found = [[str(digest(counted))] for counted in charts(some)]
    sample = quantiles((word, row, x) for row, (word, (x, _, kept)) in enumerate(zip(words(), all_rows, strict=True)) if kept or name == "all")
    wanted |= {(view, name): value for view, value in zip(VIEWS[2:], [*found, *keyed(some), sample], strict=True)}
columns_of = columns()
wanted |= {(view, "all"): heavy_shown(view[0], view[1], columns_of[view[1]], view[2]) for view in HEAVY}
del columns_of
ORDER = [(view, name) for name in counts for view in VIEWS] + [(view, "all") for view in HEAVY]
best = {}
def note(name, took):
    best[name] = min(took, best.get(name, took))

for _ in range(RUNS):
    loops = {name: (took, ranged) for name, took, *ranged in lines_of(plain)}
    shown = lines_of(views)
    if [line[0] for line in shown] != [name for _, name in ORDER]:
        sys.exit("views.sh: the views gave no values")
    for (view, _), (name, took, *value) in zip(ORDER, shown, strict=True):
        loop, ranged = loops[name]
        took = int(took)
        if view[0] == "frequent":
            took += int(value.pop(0))
        if value != {"range": ranged, "distinct": ["500", "1"]}.get(view, wanted.get((view, name))):
            sys.exit(f"views.sh: {said(view)} of {name} rows: wrong")
        note((view, name), took)
        note(("loop", name), int(loop))

loop = best["loop", "all"] / ROWS
print(f"one plain loop: {loop:.2f} nanoseconds a row; over a list of half the rows {best['loop', 'half'] / counts['half']:.2f} a kept row")
failed = False
for view, name in ORDER:
    each = best[view, name] / counts[name]
    times = each / loop
    line = f"{said(view)} of {name} rows: {each:.2f} nanoseconds a row, {times:.2f} plain loops"
    target = TARGETS.get((view, name))
    if target is not None:
        line += f"; target of {target}: " + ("met" if times <= target else "MISSED")
        failed |= times > 1.5 * target
    print(line)
pages = [best[view, "all"] for view in PAGES]
times = max(pages) / min(pages)
print(f"the dearest of the three pages of all rows costs {times:.2f} times the cheapest; target of {MOST_TIMES:.2f}: " + ("met" if times <= MOST_TIMES else "MISSED"))
failed |= times > 1.5 * MOST_TIMES
megabytes = grown()
print(f"heavy hitters of 1,000,000 different numbers take {megabytes:.1f} MB above the tables; target of {MOST_MB}: " + ("met" if megabytes <= MOST_MB else "MISSED"))
failed |= megabytes > 1.5 * MOST_MB
sys.exit(1 if failed else 0)
PY
python3 "$work/measure.py" "$work/repo/crates/views/out/views" "$work/plain"
