#!/usr/bin/env bash
# How fast a partition's bytes become columns, and how much memory that takes.
#
# Makes partitions of 60 MB with 12 columns (8 of whole numbers, 2 of dates, 2 of texts; and 9 of whole numbers
# and 3 of dates), has a small program over hv_csv's `read_part` read all 12 columns of each, checks what it
# found, and prints MB per second beside `wc -l`, beside plain Python (csv, int) and, where Debian's
# librust-csv-dev is there, beside a Rust program over the same bytes. Targets: at least 100 MB per second, and
# for whole numbers and dates a peak of at most 3 times the bytes. Judged by processor time, the best of three.
#
# The program is made, proved and built in a temporary folder, over copies of the crates.
set -u
cd "$(dirname "$0")/.." || exit 1
command -v rt > /dev/null || { echo "csv.sh: skipped, rt isn't here"; exit 0; }
work=$(mktemp -d) || exit 1
trap 'rm -rf "$work"' EXIT

make_program() {
    mkdir -p "$work/repo/crates" && cd "$work/repo" && git init -q . || return 1
    sed -n '/^hv_value:/p; /^hv_outer:/p; /^hv_column:/p; /^hv_csv:/p' "$1/crates.txt" > crates.txt
    for crate in hv_value hv_outer hv_column hv_csv; do
        mkdir "crates/$crate" && cp -r "$1/crates/$crate/src" "$1/crates/$crate/specs" "$1/crates/$crate/proofs" "crates/$crate/"
    done
    echo 'parts: hv_value hv_outer hv_column hv_csv csv jiff_core jiff_fmt' >> crates.txt
    mkdir -p crates/parts/src crates/parts/specs crates/parts/proofs
    : > crates/parts/specs/Lib.antt
    : > crates/parts/proofs/Lib.antt
    cat > crates/parts/src/main.rt <<'RT'
//! Reads a partition from standard input, and prints its number of rows and the sum of its first column.
#![tactic(auto)]

use hv_column::Column;
use hv_csv::read_part;
use hv_outer::{ReadSource, read_all};
use hv_value::{CellRef, Kind, Mem, Memory, Schema, Text};
use std::alloc::Global;
use std::{env, io};

fn schema_of(alloc: Global, kinds: &str) -> Mem<Schema> {
    let mut cols = Vec::new(alloc);
    let mut names = "abcdefghijkl".chars();
    for letter in kinds.chars() {
        let Some(name) = names.next() else {
            break;
        };
        let kind = match letter {
            'i' => Kind::Int,
            'd' => Kind::Date,
            _ => Kind::Text,
        };
        cols.push((Text::of(alloc, format!(in alloc; "{name}")?.as_str())?, kind))?;
    }
    Schema::new(cols).map_err(|_| Memory)
}

fn sum_of(column: &Column) -> i64 {
    let mut sum = 0i64;
    for row in 0..column.len() {
        if let CellRef::Int(n) = column.cell(row) {
            sum = sum.wrapping_add(n);
        }
    }
    sum
}

fn main(rt: HostRuntime) -> io::Result<()> {
    let alloc = rt.alloc();
    let mut kinds = String::new(alloc);
    for word in env::args(&rt)? {
        kinds = word;
    }
    let Ok(bytes) = read_all(alloc, &mut ReadSource::new(rt.stdin()), (1 << 26) - 1) else {
        return println!(rt; "no bytes");
    };
    let Ok(schema) = schema_of(alloc, kinds.as_str()) else {
        return println!(rt; "no schema");
    };
    let Ok(cols) = read_part(alloc, bytes.as_slice(), &schema) else {
        return println!(rt; "no memory");
    };
    let Some(first) = cols.first() else {
        return println!(rt; "no column");
    };
    let rows = first.len();
    let sum = sum_of(first);
    println!(rt; "{rows} {sum}")
}
RT
    cd crates/parts && rt fmt > /dev/null && rt run -- iii < /dev/null > "$work/build.log" 2>&1
    [ -x out/parts ] || { tail -n 20 "$work/build.log"; return 1; }
}

here=$PWD
(make_program "$here") || exit 1
program=$work/repo/crates/parts/out/parts

cat > "$work/measure.py" <<'PY'
import csv, datetime, io, os, random, resource, shutil, subprocess, sys
work, program, rust = sys.argv[1:4]
SIZE = 60_000_000
random.seed(7)

def make(kinds, path):
    rows, size, total = [], 0, 0
    texts = ["", "AA", "DL", "a, b", "Los Angeles", "x" * 20]
    block = []
    for _ in range(20_000):
        cells = []
        for kind in kinds:
            if kind == "i":
                cells.append("" if cells and random.random() < 0.02 else str(random.randint(-10**6, 10**7)))
            elif kind == "d":
                cells.append((datetime.date(1990, 1, 1) + datetime.timedelta(random.randint(0, 14000))).isoformat())
            else:
                cells.append(random.choice(texts))
        block.append(cells)
    out = io.StringIO()
    csv.writer(out, lineterminator="\n").writerows(block)
    text = out.getvalue().encode()
    times = SIZE // len(text)
    with open(path, "wb") as f:
        f.write((",".join("abcdefghijkl") + "\n").encode())
        for _ in range(times):
            f.write(text)
    return times * len(block), times * sum(int(c[0]) for c in block)

def best(words, path, rounds=3):
    least, peak, out = None, 0, b""
    for _ in range(rounds):
        with open(path, "rb") as f:
            child = subprocess.Popen(words, stdin=f, stdout=subprocess.PIPE)
            out = child.stdout.read()
            _, _, used = os.wait4(child.pid, 0)
        spent = used.ru_utime + used.ru_stime
        least = spent if least is None else min(least, spent)
        peak = max(peak, used.ru_maxrss * 1024)
    return least, peak, out

PLAIN = """
import csv, datetime, io, sys
rows = csv.reader(io.TextIOWrapper(sys.stdin.buffer, newline=''))
next(rows)
kinds = sys.argv[1]
cols = [[] for _ in kinds]
for row in rows:
    for col, kind, field in zip(cols, kinds, row):
        if kind == 'i':
            try: col.append(int(field))
            except ValueError: col.append(None)
        elif kind == 'd':
            try: col.append(datetime.date.fromisoformat(field))
            except ValueError: col.append(None)
        else: col.append(field)
print(len(cols[0]), sum(cols[0]))
"""
missed = 0
for name, kinds in [("numbers, dates, texts", "iiiiiiiiddtt"), ("numbers and dates", "iiiiiiiiiddd")]:
    path = os.path.join(work, "part.csv")
    rows, total = make(kinds, path)
    size = os.path.getsize(path)
    want = f"{rows} {total}\n".encode()
    spent, peak, out = best([program, kinds], path)
    if out != want:
        sys.exit(f"csv.sh: wrong answer for {name}: {out!r}, wanted {want!r}")
    counted, _, _ = best(["wc", "-l"], path)
    plain, _, plain_out = best([sys.executable, "-c", PLAIN, kinds], path, 1)
    if plain_out != want:
        sys.exit(f"csv.sh: Python found {plain_out!r}, wanted {want!r}")
    speed, memory = size / 1e6 / spent, peak / size
    beside = ""
    if rust:
        rusty, _, rust_out = best([rust, kinds], path)
        if rust_out != want:
            sys.exit(f"csv.sh: the Rust program found {rust_out!r}, wanted {want!r}")
        beside = f" Rust's csv {rusty:.2f} s;"
    print(f"{name}: {size / 1e6:.0f} MB, {rows} rows: {spent:.2f} s, {speed:.0f} MB per second, peak {memory:.2f} times the bytes;"
          f" wc -l {counted:.2f} s;{beside} Python {plain:.2f} s, {plain / spent:.1f} times as long")
    fast = speed >= 100
    print("  target of 100 MB per second:", "met" if fast else "MISSED")
    missed += not fast
    if "t" not in kinds:
        small = memory <= 3
        print("  target of a peak of 3 times the bytes:", "met" if small else "MISSED")
        missed += not small
sys.exit(1 if missed else 0)
PY
# The same with Rust's own csv crate, from Debian's librust-csv-dev.
make_rust() {
    mkdir -p "$work/rust/src" "$work/rust/.cargo" && cd "$work/rust" || return 1
    printf '[source.crates-io]\nreplace-with = "debian"\n[source.debian]\ndirectory = "/usr/share/cargo/registry"\n' > .cargo/config.toml
    printf '[package]\nname = "parts"\nversion = "0.1.0"\nedition = "2021"\n[dependencies]\ncsv = "1"\n' > Cargo.toml
    cat > src/main.rs <<'RS'
use std::io::Read;

fn day(f: &[u8]) -> Option<i32> {
    if f.len() != 10 || f[4] != b'-' || f[7] != b'-' {
        return None;
    }
    let n = |s: &[u8]| std::str::from_utf8(s).ok()?.parse::<i32>().ok();
    let (y, m, d) = (n(&f[..4])?, n(&f[5..7])?, n(&f[8..])?);
    let y = if m <= 2 { y - 1 } else { y };
    let era = y.div_euclid(400);
    let yoe = y.rem_euclid(400);
    let doy = (153 * ((m + 9) % 12) + 2) / 5 + d - 1;
    Some(era * 146097 + yoe * 365 + yoe / 4 - yoe / 100 + doy - 719468)
}

enum Col { Ints(Vec<Option<i64>>), Days(Vec<Option<i32>>), Texts(Vec<Option<String>>) }

fn main() {
    let kinds = std::env::args().nth(1).unwrap();
    let mut bytes = Vec::new();
    std::io::stdin().read_to_end(&mut bytes).unwrap();
    let mut cols: Vec<Col> = kinds.chars().map(|k| match k {
        'i' => Col::Ints(Vec::new()),
        'd' => Col::Days(Vec::new()),
        _ => Col::Texts(Vec::new()),
    }).collect();
    let mut reader = csv::ReaderBuilder::new().flexible(true).from_reader(bytes.as_slice());
    let mut row = csv::ByteRecord::new();
    while reader.read_byte_record(&mut row).unwrap() {
        for (j, col) in cols.iter_mut().enumerate() {
            let text = row.get(j).and_then(|f| std::str::from_utf8(f).ok());
            match col {
                Col::Ints(c) => c.push(text.and_then(|t| t.parse().ok())),
                Col::Days(c) => c.push(row.get(j).and_then(day)),
                Col::Texts(c) => c.push(text.map(String::from)),
            }
        }
    }
    if let Col::Ints(first) = &cols[0] {
        println!("{} {}", first.len(), first.iter().flatten().sum::<i64>());
    }
}
RS
    cargo build --release --offline > "$work/cargo.log" 2>&1
}

rust=
if ls -d /usr/share/cargo/registry/csv-1* > /dev/null 2>&1 && command -v cargo > /dev/null; then
    if (make_rust); then rust=$work/rust/target/release/parts; else echo "the Rust program can't be built here"; tail -n 3 "$work/cargo.log"; fi
else
    echo "librust-csv-dev isn't here, so no Rust program beside it"
fi
python3 "$work/measure.py" "$work" "$program" "$rust"
