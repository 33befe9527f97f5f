//! Times the call for C hosts beside the same rules in ordinary Rust, on the same sheets, in one run. Both must list the
//! same bytes.

mod plain;

use std::time::{Duration, Instant};

unsafe extern "C" {
    fn torwhisk_pair(sheet: *const u8, sheet_len: usize, out: *mut u8, out_len: usize) -> i64;
}

fn proved(sheet: &[u8], out: &mut [u8]) -> i64 {
    unsafe { torwhisk_pair(sheet.as_ptr(), sheet.len(), out.as_mut_ptr(), out.len()) }
}

/// Numbers that look random, the same in every run.
struct Draw(u64);

impl Draw {
    fn below(&mut self, bound: u64) -> u64 {
        self.0 ^= self.0 << 13;
        self.0 ^= self.0 >> 7;
        self.0 ^= self.0 << 17;
        self.0 % bound
    }
}

fn push_number(file: &mut Vec<u8>, mut n: u64) {
    while n >= 128 {
        file.push((n % 128) as u8 | 0x80);
        n /= 128;
    }
    file.push(n as u8);
}

#[derive(Clone, Copy)]
enum Kind {
    /// More jobs than carriers, with worths far apart.
    Easy,
    /// Half as many jobs as carriers, with worths close together.
    Contested,
}

/// A sheet file with so many entries in each row.
fn sheet_file(draw: &mut Draw, carriers: usize, jobs: usize, each: usize, kind: Kind) -> Vec<u8> {
    let ceiling = match kind {
        Kind::Easy => 100_000,
        Kind::Contested => 200,
    };
    let mut file = Vec::new();
    for n in [carriers, jobs, ceiling] {
        push_number(&mut file, n as u64);
    }
    for _ in 0..carriers {
        let mut row: Vec<usize> = (0..jobs).collect();
        while row.len() > each {
            row.swap_remove(draw.below(row.len() as u64) as usize);
        }
        row.sort_unstable();
        push_number(&mut file, row.len() as u64);
        for job in row {
            push_number(&mut file, job as u64);
            let worth = match kind {
                Kind::Easy => 1 + draw.below(ceiling as u64),
                Kind::Contested => 190 + draw.below(11),
            };
            push_number(&mut file, worth);
        }
    }
    push_number(&mut file, (carriers * each) as u64);
    file
}

/// Whether both list the same bytes, or refuse with the same number.
fn same(file: &[u8], out: &mut [u8]) -> bool {
    let told = proved(file, out);
    match plain::pair(file) {
        Ok(text) => told == text.len() as i64 && out[..text.len()] == *text.as_bytes(),
        Err(refusal) => told == -refusal,
    }
}

/// Small files, each as it is, with a byte changed, and cut: how many were compared, and how many of them differ.
fn compared(draw: &mut Draw, out: &mut [u8]) -> (u32, u32) {
    let (mut count, mut differ) = (0, 0);
    for _ in 0..10_000 {
        let carriers = 1 + draw.below(6) as usize;
        let jobs = 1 + draw.below(6) as usize;
        let each = draw.below(jobs as u64 + 1) as usize;
        let kind = if draw.below(2) == 0 { Kind::Easy } else { Kind::Contested };
        let mut file = sheet_file(draw, carriers, jobs, each, kind);
        count += 3;
        differ += u32::from(!same(&file, out));
        let at = draw.below(file.len() as u64) as usize;
        file[at] = draw.below(256) as u8;
        differ += u32::from(!same(&file, out));
        differ += u32::from(!same(&file[..at], out));
    }
    (count, differ)
}

/// How many calls take about 10 ms.
fn batch(call: &mut impl FnMut()) -> u32 {
    let start = Instant::now();
    call();
    let once = start.elapsed().max(Duration::from_nanos(100));
    (Duration::from_millis(10).as_nanos() / once.as_nanos()).clamp(1, 100_000) as u32
}

/// The mean time of so many calls.
fn mean(times: u32, call: &mut impl FnMut()) -> Duration {
    let start = Instant::now();
    for _ in 0..times {
        call();
    }
    start.elapsed() / times
}

/// The least time of each of two calls, in 20 rounds of at least 10 ms each. They take turns, so that what else the
/// machine does falls on both.
fn least(mut one: impl FnMut(), mut other: impl FnMut()) -> (Duration, Duration) {
    let (ones, others) = (batch(&mut one), batch(&mut other));
    (0..20)
        .map(|_| (mean(ones, &mut one), mean(others, &mut other)))
        .reduce(|least, now| (least.0.min(now.0), least.1.min(now.1)))
        .unwrap_or_default()
}

/// A sheet of the table.
struct Sample {
    carriers: usize,
    jobs: usize,
    entries: usize,
    kind: &'static str,
    file: Vec<u8>,
}

/// The sheets of the table, in its order.
fn samples() -> Vec<Sample> {
    let mut draw = Draw(20261118);
    let mut all = Vec::new();
    for (carriers, each) in [(8, 4), (8, 8), (16, 4), (16, 8), (32, 8), (32, 16), (64, 8), (64, 32), (128, 8), (128, 32)] {
        for kind in [Kind::Easy, Kind::Contested] {
            let (name, jobs) = match kind {
                Kind::Easy => ("easy", (2 * carriers).clamp(each, 256)),
                Kind::Contested => ("contested", (carriers / 2).max(each)),
            };
            let file = sheet_file(&mut draw, carriers, jobs, each, kind);
            all.push(Sample { carriers, jobs, entries: carriers * each, kind: name, file });
        }
    }
    all
}

/// Compares small files, and says whether both agree on all of them.
fn compare(out: &mut [u8]) -> bool {
    let (count, differ) = compared(&mut Draw(20261118), out);
    println!("{count} small files, whole, changed and cut: {differ} differ");
    differ == 0
}

/// Writes the sheets of the table into a folder, each as a file whose name tells its place in the table.
fn write_sheets(folder: &str) -> bool {
    samples().iter().enumerate().all(|(i, sample)| {
        let name = format!("{folder}/{i:02}-{}-{}x{}-{}.sheet", sample.kind, sample.carriers, sample.jobs, sample.entries);
        std::fs::write(name, &sample.file).is_ok()
    })
}

/// One call on the sheet in a file, so that its instructions can be counted.
fn call_once(path: &str, call: fn(&[u8], &mut [u8]) -> i64, out: &mut [u8]) -> bool {
    std::fs::read(path).is_ok_and(|file| std::hint::black_box(call(&file, out)) > 0)
}

/// Prints the listing of the sheet in a file.
fn list(path: &str, out: &mut [u8]) -> bool {
    let told = std::fs::read(path).map_or(-1, |file| proved(&file, out));
    usize::try_from(told).is_ok_and(|len| {
        print!("{}", String::from_utf8_lossy(&out[..len]));
        true
    })
}

/// The row of a sheet, and whether both calls list the same bytes of it.
fn row(sample: &Sample, out: &mut [u8]) -> bool {
    let text = plain::pair(&sample.file);
    let same = same(&sample.file, out);
    let text = text.unwrap_or_default();
    let words: Vec<&str> = text.lines().last().unwrap_or("").split(' ').collect();
    let (mine, theirs) = least(
        || {
            std::hint::black_box(proved(std::hint::black_box(&sample.file), out));
        },
        || {
            let _ = std::hint::black_box(plain::pair(std::hint::black_box(&sample.file)));
        },
    );
    let us = |d: Duration| d.as_nanos() as f64 / 1000.0;
    println!(
        "{:<9} {:<9} {:>7} {:>6} {:>5} {:>9.1} {:>9.1} {:>5.2}",
        format!("{} x {}", sample.carriers, sample.jobs),
        sample.kind,
        sample.entries,
        words.get(3).unwrap_or(&"-"),
        words.get(5).unwrap_or(&"-"),
        us(mine),
        us(theirs),
        us(mine) / us(theirs),
    );
    same && !text.is_empty() && !text.contains('?')
}

/// The table: a line for each sheet.
fn table(out: &mut [u8]) -> bool {
    println!("{:<9} {:<9} {:>7} {:>6} {:>5} {:>9} {:>9} {:>5}", "carriers", "kind", "entries", "awards", "stale", "proved us", "plain us", "ratio");
    samples().iter().fold(true, |all, sample| row(sample, out) && all)
}

fn main() {
    let mut out = vec![0; 8320];
    let args: Vec<String> = std::env::args().skip(1).collect();
    let words: Vec<&str> = args.iter().map(String::as_str).collect();
    let done = match words[..] {
        ["compare"] => compare(&mut out),
        ["table"] => table(&mut out),
        ["sheets", folder] => write_sheets(folder),
        ["list", path] => list(path, &mut out),
        ["proved", path] => call_once(path, proved, &mut out),
        ["plain", path] => call_once(path, |file, _| plain::pair(file).map_or(-1, |text| text.len() as i64), &mut out),
        _ => {
            eprintln!("bench compare, bench table, bench sheets FOLDER, bench list FILE, bench proved FILE, bench plain FILE");
            false
        }
    };
    if !done {
        eprintln!("bench {}: failed", words.join(" "));
        std::process::exit(1);
    }
}
