//! The same rules in ordinary Rust, written from docs/SHEET-FILE.md, docs/HALL.md and docs/PAIR.md: it loads a sheet
//! file, holds the auction and lists it. Nothing is proved of it.

use std::collections::VecDeque;
use std::fmt::Write;

const MOST_BYTES: usize = 32768;
const MOST_ENTRIES: usize = 4096;
const STEP: u64 = 1;
const LANES: usize = 8;
const DEPTH: usize = 8;
const BUDGET: u64 = 1_000_000;

pub struct Sheet {
    pub jobs: usize,
    pub ceiling: u64,
    pub rows: Vec<Vec<(usize, u64)>>,
}

struct Reader<'a> {
    bytes: &'a [u8],
    at: usize,
}

impl Reader<'_> {
    fn number(&mut self) -> Result<u64, i64> {
        let mut n = 0;
        for group in 0..6 {
            let byte = *self.bytes.get(self.at).ok_or(1)?;
            self.at += 1;
            n |= u64::from(byte & 0x7f) << (7 * group);
            if byte < 0x80 {
                return if byte == 0 && group > 0 { Err(3) } else { Ok(n) };
            }
        }
        Err(2)
    }

    fn within(&mut self, low: u64, high: u64) -> Result<u64, i64> {
        let n = self.number()?;
        if low <= n && n <= high { Ok(n) } else { Err(4) }
    }
}

pub fn load(bytes: &[u8]) -> Result<Sheet, i64> {
    if bytes.len() > MOST_BYTES {
        return Err(12);
    }
    let mut reader = Reader { bytes, at: 0 };
    let carriers = reader.within(1, 128)?;
    let jobs = reader.within(1, 256)?;
    let ceiling = reader.within(0, 1 << 36)?;
    let mut rows = Vec::new();
    let mut total = 0;
    for _ in 0..carriers {
        let count = reader.number()?;
        let mut row = Vec::new();
        let mut low = 0;
        for _ in 0..count {
            let job = reader.number()?;
            if job < low || job >= jobs {
                return Err(5);
            }
            low = job + 1;
            let worth = reader.number()?;
            if worth < 1 || worth > ceiling {
                return Err(6);
            }
            row.push((job as usize, worth));
        }
        total += row.len();
        if total > MOST_ENTRIES {
            return Err(12);
        }
        rows.push(row);
    }
    if reader.number()? != total as u64 {
        return Err(9);
    }
    if reader.at < bytes.len() {
        return Err(10);
    }
    Ok(Sheet { jobs: jobs as usize, ceiling, rows })
}

#[derive(Clone, Copy)]
struct Best {
    net: i64,
    job: usize,
    worth: u64,
}

#[derive(Clone, Copy, Default)]
struct Bid {
    looked: usize,
    best: Option<Best>,
    runner_up: u64,
}

#[derive(Clone, Copy)]
enum Standing {
    Waiting,
    Bidding(Bid),
    Served(usize),
    Out,
}

struct Hall {
    rows: Vec<Vec<(usize, u64)>>,
    prices: Vec<u64>,
    holders: Vec<Option<usize>>,
    standings: Vec<Standing>,
    awards: u64,
    stales: u64,
}

impl Hall {
    fn look(&mut self, carrier: usize) {
        let Standing::Bidding(bid) = &mut self.standings[carrier] else { return };
        let row = &self.rows[carrier];
        let end = row.len().min(bid.looked + LANES);
        for &(job, worth) in &row[bid.looked..end] {
            let new = Best { net: worth as i64 - self.prices[job] as i64, job, worth };
            match bid.best {
                Some(old) if !(new.net > old.net || (new.net == old.net && new.job < old.job)) => {
                    bid.runner_up = bid.runner_up.max(new.net.max(0) as u64);
                }
                old => {
                    bid.runner_up = bid.runner_up.max(old.map_or(0, |b| b.net.max(0) as u64));
                    bid.best = Some(new);
                }
            }
        }
        bid.looked = end;
    }

    /// Ends a bid, and gives the carrier that waits after it.
    fn settle(&mut self, carrier: usize) -> Option<usize> {
        let Standing::Bidding(bid) = self.standings[carrier] else { return None };
        let Some(best) = bid.best.filter(|b| b.net > 0) else {
            self.standings[carrier] = Standing::Out;
            return None;
        };
        let offer = best.worth - bid.runner_up + STEP;
        if offer <= self.prices[best.job] {
            self.stales += 1;
            self.standings[carrier] = Standing::Waiting;
            return Some(carrier);
        }
        self.awards += 1;
        let displaced = self.holders[best.job].replace(carrier);
        if let Some(former) = displaced {
            self.standings[former] = Standing::Waiting;
        }
        self.prices[best.job] = offer;
        self.standings[carrier] = Standing::Served(best.job);
        displaced
    }

    fn run(&mut self) {
        let mut line: VecDeque<usize> = (0..self.rows.len()).collect();
        let mut flight: VecDeque<(usize, usize)> = VecDeque::new();
        for _ in 0..BUDGET {
            if flight.len() < DEPTH {
                if let Some(carrier) = line.pop_front() {
                    self.standings[carrier] = Standing::Bidding(Bid::default());
                    flight.push_back((carrier, self.rows[carrier].len().div_ceil(LANES)));
                    continue;
                }
            }
            let Some((carrier, looks)) = flight.pop_front() else { return };
            if looks > 0 {
                self.look(carrier);
                flight.push_back((carrier, looks - 1));
            } else if let Some(waits) = self.settle(carrier) {
                line.push_back(waits);
            }
        }
    }
}

/// The listing of a sheet file, or the number of the refusal.
pub fn pair(bytes: &[u8]) -> Result<String, i64> {
    let sheet = load(bytes)?;
    let factor = sheet.rows.len() as u64 + 1;
    if factor * sheet.ceiling > 1 << 36 {
        return Err(4);
    }
    let rows: Vec<Vec<(usize, u64)>> =
        sheet.rows.iter().map(|row| row.iter().map(|&(job, worth)| (job, worth * factor)).collect()).collect();
    let mut hall = Hall {
        prices: vec![0; sheet.jobs],
        holders: vec![None; sheet.jobs],
        standings: vec![Standing::Waiting; rows.len()],
        rows,
        awards: 0,
        stales: 0,
    };
    hall.run();
    let mut text = String::new();
    let mut total = 0;
    for (carrier, standing) in hall.standings.iter().enumerate() {
        let _ = match *standing {
            Standing::Served(job) => {
                let worth = sheet.rows[carrier].iter().find(|e| e.0 == job).map_or(0, |e| e.1);
                total += worth;
                writeln!(text, "{carrier} {job} {worth}")
            }
            Standing::Out => writeln!(text, "{carrier} -"),
            Standing::Waiting | Standing::Bidding(_) => writeln!(text, "{carrier} ?"),
        };
    }
    let _ = writeln!(text, "worth {total} awards {} stale {}", hall.awards, hall.stales);
    Ok(text)
}
