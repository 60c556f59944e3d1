// Reads a store whole and decodes it as docs/FORMAT.md says, in plain Rust, and prints the board that `pfx status` prints: what an
// opening costs at the least. It shares no code with the program. A file that the page refuses ends it.
use std::env::args;
use std::fs::read;

const OPEN: u8 = 0xC3;

fn number(bytes: &[u8], at: usize, count: usize) -> u64 {
    bytes[at..at + count].iter().rev().fold(0, |sum, byte| sum << 8 | u64::from(*byte))
}

fn is_zero(bytes: &[u8]) -> bool {
    bytes.iter().all(|byte| *byte == 0)
}

// The steps that a job has left, by its 128 bytes.
fn job_left(job: &[u8]) -> Option<u32> {
    let left = number(job, 1, 4) as u32;
    let is_right = match job[0] {
        1 => u64::from(left) + number(job, 5, 8) < 1 << 63 && is_zero(&job[13..]),
        2 => {
            let (width, cells) = (number(job, 6, 2) as usize, &job[8..72]);
            (3..=512).contains(&width)
                && (width % 8 == 0 || cells[width / 8] & (0xff >> (width % 8)) == 0)
                && is_zero(&cells[width.div_ceil(8)..])
                && is_zero(&job[72..])
        }
        3 => {
            let (long, short, found) = (usize::from(job[5]), usize::from(job[6]), u32::from(job[7]));
            let letters = |bytes: &[u8]| bytes.iter().all(|byte| (32..=126).contains(byte));
            (1..=16).contains(&short)
                && (short..=64).contains(&long)
                && found + left <= (long - short + 1) as u32
                && letters(&job[8..8 + long])
                && is_zero(&job[8 + long..72])
                && letters(&job[72..72 + short])
                && !job[72..72 + short].contains(&b':')
                && is_zero(&job[72 + short..])
        }
        _ => false,
    };
    is_right.then_some(left)
}

// The set in force and since which slot it is, the state, and the length of a segment.
struct Store {
    workers: usize,
    real: usize,
    segment: usize,
    weights: Vec<(i64, i64)>,
    last: u64,
    slot: u64,
    from: u64,
    got: Vec<u64>,
    jobs: Vec<Option<[u8; 128]>>,
}

fn gcd(a: u64, b: u64) -> u64 {
    if b == 0 { a } else { gcd(b, a % b) }
}

// So many weights that stand here.
fn weights_at(data: &[u8], at: usize, count: usize) -> Vec<(i64, i64)> {
    let weight = |task: usize| (number(data, at + 8 * task, 4) as i64, number(data, at + 4 + 8 * task, 4) as i64);
    (0..count).map(weight).collect()
}

// The weights with those of the idle tasks, if they are a set of so many workers.
fn filled(workers: usize, mut weights: Vec<(i64, i64)>) -> Option<Vec<(i64, i64)>> {
    if !(1..=64).contains(&workers) || weights.is_empty() || weights.iter().any(|(e, p)| *e < 1 || e >= p) {
        return None;
    }
    let mut hyper = 1;
    for (_, p) in &weights {
        hyper = hyper / gcd(hyper, *p as u64) * *p as u64;
        if hyper > 1 << 20 {
            return None;
        }
    }
    let hyper = hyper as i64;
    let mut rest = workers as i64 * hyper - weights.iter().map(|(e, p)| hyper / p * e).sum::<i64>();
    while rest > 0 {
        weights.push((rest.min(hyper - 1), hyper));
        rest -= rest.min(hyper - 1);
    }
    (rest == 0).then_some(weights)
}

impl Store {
    fn header(data: &[u8]) -> Option<Store> {
        if data.get(..10)? != b"\xc3PFXSTORE\x02" {
            return None;
        }
        let (workers, real, segment) = (usize::from(data[10]), number(data, 11, 2) as usize, number(data, 13, 4) as usize);
        let weights = filled(workers, weights_at(data, 17, real))?;
        let got = vec![0; weights.len()];
        Some(Store { workers, real, segment, weights, last: 0, slot: 0, from: 0, got, jobs: vec![None; real] })
    }

    fn area_len(&self) -> usize {
        26 + 145 * self.real + 1024
    }

    // Puts a set in force from the slot to come on, if it is one and its longest frames have room.
    fn renew(&mut self, workers: usize, weights: Vec<(i64, i64)>) -> Option<()> {
        self.weights = filled(workers, weights)?;
        (self.workers, self.from, self.got) = (workers, self.slot, vec![0; self.weights.len()]);
        (41 + 2096 * workers <= self.segment).then_some(())
    }

    fn lag(&self, task: usize) -> i64 {
        self.weights[task].0 * (self.slot as i64 - self.from as i64) - self.weights[task].1 * self.got[task] as i64
    }

    fn fits(&self) -> bool {
        let fair = (0..self.weights.len()).all(|task| self.lag(task).abs() < self.weights[task].1);
        let counted = self.from <= self.slot && self.got.iter().sum::<u64>() == self.workers as u64 * (self.slot - self.from);
        fair && counted && self.last < 1 << 48 && self.slot < 1 << 40
    }

    fn is_busy(&self, task: usize) -> bool {
        self.jobs.get(task).is_some_and(|job| job.is_some_and(|bytes| number(&bytes, 1, 4) > 0))
    }

    fn checkpoint(&mut self, data: &[u8], at: usize) -> Option<()> {
        self.renew(usize::from(data[at + 25]), weights_at(data, at + 26, self.real))?;
        (self.last, self.slot, self.from) = (number(data, at + 1, 8), number(data, at + 9, 8), number(data, at + 17, 8));
        let mut place = at + 26 + 8 * self.real;
        for task in 0..self.weights.len() {
            self.got[task] = number(data, place, 8);
            place += 8;
            if task < self.real {
                self.jobs[task] = match data[place] {
                    0 => is_zero(&data[place + 1..place + 129]).then_some(None)?,
                    1 => job_left(&data[place + 1..place + 129]).and(Some(data[place + 1..place + 129].try_into().ok()?)),
                    _ => return None,
                };
                place += 129;
            }
        }
        (is_zero(&data[place..at + self.area_len()]) && self.fits()).then_some(())
    }

    // The frames behind the number `last` in a segment, and their last number.
    fn heads(&self, data: &[u8], segment: usize, mut last: u64) -> Option<(Vec<(usize, usize)>, u64)> {
        let (mut gate, end, mut frames) = (segment + 9, segment + self.segment, Vec::new());
        while data[gate] == OPEN {
            let len = 15 + number(data, gate + 1, 4) as usize;
            let count = number(data, gate + 13, 2);
            if gate + len >= end || !(1..=16).contains(&count) || number(data, gate + 5, 8) != last + 1 {
                return None;
            }
            frames.push((gate, gate + len));
            gate += len;
            last += count;
        }
        Some((frames, last))
    }

    fn take(&mut self, frame: &[u8]) -> Option<()> {
        let mut at = 15;
        for _ in 0..number(frame, 13, 2) {
            let tag = *frame.get(at)?;
            at = match tag {
                1 => self.take_submit(frame, at + 1)?,
                2 => self.take_slot(frame, at + 1)?,
                3 => self.take_withdraw(frame, at + 1)?,
                4 => self.take_reweigh(frame, at + 1)?,
                _ => return None,
            };
            self.last += 1;
            if !self.fits() {
                return None;
            }
        }
        (at == frame.len()).then_some(())
    }

    fn take_submit(&mut self, frame: &[u8], at: usize) -> Option<usize> {
        let (task, job) = (number(frame.get(at..at + 2)?, 0, 2) as usize, frame.get(at + 2..at + 130)?);
        if self.is_busy(task) || task >= self.real {
            return None;
        }
        self.jobs[task] = job_left(job).and(job.try_into().ok());
        self.jobs[task].map(|_| at + 130)
    }

    fn take_withdraw(&mut self, frame: &[u8], at: usize) -> Option<usize> {
        let task = number(frame.get(at..at + 2)?, 0, 2) as usize;
        self.jobs.get_mut(task)?.take().map(|_| at + 2)
    }

    fn take_reweigh(&mut self, frame: &[u8], at: usize) -> Option<usize> {
        let (end, level) = (at + 1 + 8 * self.real, (0..self.weights.len()).all(|task| self.lag(task) == 0));
        if number(frame, 13, 2) != 1 || frame.len() < end || !level || 27 + 8 * self.real > self.segment {
            return None;
        }
        self.renew(usize::from(frame[at]), weights_at(frame, at + 1, self.real)).map(|_| end)
    }

    fn take_slot(&mut self, frame: &[u8], mut at: usize) -> Option<usize> {
        let mut above = 0;
        for _ in 0..self.workers {
            let (task, flag) = (number(frame.get(at..at + 2)?, 0, 2) as usize, *frame.get(at + 2)?);
            at += 3;
            if task < above || task >= self.weights.len() || (flag == 1) != self.is_busy(task) || flag > 1 {
                return None;
            }
            if flag == 1 {
                let job = frame.get(at..at + 128)?;
                job_left(job)?;
                self.jobs[task] = job.try_into().ok();
                at += 128;
            }
            above = task + 1;
            self.got[task] += 1;
        }
        self.slot += 1;
        Some(at)
    }

    fn read(data: &[u8]) -> Option<Store> {
        let mut store = Store::header(data)?;
        let head = 17 + 8 * store.real;
        let areas = [head, head + store.area_len()];
        let segments = [head + 2 * store.area_len(), head + 2 * store.area_len() + store.segment];
        if data.len() != segments[1] + store.segment {
            return None;
        }
        let taken = areas.into_iter().filter(|at| data[*at] == OPEN).max_by_key(|at| number(data, at + 1, 8))?;
        store.checkpoint(data, taken)?;
        let begins = |at: usize, last: u64| data[at] == OPEN && number(data, at + 1, 8) == last + 1;
        let one = (0..2).find(|one| begins(segments[*one], store.last))?;
        let (mut frames, last) = store.heads(data, segments[one], store.last)?;
        let other = segments[1 - one];
        if begins(other, last) {
            frames.extend(store.heads(data, other, last)?.0);
        } else if data[other] == OPEN && number(data, other + 1, 8) > last {
            return None;
        }
        for (gate, end) in frames {
            store.take(&data[gate..end])?;
        }
        Some(store)
    }

    fn show(&self) {
        let from = if self.from == 0 { String::new() } else { format!(" from {}", self.from) };
        println!("board {} slot {}{from}", self.last, self.slot);
        for task in 0..self.weights.len() {
            let job = match self.jobs.get(task) {
                Some(Some(_)) if self.is_busy(task) => "open",
                Some(Some(_)) => "done",
                _ => "none",
            };
            println!("{task} alloc={} lag={}/{} job={job}", self.got[task], self.lag(task), self.weights[task].1);
        }
    }
}

fn main() {
    let file = args().nth(1).expect("a store's file");
    let data = read(&file).expect("the file is read");
    Store::read(&data).expect("the page refuses this file").show();
}
