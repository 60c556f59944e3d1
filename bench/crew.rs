//! Dealing and gathering quanta: the proved crew over its desk of channels beside plain Rust threads over std channels, in one
//! run, and from which length of a quantum on workers pay. Built and run by `bench/crew`, which names the proved program
//! `pfx_bench_crew`. Only std is used.

use std::process::Command;
use std::sync::mpsc::{Receiver, SyncSender, sync_channel};
use std::sync::{Arc, Mutex};
use std::thread;
use std::time::Instant;

/// How many runs of each are taken, in turn.
const RUNS: usize = 15;

#[derive(Clone, Copy, PartialEq, Eq)]
struct Job {
    left: u32,
    rule: u8,
    width: u16,
    cells: [u64; 8],
}

struct Quantum {
    number: u64,
    slot: u64,
    task: u16,
    before: Job,
}

struct Done {
    number: u64,
    slot: u64,
    task: u16,
    before: Job,
    after: Job,
}

fn step(job: &mut Job) {
    let (row, mut next) = (job.cells[0], 0);
    for place in 0..job.width {
        let around = (row >> place | row << (job.width - place)) & 7;
        next |= u64::from(job.rule >> around & 1) << place;
    }
    job.cells[0] = next;
    job.left -= 1;
}

fn run(quantum: Quantum) -> Done {
    let Quantum { number, slot, task, before } = quantum;
    let mut after = before;
    step(&mut after);
    Done { number, slot, task, before, after }
}

fn work(quanta: &Mutex<Receiver<Quantum>>, results: &SyncSender<Done>) {
    loop {
        let next = quanta.lock().unwrap().recv();
        let Ok(quantum) = next else { return };
        if results.send(run(quantum)).is_err() {
            return;
        }
    }
}

fn gather(quanta: &[Quantum], places: &mut [Option<Done>], done: Done) {
    let at = quanta
        .iter()
        .position(|q| (q.number, q.slot, q.task) == (done.number, done.slot, done.task) && q.before == done.before)
        .expect("a result of this slot");
    assert!(places[at].is_none());
    places[at] = Some(done);
}

/// The sum over rounds of so many quanta, which so many workers run.
fn crew(rounds: u64, count: u64, workers: usize) -> u64 {
    let (deal, next) = sync_channel::<Quantum>(64);
    let (back, collect) = sync_channel::<Done>(64);
    let next = Arc::new(Mutex::new(next));
    let threads: Vec<_> = (0..workers)
        .map(|_| {
            let (next, back) = (next.clone(), back.clone());
            thread::spawn(move || work(&next, &back))
        })
        .collect();
    let job = Job { left: 1_000_000, rule: 110, width: 8, cells: [1, 0, 0, 0, 0, 0, 0, 0] };
    let (mut quanta, mut places, mut sum) = (Vec::with_capacity(64), Vec::with_capacity(64), 0u64);
    for round in 0..rounds {
        quanta.clear();
        places.clear();
        for task in 0..count as u16 {
            quanta.push(Quantum { number: round, slot: round, task, before: job });
            places.push(None);
        }
        for task in 0..count as u16 {
            deal.send(Quantum { number: round, slot: round, task, before: job }).unwrap();
        }
        for _ in 0..count {
            gather(&quanta, &mut places, collect.recv().unwrap());
        }
        let mut of_round = 0u64;
        for done in places.iter().flatten() {
            of_round = of_round.wrapping_mul(31).wrapping_add(u64::from(done.task) + u64::from(done.after.left));
        }
        sum = sum.wrapping_mul(3).wrapping_add(of_round);
    }
    drop(deal);
    threads.into_iter().for_each(|t| t.join().unwrap());
    sum
}

/// The sum and the seconds of the proved program.
fn proved(program: &str, words: &[u64], mode: &str) -> (u64, f64) {
    let ran = Command::new(program).arg(mode).args(words.iter().map(u64::to_string)).output().expect("the proved program runs");
    assert!(ran.status.success(), "{}", String::from_utf8_lossy(&ran.stderr));
    let number = |text: &[u8]| String::from_utf8_lossy(text).trim().parse::<u64>().expect("a number");
    (number(&ran.stdout), number(&ran.stderr) as f64 / 1e9)
}

fn least(times: &[f64]) -> f64 {
    times.iter().copied().fold(f64::MAX, f64::min)
}

fn median(mut times: Vec<f64>) -> f64 {
    times.sort_by(f64::total_cmp);
    times[times.len() / 2]
}

/// Both programs' least and median microseconds a round, over runs that are taken in turn and give the same.
fn both(program: &str, count: u64, workers: u64) -> [f64; 4] {
    let rounds = 4000;
    let (mut plain, mut other) = (Vec::new(), Vec::new());
    for _ in 0..RUNS {
        let start = Instant::now();
        let sum = std::hint::black_box(crew(rounds, count, workers as usize));
        plain.push(start.elapsed().as_secs_f64() * 1e6 / rounds as f64);
        let (same, seconds) = proved(program, &[rounds, count, workers, 0], "crew");
        assert_eq!(sum, same, "both programs make the same");
        other.push(seconds * 1e6 / rounds as f64);
    }
    [least(&plain), least(&other), median(plain), median(other)]
}

/// The proved program's least and median microseconds a round alone, and with a worker for each quantum, whose quanta take so many
/// turns.
fn paying(program: &str, count: u64, turns: u64, micros: u64) -> [f64; 4] {
    let rounds = (20_000 / (micros * count).max(10)).max(50);
    let (mut alone, mut crew) = (Vec::new(), Vec::new());
    for _ in 0..RUNS {
        let (one, seconds) = proved(program, &[rounds, count, turns], "alone");
        alone.push(seconds * 1e6 / rounds as f64);
        let (other, seconds) = proved(program, &[rounds, count, count, turns], "crew");
        assert_eq!(one, other, "alone and with workers it makes the same");
        crew.push(seconds * 1e6 / rounds as f64);
    }
    [least(&alone), least(&crew), median(alone), median(crew)]
}

fn main() {
    let program = std::env::args().nth(1).expect("the path of pfx_bench_crew");
    println!("{:<26} {:>10} {:>10} {:>7} {:>12} {:>12} {:>7}", "us a round, 2 workers", "Rust", "pfx", "ratio", "Rust median", "pfx median", "ratio");
    for count in [1, 2, 4, 16] {
        let [a, b, c, d] = both(&program, count, 2);
        println!("{:<26} {a:>10.1} {b:>10.1} {:>7.2} {c:>12.1} {d:>12.1} {:>7.2}", format!("{count} quanta"), b / a, d / c);
    }
    let long = 10_000_000;
    let turn = (0..5).map(|_| proved(&program, &[1, 1, long], "alone").1 * 1e6 / long as f64).fold(f64::MAX, f64::min);
    println!();
    println!("{:<26} {:>10} {:>10} {:>7} {:>12} {:>12} {:>7}", "us a round, by us a quantum", "one thread", "a crew", "gain", "median", "median", "gain");
    for count in [2, 4] {
        for micros in [1, 5, 10, 20, 50, 100, 200] {
            let [a, b, c, d] = paying(&program, count, (micros as f64 / turn) as u64, micros);
            println!("{:<26} {a:>10.1} {b:>10.1} {:>7.2} {c:>12.1} {d:>12.1} {:>7.2}", format!("{count}, {count} workers, {micros:>3} us"), a / b, c / d);
        }
    }
}
