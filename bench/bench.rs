//! The proved crates beside plain Rust programs of the same rules, in one run: slots a second of PF's choice (beside PD2 too, a scheduler
//! that gives other rows, with a heap, for its speed), nanoseconds for a task's class and for its step to the next slot, and steps a second of rule 110. Built and run by `bench/run`, which names
//! the proved program `pfx_bench_choice`, and, where it could be built, `embed`, the C program of `embed.c`. Only std is used.

use std::cmp::{Ordering, Reverse};
use std::collections::BinaryHeap;
use std::process::Command;
use std::time::Instant;

// PF's choice

struct Task {
    e: u32,
    p: u32,
    alloc: u64,
    lag: i32,
    phase: u32,
}

#[derive(Clone, Copy)]
struct Rank {
    phase: u32,
    e: u32,
    p: u32,
    id: u16,
}

fn steps(e: u32, x: u32) -> u32 {
    x.div_ceil(e)
}

/// The order of two strings of symbols, by the gaps between the symbols that aren't minus.
fn compare_gaps(mut a: (u32, u32, u32), mut b: (u32, u32, u32)) -> Ordering {
    let mut turned = false;
    let answer = loop {
        let ((mut e, p, mut r), (mut f, q, mut s)) = (a, b);
        if p < 2 * e && q < 2 * f && r > 0 && s > 0 {
            (e, r, f, s, turned) = (p - e, p - r, q - f, q - s, !turned);
        }
        let (i, j) = (steps(e, p - r), steps(f, q - s));
        if i != j {
            break j.cmp(&i);
        }
        let (v, w) = (r + e * i - p, s + f * j - q);
        if v == 0 || w == 0 {
            break (v != 0).cmp(&(w != 0));
        }
        let (x, y) = (steps(e, p), steps(f, q));
        if x != y {
            break y.cmp(&x);
        }
        (a, b) = ((e * x - p, e, v), (f * y - q, f, w));
    };
    if turned { answer.reverse() } else { answer }
}

fn next_phase(a: &Rank) -> u32 {
    let next = a.phase + a.e;
    if next < a.p { next } else { next - a.p }
}

fn compare(a: &Rank, b: &Rank) -> Ordering {
    let equal = (a.e, a.p, a.phase) == (b.e, b.p, b.phase);
    let front = if equal {
        Ordering::Equal
    } else {
        compare_gaps((a.e, a.p, next_phase(a)), (b.e, b.p, next_phase(b)))
    };
    front.then(b.id.cmp(&a.id))
}

fn plan(m: usize, weights: &[(u32, u32)], slots: u64) -> u64 {
    let mut tasks: Vec<Task> = filled(m, weights).iter().map(|w| Task { e: w.0, p: w.1, alloc: 0, lag: 0, phase: 0 }).collect();
    let (mut row, mut ranks, mut sum) = (Vec::new(), Vec::new(), 0u64);
    for _ in 0..slots {
        row.clear();
        ranks.clear();
        for (x, task) in tasks.iter().enumerate() {
            let symbol = (task.phase + task.e).cmp(&task.p);
            match (task.lag.signum(), symbol) {
                (1, Ordering::Equal | Ordering::Greater) => row.push(x as u16),
                (-1, Ordering::Equal | Ordering::Less) => {}
                _ => ranks.push(Rank { phase: task.phase, e: task.e, p: task.p, id: x as u16 }),
            }
        }
        let places = m - row.len();
        if places > 0 {
            let at = ranks.len() - places;
            ranks.select_nth_unstable_by(at, compare);
            row.extend(ranks[at..].iter().map(|r| r.id));
            row.sort_unstable();
        }
        let mut next = row.iter().copied().peekable();
        for (x, task) in tasks.iter_mut().enumerate() {
            task.lag += task.e as i32;
            if next.next_if_eq(&(x as u16)).is_some() {
                task.lag -= task.p as i32;
            }
            task.phase += task.e;
            if task.phase >= task.p {
                task.phase -= task.p;
            }
        }
        for x in &row {
            sum = sum.wrapping_mul(31).wrapping_add(u64::from(*x)).wrapping_add(1);
        }
    }
    sum
}

// PD2: fair too, by the ends of subtasks and two ties, so its rows are others than PF's. It keeps no ledger.

struct Pd2 {
    weights: Vec<(i64, i64)>,
    got: Vec<i64>,
    waiting: BinaryHeap<Reverse<(i64, i64, i64, u16)>>,
    /// The tasks whose next subtask begins in a slot, modulo the wheel's size.
    wheel: Vec<Vec<u16>>,
    slot: i64,
}

const WHEEL: usize = 1 << 11;

impl Pd2 {
    fn new(m: usize, weights: &[(u32, u32)]) -> Pd2 {
        let weights: Vec<(i64, i64)> = filled(m, weights).iter().map(|w| (i64::from(w.0), i64::from(w.1))).collect();
        let mut wheel = vec![Vec::new(); WHEEL];
        wheel[0] = (0..weights.len() as u16).collect();
        Pd2 { got: vec![0; weights.len()], weights, waiting: BinaryHeap::new(), wheel, slot: 0 }
    }

    /// The next subtask's end, whether it overlaps the one behind it, where the windows of a heavy task come apart, the number.
    fn key(&self, x: u16) -> (i64, i64, i64, u16) {
        let ((e, p), i) = (self.weights[usize::from(x)], self.got[usize::from(x)] + 1);
        let up = |a: i64, b: i64| (a + b - 1) / b;
        let end = up(i * p, e);
        let overlap = end - i * p / e;
        let apart = if 2 * e < p { 0 } else { up(up(end * (p - e), p) * p, p - e) };
        (end, 1 - overlap, -apart, x)
    }

    fn row(&mut self, m: usize, row: &mut Vec<u16>) {
        let begins = |s: &Pd2, x: u16| s.got[usize::from(x)] * s.weights[usize::from(x)].1 / s.weights[usize::from(x)].0;
        let at = self.slot as usize % WHEEL;
        let mut due = std::mem::take(&mut self.wheel[at]);
        due.retain(|&x| {
            let late = begins(self, x) > self.slot;
            if !late {
                self.waiting.push(Reverse(self.key(x)));
            }
            late
        });
        self.wheel[at] = due;
        for _ in 0..m {
            let Some(Reverse((_, _, _, x))) = self.waiting.pop() else { break };
            row.push(x);
            self.got[usize::from(x)] += 1;
            let next = begins(self, x).max(self.slot + 1) as usize % WHEEL;
            self.wheel[next].push(x);
        }
        row.sort_unstable();
        self.slot += 1;
    }
}

fn plan_pd2(m: usize, weights: &[(u32, u32)], slots: u64) -> u64 {
    let (mut pd2, mut row, mut sum) = (Pd2::new(m, weights), Vec::new(), 0u64);
    for _ in 0..slots {
        row.clear();
        pd2.row(m, &mut row);
        for x in &row {
            sum = sum.wrapping_mul(31).wrapping_add(u64::from(*x)).wrapping_add(1);
        }
    }
    sum
}

/// Adds the rows to the tasks' numbers, each row once all lags are known to stay in range, and takes the classes eight
/// times before each row where that is asked for.
fn add_rows(tasks: &mut [Task], rows: &[Vec<u16>], out: &mut [u8], classes: bool, slot: &mut u64) -> u64 {
    let mut sum = 0u64;
    for row in rows {
        if classes {
            for _again in 0..8 {
                for (class, task) in std::hint::black_box(&mut *out).iter_mut().zip(tasks.iter()) {
                    *class = match (task.lag.signum(), (task.phase + task.e).cmp(&task.p)) {
                        (1, Ordering::Equal | Ordering::Greater) => 1,
                        (-1, Ordering::Equal | Ordering::Less) => 2,
                        _ => 0,
                    };
                }
            }
            sum = sum.wrapping_mul(3).wrapping_add(u64::from(out[(*slot % 16) as usize]));
        }
        let mut next = row.iter().copied().peekable();
        for (x, task) in tasks.iter().enumerate() {
            let taken = if next.next_if_eq(&(x as u16)).is_some() { task.p as i32 } else { 0 };
            let lag = task.lag + task.e as i32 - taken;
            assert!(-(task.p as i32) < lag && lag < task.p as i32);
        }
        let mut next = row.iter().copied().peekable();
        for (x, task) in tasks.iter_mut().enumerate() {
            let ran = next.next_if_eq(&(x as u16)).is_some();
            task.lag += task.e as i32 - if ran { task.p as i32 } else { 0 };
            task.alloc += u64::from(ran);
            task.phase += task.e;
            if task.phase >= task.p {
                task.phase -= task.p;
            }
        }
        *slot += 1;
    }
    sum
}

/// The sum over what is made of so many slots of tasks of weight 1/16, sixteen rows over and over.
fn advance(m: usize, n: usize, slots: u64, classes: bool) -> u64 {
    let mut tasks: Vec<Task> = (0..n).map(|_| Task { e: 1, p: 16, alloc: 0, lag: 0, phase: 0 }).collect();
    let rows: Vec<Vec<u16>> = (0..16).map(|t| (0..m).map(|i| (t * m + i) as u16).collect()).collect();
    let mut out = vec![0u8; n];
    let (mut sum, mut slot) = (0u64, 0u64);
    for _turn in 0..slots / 16 {
        sum = sum.wrapping_mul(31).wrapping_add(add_rows(&mut tasks, &rows, &mut out, classes, &mut slot));
    }
    std::hint::black_box(tasks[n - 1].alloc);
    sum.wrapping_add(slot)
}

/// The weights with idle tasks behind them.
fn filled(m: usize, weights: &[(u32, u32)]) -> Vec<(u32, u32)> {
    fn gcd(a: u64, b: u64) -> u64 {
        if b == 0 { a } else { gcd(b, a % b) }
    }
    let hyper = weights.iter().fold(1u64, |l, w| l / gcd(l, u64::from(w.1)) * u64::from(w.1));
    let taken: u64 = weights.iter().map(|w| u64::from(w.0) * (hyper / u64::from(w.1))).sum();
    let mut rest = m as u64 * hyper - taken;
    let mut all = weights.to_vec();
    while rest > 0 {
        let e = rest.min(hyper - 1);
        all.push((e as u32, hyper as u32));
        rest -= e;
    }
    all
}

const LONGEST: u32 = 1 << 20;

fn share(p: u32, part: f64) -> (u32, u32) {
    (((f64::from(p) * part) as u32).max(1), p)
}

fn divisors() -> Vec<u32> {
    (2..=1001).filter(|d| 720_720 % d == 0).collect()
}

fn powers() -> Vec<u32> {
    (3..=20).map(|k| 1 << k).collect()
}

/// Tasks of drawn periods, whose drawn weights are raised until they take about 97 parts of 100.
fn drawn(m: usize, n: usize, periods: &[u32], seed: u64) -> Vec<(u32, u32)> {
    let mut state = seed;
    let mut next = |below: u64| {
        state = state.wrapping_mul(6364136223846793005).wrapping_add(1442695040888963407);
        (state >> 33) % below
    };
    let mut tasks: Vec<(u32, u32)> = (0..n).map(|_| (1, periods[next(periods.len() as u64) as usize])).collect();
    let part = |w: (u32, u32)| f64::from(w.0) / f64::from(w.1);
    let mut sum: f64 = tasks.iter().map(|w| part(*w)).sum();
    for _ in 0..200_000 {
        if sum >= m as f64 * 0.97 {
            break;
        }
        let x = next(n as u64) as usize;
        let p = tasks[x].1;
        let weight = (1 + next(1000)) as f64 / 1000.0 * (1.9 * m as f64 / n as f64).min(0.98);
        let raised = (((weight * f64::from(p)) as u32).clamp(1, p - 1), p);
        let all = sum - part(tasks[x]) + part(raised);
        if all <= m as f64 * 0.999 && all > sum {
            (tasks[x], sum) = (raised, all);
        }
    }
    tasks
}

/// The measured sets: name, workers, weights.
fn sets() -> Vec<(&'static str, usize, Vec<(u32, u32)>)> {
    vec![
        ("3 tasks of 2/3 on 2", 2, vec![(2, 3); 3]),
        ("16 tasks on 4", 4, (0..16).map(|i| share(720720 / (1 + i), 0.24)).collect()),
        ("128 tasks on 16", 16, (0..128).map(|i| share(8 << (i % 18), 0.123)).collect()),
        ("1024 tasks on 64", 64, (0..1024).map(|i| share(720720 / (1 + i % 16), 0.0611)).collect()),
        ("17 tasks of 1/17 on 1", 1, vec![(1, 17); 17]),
        ("16 drawn tasks on 4", 4, drawn(4, 16, &divisors(), 16)),
        ("128 drawn tasks on 16", 16, drawn(16, 128, &powers(), 128)),
        ("1024 drawn tasks on 64", 64, drawn(64, 1024, &divisors(), 1024)),
        ("1024 drawn, periods 2^k", 64, drawn(64, 1024, &powers(), 1025)),
        ("hard: 2 long periods on 2", 2, vec![(LONGEST - 1, LONGEST), (LONGEST / 2 - 1, LONGEST / 2)]),
        ("hard: 64 near 1 on 64", 64, (0..64).map(|i| (LONGEST - 1 - 2 * i, LONGEST)).collect()),
        ("hard: 128 near 1/2 on 64", 64, (0..128).map(|i| (LONGEST / 2 - 1 - 2 * i, LONGEST)).collect()),
        ("hard: 1024 near 1/16 on 64", 64, (0..1024).map(|i| (65535 - 2 * i, LONGEST)).collect()),
    ]
}

// Rule 110, cell by cell

fn rule(count: u64, width: usize) -> u64 {
    let mut cells = vec![0u8; width];
    cells[width - 1] = 1;
    for _ in 0..count {
        let old = cells.clone();
        for i in 0..width {
            let place = 4 * old[(i + width - 1) % width] + 2 * old[i] + old[(i + 1) % width];
            cells[i] = 110 >> place & 1;
        }
    }
    let mut bytes = [0u8; 128];
    bytes[0] = 2;
    bytes[5] = 110;
    bytes[6..8].copy_from_slice(&(width as u16).to_le_bytes());
    for (i, cell) in cells.iter().enumerate() {
        bytes[8 + i / 8] |= cell << (7 - i % 8);
    }
    bytes.iter().fold(0u64, |sum, b| sum.wrapping_mul(31).wrapping_add(u64::from(*b)).wrapping_add(1))
}

// Measuring

/// The sum and the seconds of the proved program.
fn proved(program: &str, words: &[String]) -> (u64, f64) {
    let ran = Command::new(program).args(words).output().expect("the proved program runs");
    assert!(ran.status.success(), "{}", String::from_utf8_lossy(&ran.stderr));
    let number = |text: &[u8]| String::from_utf8_lossy(text).trim().parse::<u64>().expect("a number");
    (number(&ran.stdout), number(&ran.stderr) as f64 / 1e9)
}

/// The least seconds of fifteen runs each of PF in Rust, the proved program and PD2, taken in turn; the first two with the same result.
fn beside_pd2(count: u64, m: usize, weights: &[(u32, u32)], program: &str, words: &[String]) -> [f64; 3] {
    let mut least = [f64::MAX; 3];
    for _ in 0..15 {
        let start = Instant::now();
        let sum = std::hint::black_box(plan(m, weights, count));
        least[0] = least[0].min(start.elapsed().as_secs_f64());
        let (other, seconds) = proved(program, words);
        assert_eq!(sum, other, "both programs make the same");
        least[1] = least[1].min(seconds);
        let start = Instant::now();
        std::hint::black_box(plan_pd2(m, weights, count));
        least[2] = least[2].min(start.elapsed().as_secs_f64());
    }
    least
}

/// Both programs' least seconds of fifteen runs each, taken in turn, with the same result.
fn both(count: u64, plain: impl Fn(u64) -> u64, program: &str, words: &[String]) -> (f64, f64) {
    let (mut least_plain, mut least_proved) = (f64::MAX, f64::MAX);
    for _ in 0..15 {
        let start = Instant::now();
        let sum = std::hint::black_box(plain(count));
        least_plain = least_plain.min(start.elapsed().as_secs_f64());
        let (other, seconds) = proved(program, words);
        assert_eq!(sum, other, "both programs make the same");
        least_proved = least_proved.min(seconds);
    }
    (least_plain, least_proved)
}

/// How many it takes for a run of about a tenth of a second.
fn calibrated(plain: impl Fn(u64) -> u64) -> u64 {
    let mut count = 64;
    loop {
        let start = Instant::now();
        std::hint::black_box(plain(count));
        if start.elapsed().as_secs_f64() > 0.1 {
            return count;
        }
        count *= 2;
    }
}

/// The least seconds of fifteen runs each of two programs, taken in turn, with the same result.
fn both_proved(programs: [&str; 2], words: &[String]) -> [f64; 2] {
    let mut least = [f64::MAX; 2];
    for _ in 0..15 {
        let ran = programs.map(|program| proved(program, words));
        assert_eq!(ran[0].0, ran[1].0, "both programs make the same");
        least = [least[0].min(ran[0].1), least[1].min(ran[1].1)];
    }
    least
}

/// PF's choice, called from C by blocks of 1,000 slots, beside `pfx_bench_choice`.
fn from_c(program: &str, embed: &str) {
    println!();
    println!("{:<28} {:>14} {:>14} {:>7}", "1,000 slots a call", "pfx slots/s", "C slots/s", "ratio");
    for (name, m, weights) in sets() {
        let count = calibrated(|slots| plan(m, &weights, slots)).max(1000);
        let mut words = vec!["plan".to_string(), count.to_string(), m.to_string()];
        words.extend(weights.iter().map(|w| format!("{}/{}", w.0, w.1)));
        let [a, b] = both_proved([program, embed], &words);
        println!("{name:<28} {:>14.0} {:>14.0} {:>7.2}", count as f64 / a, count as f64 / b, a / b);
    }
}

fn main() {
    let program = std::env::args().nth(1).expect("the path of pfx_bench_choice");
    let embed = std::env::args().nth(2);
    println!("{:<28} {:>12} {:>12} {:>12} {:>8} {:>8}", "PF's choice, slots/s", "Rust", "pfx", "PD2", "to Rust", "to PD2");
    for (name, m, weights) in sets() {
        let count = calibrated(|slots| plan(m, &weights, slots));
        let mut words = vec!["plan".to_string(), count.to_string(), m.to_string()];
        words.extend(weights.iter().map(|w| format!("{}/{}", w.0, w.1)));
        let [a, b, c] = beside_pd2(count, m, &weights, &program, &words);
        let n = count as f64;
        println!("{name:<28} {:>12.0} {:>12.0} {:>12.0} {:>8.2} {:>8.2}", n / a, n / b, n / c, a / b, c / b);
    }
    if let Some(embed) = embed {
        from_c(&program, &embed);
    }
    println!();
    println!("{:<28} {:>14} {:>14} {:>7}", "tasks of 1/16", "Rust ns/task", "pfx ns/task", "ratio");
    for m in [1usize, 4, 64] {
        let n = 16 * m;
        let timed = |classes: bool| {
            let run = |slots| advance(m, n, slots, classes);
            let count = calibrated(run);
            let mut words = vec![if classes { "classes" } else { "advance" }.to_string(), count.to_string(), m.to_string()];
            words.extend((0..n).map(|_| "1/16".to_string()));
            let (a, b) = both(count, run, &program, &words);
            (a * 1e9 / (count * n as u64) as f64, b * 1e9 / (count * n as u64) as f64)
        };
        let (step, with_classes) = (timed(false), timed(true));
        println!("{:<28} {:>14.2} {:>14.2} {:>7.2}", format!("{n} tasks: step"), step.0, step.1, step.0 / step.1);
        let (a, b) = ((with_classes.0 - step.0) / 8.0, (with_classes.1 - step.1) / 8.0);
        println!("{:<28} {a:>14.2} {b:>14.2} {:>7.2}", format!("{n} tasks: class"), a / b);
    }
    println!();
    println!("{:<28} {:>14} {:>14} {:>7}", "rule 110", "Rust us/step", "pfx us/step", "ratio");
    for width in [64usize, 512] {
        let run = |count| rule(count, width);
        let count = calibrated(run);
        let words = ["rule".to_string(), count.to_string(), width.to_string()];
        let (a, b) = both(count, run, &program, &words);
        println!("{:<28} {:>14.3} {:>14.3} {:>7.2}", format!("{width} cells, cell by cell"), a * 1e6 / count as f64, b * 1e6 / count as f64, a / b);
    }
}
