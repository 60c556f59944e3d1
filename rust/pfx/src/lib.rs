//! Proportionate-fair plans (Algorithm PF), from a proved library.
//!
//! A task of weight e/p is due e of every p slots. In each slot every worker runs one task, and no task is ever a whole slot ahead
//! of what it is due or behind. [`Planner`] keeps a ledger and plans on from it:
//!
//! ```
//! use pfx::{Planner, Weight};
//!
//! let mut planner = Planner::new(2, &[Weight { e: 2, p: 3 }; 3])?;
//! assert_eq!(planner.next_row()?, [0, 1]);
//! assert_eq!(planner.next_row()?, [0, 2]);
//! # Ok::<(), pfx::Refused>(())
//! ```
//!
//! The rows are the library's, whose contracts are proved; what this crate adds is tested. The only `unsafe` are the calls.

mod calls;

use std::error::Error;
use std::fmt;

/// A task that is due `e` of every `p` slots, `1 <= e < p`.
#[repr(C)]
#[derive(Clone, Copy, Debug, PartialEq, Eq, Hash)]
pub struct Weight {
    pub e: u32,
    pub p: u32,
}

/// Why the library refuses, by its number in the product's table.
#[derive(Clone, Copy, Debug, PartialEq, Eq, Hash)]
pub struct Refused {
    pub number: u32,
    /// The task that the refusal names, if it names one.
    pub task: Option<u16>,
}

impl Refused {
    /// The refusal's name in the product's table.
    pub fn name(&self) -> &'static str {
        match self.number {
            11 => "NoTasks",
            12 => "TooManyTasks",
            13 => "BadWorkers",
            14 => "BadWeight",
            16 => "HyperperiodTooLarge",
            17 => "Overload",
            21 => "TooManyUrgent",
            22 => "TooFewEligible",
            23 => "SlotLimit",
            24 => "OutOfRange",
            25 => "WrongSum",
            26 => "BadLedger",
            57 => "NoRoom",
            90 => "NoMemory",
            _ => "unknown",
        }
    }
}

impl fmt::Display for Refused {
    fn fmt(&self, f: &mut fmt::Formatter<'_>) -> fmt::Result {
        write!(f, "{} {}", self.number, self.name())?;
        match self.task {
            Some(task) => write!(f, " task={task}"),
            None => Ok(()),
        }
    }
}

impl Error for Refused {}

/// Nothing for 0, and else the refusal, with the task where it names one.
fn answered(number: u32, task: u16) -> Result<(), Refused> {
    match number {
        0 => Ok(()),
        14 | 16 | 24 => Err(Refused { number, task: Some(task) }),
        _ => Err(Refused { number, task: None }),
    }
}

/// How many rows [`Planner::rows`] plans at a time.
const BLOCK: usize = 256;

/// A set of weights on so many workers, and a ledger of it.
#[derive(Clone, Debug)]
pub struct Planner {
    workers: u32,
    weights: Vec<Weight>,
    hyper: u32,
    idle: u32,
    load: u64,
    slot: u64,
    allocs: Vec<u64>,
}

impl Planner {
    /// The ledger before slot 0.
    pub fn new(workers: u32, weights: &[Weight]) -> Result<Planner, Refused> {
        let mut planner = Planner::of_set(workers, weights)?;
        planner.allocs = vec![0; weights.len() + planner.idle as usize];
        Ok(planner)
    }

    /// The ledger at a slot, where each task, idle ones too, got so many of the slots before it.
    pub fn at(workers: u32, weights: &[Weight], slot: u64, allocs: &[u64]) -> Result<Planner, Refused> {
        let mut planner = Planner::of_set(workers, weights)?;
        let mut task = 0;
        let number = calls::check(workers, weights, slot, allocs, &mut task);
        answered(number, task)?;
        planner.slot = slot;
        planner.allocs = allocs.to_vec();
        Ok(planner)
    }

    fn of_set(workers: u32, weights: &[Weight]) -> Result<Planner, Refused> {
        let mut shown = calls::Shown::default();
        let mut task = 0;
        let number = calls::set(workers, weights, &mut shown, &mut task);
        answered(number, task)?;
        Ok(Planner {
            workers,
            weights: weights.to_vec(),
            hyper: shown.hyper,
            idle: shown.idle,
            load: shown.load,
            slot: 0,
            allocs: Vec::new(),
        })
    }

    /// The workers, 1 to 64: how many tasks a row has.
    pub fn workers(&self) -> usize {
        self.workers as usize
    }

    /// The hyperperiod in slots.
    pub fn hyper(&self) -> u32 {
        self.hyper
    }

    /// How many idle tasks there are. They have the numbers behind those of the weights.
    pub fn idle(&self) -> usize {
        self.idle as usize
    }

    /// How many slots of a hyperperiod the weights take: they sum to `load / hyper`.
    pub fn load(&self) -> u64 {
        self.load
    }

    /// The slot to come.
    pub fn slot(&self) -> u64 {
        self.slot
    }

    /// How many of the slots before it each task got, idle ones last.
    pub fn allocs(&self) -> &[u64] {
        &self.allocs
    }

    /// The row of the slot to come: its tasks, rising. The ledger stays.
    pub fn peek(&self) -> Result<Vec<u16>, Refused> {
        let mut row = vec![0; self.workers()];
        answered(calls::next(self.workers, &self.weights, self.slot, &self.allocs, &mut row), 0)?;
        Ok(row)
    }

    /// Lays the rows of as many slots into `rows` as it has places for whole rows, [`workers`](Planner::workers) numbers each,
    /// and takes the ledger along. How many rows were made, and why not all.
    pub fn plan_into(&mut self, rows: &mut [u16]) -> (usize, Result<(), Refused>) {
        let slots = rows.len() / self.workers();
        let mut made = 0;
        let number = calls::plan(self.workers, &self.weights, slots, &mut self.slot, &mut self.allocs, rows, &mut made);
        (made, answered(number, 0))
    }

    /// The row of the slot to come. The ledger goes on by it.
    pub fn next_row(&mut self) -> Result<Vec<u16>, Refused> {
        let mut row = vec![0; self.workers()];
        self.plan_into(&mut row).1?;
        Ok(row)
    }

    /// Goes over the rows from here on, up to the slot that has none.
    pub fn rows(self) -> Rows {
        Rows { planner: self, block: Vec::new(), at: 0, end: Ok(()) }
    }
}

/// The rows from a ledger on, planned a block at a time. At the slot that has no row it gives the refusal, and then nothing.
#[derive(Clone, Debug)]
pub struct Rows {
    planner: Planner,
    block: Vec<u16>,
    at: usize,
    /// What ended the block; a refusal that was given is `None` of `next` from then on.
    end: Result<(), Option<Refused>>,
}

impl Iterator for Rows {
    type Item = Result<Vec<u16>, Refused>;

    fn next(&mut self) -> Option<Self::Item> {
        let m = self.planner.workers();
        if self.at == self.block.len() {
            if let Err(refused) = &mut self.end {
                return refused.take().map(Err);
            }
            self.block.resize(BLOCK * m, 0);
            let (made, end) = self.planner.plan_into(&mut self.block);
            self.block.truncate(made * m);
            self.at = 0;
            self.end = end.map_err(Some);
            return self.next();
        }
        self.at += m;
        Some(Ok(self.block[self.at - m..self.at].to_vec()))
    }
}
