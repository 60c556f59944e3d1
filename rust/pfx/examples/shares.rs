//! Three tasks of 2/3 on two workers: the set, a plan of six slots, and the next row.

use pfx::{Planner, Refused, Weight};

fn text(slot: u64, row: &[u16], count: usize) -> String {
    let name = |x: &u16| if usize::from(*x) < count { x.to_string() } else { "*".to_string() };
    let names: Vec<String> = row.iter().map(name).collect();
    format!("{slot} {}", names.join(" "))
}

fn main() -> Result<(), Refused> {
    let weights = [Weight { e: 2, p: 3 }; 3];
    let mut planner = Planner::new(2, &weights)?;
    println!("hyper={} idle={} load={}", planner.hyper(), planner.idle(), planner.load());
    for slot in 0..6 {
        println!("{}", text(slot, &planner.next_row()?, weights.len()));
    }
    println!("{}", text(planner.slot(), &planner.peek()?, weights.len()));
    Ok(())
}
