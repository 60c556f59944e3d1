use pfx::{Planner, Refused, Weight};

const THIRD: Weight = Weight { e: 2, p: 3 };

fn refused(number: u32, task: Option<u16>) -> Option<Refused> {
    Some(Refused { number, task })
}

#[test]
fn a_plan_goes_round() {
    let rows: Vec<Vec<u16>> = Planner::new(2, &[THIRD; 3]).unwrap().rows().take(600).map(Result::unwrap).collect();
    for (slot, row) in rows.iter().enumerate() {
        assert_eq!(*row, [[0, 1], [0, 2], [1, 2]][slot % 3]);
    }
}

#[test]
fn the_ledger_goes_along() {
    let mut planner = Planner::new(2, &[THIRD; 3]).unwrap();
    let mut rows = [9; 9];
    assert_eq!(planner.plan_into(&mut rows), (4, Ok(())));
    assert_eq!(rows, [0, 1, 0, 2, 1, 2, 0, 1, 9]);
    assert_eq!((planner.slot(), planner.allocs()), (4, &[3, 3, 2][..]));
    let other = Planner::at(2, &[THIRD; 3], 4, &[3, 3, 2]).unwrap();
    assert_eq!(planner.peek(), other.peek());
}

#[test]
fn an_early_end_comes_behind_its_rows() {
    let weights = [(1, 4), (1, 4), (1, 4), (1, 8), (1, 8)].map(|(e, p)| Weight { e, p });
    let planner = Planner::at(1, &weights, 2, &[0, 0, 0, 1, 1]).unwrap();
    let mut rows = planner.rows();
    assert_eq!(rows.next(), Some(Ok(vec![0])));
    assert_eq!(rows.next(), refused(21, None).map(Err));
    assert_eq!(rows.next(), None);
    assert_eq!(rows.next(), None);
}

#[test]
fn refusals_tell_their_number_and_task() {
    let long = [Weight { e: 1, p: 1 << 20 }, Weight { e: 1, p: 3 }];
    assert_eq!(Planner::new(1, &[]).err(), refused(11, None));
    assert_eq!(Planner::new(1, &[THIRD; 1025]).err(), refused(12, None));
    assert_eq!(Planner::new(0, &[THIRD]).err(), refused(13, None));
    assert_eq!(Planner::new(1, &[THIRD, Weight { e: 3, p: 3 }]).err(), refused(14, Some(1)));
    assert_eq!(Planner::new(1, &long).err(), refused(16, Some(1)));
    assert_eq!(Planner::new(1, &[THIRD; 2]).err(), refused(17, None));
    assert_eq!(Planner::at(2, &[THIRD; 3], 1, &[1, 0, 2]).err(), refused(24, Some(2)));
    assert_eq!(Planner::at(2, &[THIRD; 3], 1, &[1, 1, 1]).err(), refused(25, None));
    assert_eq!(Planner::at(2, &[THIRD; 3], 1, &[1, 1]).err(), refused(26, None));
    assert_eq!(Planner::at(2, &[THIRD; 3], 1 << 40, &[0, 0, 0]).err(), refused(26, None));
    assert_eq!(Planner::new(1, &[Weight { e: 3, p: 3 }]).unwrap_err().to_string(), "14 BadWeight task=0");
}
