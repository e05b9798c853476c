//! The calls: the lowest refusal is given, a refused call changes nothing, and every operation ends within its steps.

use second::generate;
use second::sheet::{Event, Sheet, Write};
use second::table::{Answer, Machine, Outcome};
use second::watch::Nobody;

const WRITE: Write = Write { closes: 0, place: 0, field: 0, new: 7 };

fn fresh() -> Machine {
    Machine::fresh(2, [[5; 4]; 2].into_iter())
}

fn call(machine: &mut Machine, event: Event) -> Outcome {
    machine.call(&event, &mut Nobody)
}

fn scx(n: u8, list: [u8; 4], write: Write) -> Event {
    Event::Scx { t: 0, n, list, write }
}

#[test]
fn the_lowest_refusal_is_given() {
    let mut m = fresh();
    let bad = Write { closes: 4, place: 9, field: 9, new: 7 };
    assert_eq!(call(&mut m, Event::Scx { t: 2, n: 0, list: [9; 4], write: bad }), Err(11));
    assert_eq!(call(&mut m, scx(0, [9; 4], bad)), Err(14));
    assert_eq!(call(&mut m, scx(5, [9; 4], bad)), Err(14));
    assert_eq!(call(&mut m, scx(2, [9, 9, 0, 0], bad)), Err(15));
    assert_eq!(call(&mut m, scx(2, [1, 1, 0, 0], bad)), Err(16));
    assert_eq!(call(&mut m, scx(2, [0, 1, 9, 9], bad)), Err(17));
    assert_eq!(call(&mut m, scx(2, [0, 1, 0, 0], WRITE)), Err(18));
    assert_eq!(call(&mut m, Event::Read { t: 0, r: 2, field: 4 }), Err(15));
    assert_eq!(call(&mut m, Event::Read { t: 0, r: 1, field: 4 }), Err(17));
    assert_eq!(call(&mut m, Event::Step { t: 0 }), Err(13));
    assert_eq!(call(&mut m, Event::Llx { t: 0, r: 1 }), Ok(Answer::Accepted));
    assert_eq!(call(&mut m, scx(0, [9; 4], bad)), Err(12));
}

#[test]
fn what_is_written_lies_in_the_list() {
    for (write, right) in [
        (WRITE, false),
        (Write { place: 1, ..WRITE }, true),
        (Write { closes: 2, ..WRITE }, true),
        (Write { closes: 128, ..WRITE }, true),
        (Write { field: 4, ..WRITE }, true),
    ] {
        assert_eq!(call(&mut fresh(), scx(1, [0; 4], write)), Err(if right { 17 } else { 18 }));
    }
}

#[test]
fn a_refused_call_keeps_everything() {
    for k in (0..200).filter(|k| k % 4 != 3) {
        let bytes = generate::sheet(5, k);
        let sheet = Sheet::read(&bytes, &mut Nobody).expect("a valid sheet");
        let mut machine = Machine::fresh(sheet.p, sheet.records());
        for event in sheet.events().take(300) {
            let before = machine.clone();
            if machine.call(&event, &mut Nobody).is_err() {
                assert_eq!(format!("{machine:?}"), format!("{before:?}"));
            }
        }
    }
}

/// The steps within which an operation has to end.
fn bound(event: &Event) -> u32 {
    match *event {
        Event::Llx { .. } => 39,
        Event::Vlx { n, .. } => n.into(),
        Event::Read { .. } => 1,
        Event::Scx { n, write, .. } => 2 * u32::from(n) + write.closes.count_ones() + 3,
        Event::Step { .. } => 0,
    }
}

#[test]
fn operations_end_within_their_steps() {
    for k in (0..1000).filter(|k| k % 4 != 3) {
        let bytes = generate::sheet(6, k);
        let sheet = Sheet::read(&bytes, &mut Nobody).expect("a valid sheet");
        let mut machine = Machine::fresh(sheet.p, sheet.records());
        let mut left = [0; 8];
        for event in sheet.events() {
            let (t, outcome) = (usize::from(event.task()), machine.call(&event, &mut Nobody));
            match (event, outcome) {
                (_, Err(_)) => {}
                (Event::Step { .. }, Ok(answer)) => {
                    left[t] -= 1;
                    assert!(answer != Answer::Accepted || left[t] > 0, "sheet {k}");
                }
                (start, Ok(_)) => left[t] = bound(&start),
            }
        }
    }
}
