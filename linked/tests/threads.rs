//! Several threads at once, and how much stack a call takes.

use second::generate;
use second::runner;
use second::watch::Nobody;
use std::sync::Barrier;
use std::thread;

#[test]
fn threads_do_not_disturb_each_other() {
    let sheets: Vec<Vec<u8>> = (0..160).map(|k| generate::sheet(2, k)).collect();
    let wanted: Vec<String> = sheets.iter().map(|sheet| runner::run(sheet, &mut Nobody)).collect();
    let together = Barrier::new(4);
    thread::scope(|scope| {
        for first in 0..4 {
            let (sheets, wanted, together) = (&sheets, &wanted, &together);
            scope.spawn(move || {
                together.wait();
                for k in (0..sheets.len()).map(|k| (k + 40 * first) % sheets.len()) {
                    assert!(sanding::text(&sheets[k]) == wanted[k].as_bytes(), "sheet {k} of seed 2");
                }
            });
        }
    });
}

#[test]
fn the_stack_is_enough() {
    let sheets: Vec<Vec<u8>> = (0..160).map(|k| generate::sheet(3, k)).collect();
    let small = thread::Builder::new().stack_size(sanding::STACK);
    let run = move || sheets.into_iter().map(|sheet| (sanding::refusal(&sheet), sanding::text(&sheet), sheet)).collect::<Vec<_>>();
    for (refusal, text, sheet) in small.spawn(run).unwrap().join().unwrap() {
        assert!(text == runner::run(&sheet, &mut Nobody).as_bytes());
        assert_eq!(refusal.is_some(), text[0] == b'X');
    }
}
