//! How many transactions a rig opens, and how many attempts calls can make of
//! one. A scenario's text is too short for either, so the rig is called here.

use std::process::Command;

use model::rig::{Action, Board, Call, Policy, Rig, Setup};
use model::sheet;

const NONE: Option<i64> = None;

fn rig(heads: usize) -> Rig {
    Rig::new(&Setup {
        heads,
        cells: 1,
        board: Board::Lines,
        policy: Policy::Plain,
    })
}

/// Makes a call, and gives the returned number and the value.
fn by(rig: &mut Rig, head: u32, action: Action) -> (u8, Option<i64>) {
    sheet::returned(rig.call(Call { head, action }))
}

/// Opens and drops so many transactions, with heads in turn.
fn open_and_drop(rig: &mut Rig, heads: u32, times: u32) {
    for time in 0..times {
        let head = time % heads;
        assert_eq!(by(rig, head, Action::Open), (0, Some(1)), "{time}");
        assert_eq!(by(rig, head, Action::Drop), (0, NONE), "{time}");
    }
}

/// Sends a head to software, where its fourth attempt is.
fn open_in_software(rig: &mut Rig, head: u32) {
    assert_eq!(by(rig, head, Action::Open), (0, Some(1)));
    for mode in [1, 1, 2] {
        assert_eq!(by(rig, head, Action::Jolt), (6, Some(4)));
        assert_eq!(by(rig, head, Action::Again), (0, Some(mode)));
    }
}

#[test]
fn transaction_60000_is_the_last() {
    let mut rig = rig(3);
    open_and_drop(&mut rig, 3, 59_999);
    assert_eq!(by(&mut rig, 1, Action::Open), (0, Some(1)));
    for _ in 0..2 {
        assert_eq!(by(&mut rig, 0, Action::Open), (9, NONE));
        assert_eq!(by(&mut rig, 2, Action::Open), (9, NONE));
    }
    // The heads are idle as they were.
    assert_eq!(by(&mut rig, 0, Action::Drop), (5, NONE));
    assert_eq!(by(&mut rig, 0, Action::Read { cell: 0 }), (5, NONE));
    // The last one goes on: nothing but an open is refused with 9.
    assert_eq!(by(&mut rig, 1, Action::Jolt), (6, Some(4)));
    assert_eq!(by(&mut rig, 1, Action::Again), (0, Some(1)));
    assert_eq!(by(&mut rig, 1, Action::Close), (0, Some(2)));
    assert_eq!(by(&mut rig, 1, Action::Open), (9, NONE));
    assert_eq!(by(&mut rig, 0, Action::Open), (9, NONE));
}

#[test]
fn refused_opens_are_not_counted() {
    let mut rig = rig(2);
    open_in_software(&mut rig, 0);
    let write = Action::Write { cell: 0, word: 1 };
    assert_eq!(by(&mut rig, 0, write), (0, NONE));
    assert_eq!(by(&mut rig, 0, Action::Open), (5, NONE));
    assert_eq!(by(&mut rig, 2, Action::Open), (3, NONE));
    assert_eq!(by(&mut rig, 0, Action::Close), (1, Some(4)));
    assert_eq!(by(&mut rig, 1, Action::Open), (7, NONE));
    assert_eq!(by(&mut rig, 0, Action::Open), (5, NONE));
    assert_eq!(by(&mut rig, 0, Action::Push), (0, Some(0)));
    // That was one transaction, whatever its attempts.
    open_and_drop(&mut rig, 2, 59_999);
    assert_eq!(by(&mut rig, 0, Action::Open), (9, NONE));
}

#[test]
fn head_state_and_lock_come_before_the_transactions() {
    let mut rig = rig(4);
    open_and_drop(&mut rig, 4, 59_997);
    open_in_software(&mut rig, 0);
    let write = Action::Write { cell: 0, word: 7 };
    assert_eq!(by(&mut rig, 0, write), (0, NONE));
    assert_eq!(by(&mut rig, 1, Action::Open), (0, Some(1)));
    open_in_software(&mut rig, 2);
    assert_eq!(by(&mut rig, 3, Action::Open), (9, NONE));
    // In software, in hardware.
    assert_eq!(by(&mut rig, 0, Action::Open), (5, NONE));
    assert_eq!(by(&mut rig, 1, Action::Open), (5, NONE));
    assert_eq!(by(&mut rig, 4, Action::Open), (3, NONE));
    // Writing back, aborted, and idle while another one writes back.
    assert_eq!(by(&mut rig, 0, Action::Close), (1, Some(4)));
    assert_eq!(by(&mut rig, 0, Action::Open), (5, NONE));
    assert_eq!(by(&mut rig, 1, Action::Open), (5, NONE));
    assert_eq!(by(&mut rig, 3, Action::Open), (7, NONE));
    assert_eq!(by(&mut rig, 4, Action::Open), (3, NONE));
    assert_eq!(by(&mut rig, 0, Action::Push), (0, Some(0)));
    assert_eq!(by(&mut rig, 0, Action::Open), (9, NONE));
    assert_eq!(by(&mut rig, 1, Action::Open), (5, NONE));
    assert_eq!(by(&mut rig, 3, Action::Open), (9, NONE));
}

/// With a patience of 3 and 59,999 closes of the other head there are 60,003:
/// 70,000 are out of reach.
#[test]
fn the_most_attempts_that_calls_can_make() {
    let mut rig = rig(2);
    open_in_software(&mut rig, 0);
    let read = Action::Read { cell: 0 };
    for word in 1..60_000 {
        assert_eq!(by(&mut rig, 0, read), (0, Some(i64::from(word) - 1)));
        assert_eq!(by(&mut rig, 1, Action::Open), (0, Some(1)));
        let write = Action::Write { cell: 0, word };
        assert_eq!(by(&mut rig, 1, write), (0, NONE));
        assert_eq!(by(&mut rig, 1, Action::Close), (0, Some(1)));
        assert_eq!(by(&mut rig, 0, read), (6, Some(5)));
        assert_eq!(by(&mut rig, 0, Action::Again), (0, Some(2)));
    }
    assert_eq!(by(&mut rig, 1, Action::Open), (9, NONE));
    assert_eq!(by(&mut rig, 0, read), (0, Some(59_999)));
    assert_eq!(by(&mut rig, 0, Action::Close), (0, Some(60_003)));
}

#[test]
fn rows_of_the_last_transactions() {
    let ran = Command::new(env!("CARGO_BIN_EXE_last_transactions"))
        .output()
        .unwrap();
    assert!(ran.status.success());
    assert!(ran.stderr.is_empty());
    let rows = "o 0 0 1\nd 0 0 -\no 1 0 1\no 0 9 -\nr 1 0 0\nw 1 0 -\nc 1 0 1\n\
        o 1 9 -\no 0 9 -\ncell 0 7\n";
    let printed = String::from_utf8(ran.stdout).unwrap();
    assert_eq!(printed, rows.replace(' ', "\t"));
}
