//! Prints the rows of a run sheet for the last transactions that a rig opens,
//! and for the opens after them. A scenario's text is too short to come so far,
//! so the calls are made here. If one of the many transactions before them is not
//! opened and dropped, standard error says so, and the status is 1.

use std::io::{self, Write};
use std::process::ExitCode;

use model::rig::{Action, Board, Call, Granted, Mode, Policy, Rig, Setup};
use model::sheet;

/// How many transactions are opened and dropped before the first row.
const BEFORE: usize = 59_998;

/// Two calls of head 0, and what they give.
const OPEN_AND_DROP: [(Action, Granted); 2] = [
    (Action::Open, Granted::Begun(Mode::Hardware)),
    (Action::Drop, Granted::Dropped),
];

const ROWS: [(u32, Action); 9] = [
    // Transaction 59,999.
    (0, Action::Open),
    (0, Action::Drop),
    // Transaction 60,000.
    (1, Action::Open),
    // There is none after it.
    (0, Action::Open),
    // But it goes on, and closes.
    (1, Action::Read { cell: 0 }),
    (1, Action::Write { cell: 0, word: 7 }),
    (1, Action::Close),
    (1, Action::Open),
    (0, Action::Open),
];

fn main() -> ExitCode {
    match run() {
        Ok(()) => ExitCode::SUCCESS,
        Err(error) => {
            // Nothing is left to do if even this cannot be written.
            let _ = writeln!(io::stderr(), "last_transactions: {error}");
            ExitCode::FAILURE
        }
    }
}

fn run() -> io::Result<()> {
    let mut rig = Rig::new(&Setup {
        heads: 2,
        cells: 1,
        board: Board::Lines,
        policy: Policy::Plain,
    });
    for number in 1..=BEFORE {
        for (action, gives) in OPEN_AND_DROP {
            let answer = rig.call(Call { head: 0, action });
            if answer != Ok(gives) {
                let said = format!("transaction {number}, {action:?}: {answer:?}");
                return Err(io::Error::other(said));
            }
        }
    }
    let mut sheet = Vec::new();
    for (head, action) in ROWS {
        let call = Call { head, action };
        let answer = rig.call(call);
        sheet::call_line(&mut sheet, call, answer);
    }
    sheet::cell_lines(&mut sheet, &rig);
    let mut out = io::stdout().lock();
    out.write_all(&sheet)?;
    out.flush()
}
