//! The run sheet of a scenario (`docs/RULES.md`, "The run sheet").

use crate::rig::{Action, Answer, Call, Granted, Refusal, Rig, Setup};
use crate::scenario::{Fault, Line, Reader};

/// The run sheet of a text.
pub fn of(text: &[u8]) -> Vec<u8> {
    // A line of the sheet is seldom more than twice as long as its call.
    let mut sheet = Vec::with_capacity(2 * text.len() + 64);
    if let Err(fault) = run(text, &mut sheet) {
        fault_line(&mut sheet, fault);
    }
    sheet
}

fn run(text: &[u8], sheet: &mut Vec<u8>) -> Result<(), Fault> {
    let mut lines = Reader::new(text)?;
    let Some(Line::Rig(setup)) = lines.next().transpose()? else {
        // The reader lets nothing else stand first.
        return Ok(());
    };
    let rig = run_on(setup, lines, sheet)?;
    cell_lines(sheet, &rig);
    Ok(())
}

/// Runs all lines after the first, and gives the rig as it is then.
fn run_on(setup: Setup, lines: Reader, sheet: &mut Vec<u8>) -> Result<Rig, Fault> {
    let mut rig = Rig::new(&setup);
    for line in lines {
        match line? {
            // The reader lets no second one pass.
            Line::Rig(_) => {}
            Line::Set { cell, word } => {
                rig.set(cell, word);
            }
            Line::Call(call) => {
                let answer = rig.call(call);
                call_line(sheet, call, answer);
            }
        }
    }
    Ok(rig)
}

/// The line of a call.
pub fn call_line(sheet: &mut Vec<u8>, call: Call, answer: Answer) {
    let (number, value) = returned(answer);
    sheet.extend_from_slice(&[letter(call.action), b'\t']);
    unsigned(sheet, call.head.into());
    sheet.push(b'\t');
    unsigned(sheet, number.into());
    sheet.push(b'\t');
    match value {
        Some(value) => signed(sheet, value),
        None => sheet.push(b'-'),
    }
    sheet.push(b'\n');
}

/// The lines of all cells, as they are now.
pub fn cell_lines(sheet: &mut Vec<u8>, rig: &Rig) {
    for (cell, &word) in rig.cells().iter().enumerate() {
        sheet.extend_from_slice(b"cell\t");
        unsigned(sheet, cell as u64);
        sheet.push(b'\t');
        signed(sheet, word.into());
        sheet.push(b'\n');
    }
}

fn fault_line(sheet: &mut Vec<u8>, fault: Fault) {
    sheet.extend_from_slice(b"fault");
    for number in [fault.what as usize, fault.line, fault.byte] {
        sheet.push(b'\t');
        unsigned(sheet, number as u64);
    }
    sheet.push(b'\t');
    sheet.extend_from_slice(fault.layer.name().as_bytes());
    sheet.push(b'\n');
}

fn letter(action: Action) -> u8 {
    match action {
        Action::Open => b'o',
        Action::Read { .. } => b'r',
        Action::Write { .. } => b'w',
        Action::Close => b'c',
        Action::Push => b'p',
        Action::Jolt => b'j',
        Action::Again => b'a',
        Action::Drop => b'd',
    }
}

/// The returned number and the value of an answer.
pub fn returned(answer: Answer) -> (u8, Option<i64>) {
    match answer {
        Ok(granted) => match granted {
            Granted::Begun(mode) => (0, Some(mode as i64)),
            Granted::Word(word) => (0, Some(word.into())),
            Granted::Written | Granted::Dropped => (0, None),
            Granted::Closed(attempts) => (0, Some(attempts.into())),
            Granted::WritingBack(attempts) => (1, Some(attempts.into())),
            Granted::Left(slots) => (0, Some(slots as i64)),
        },
        Err(refusal) => match refusal {
            Refusal::NoHead => (3, None),
            Refusal::NoCell => (4, None),
            Refusal::State => (5, None),
            Refusal::Aborted(cause) => (6, Some(cause as i64)),
            Refusal::Locked => (7, None),
            Refusal::Full => (8, None),
            Refusal::NoMoreTransactions => (9, None),
            Refusal::NoMoreAttempts => (10, None),
        },
    }
}

fn signed(sheet: &mut Vec<u8>, number: i64) {
    if number < 0 {
        sheet.push(b'-');
    }
    unsigned(sheet, number.unsigned_abs());
}

fn unsigned(sheet: &mut Vec<u8>, mut number: u64) {
    // The digits come from the last to the first; 20 are enough for 64 bits.
    let mut digits = [0; 20];
    let mut first = digits.len();
    loop {
        first -= 1;
        digits[first] = b'0' + (number % 10) as u8;
        number /= 10;
        if number == 0 {
            break;
        }
    }
    sheet.extend_from_slice(&digits[first..]);
}

#[cfg(test)]
mod tests {
    use super::*;

    #[test]
    fn a_returned_number_of_two_digits() {
        let call = |action| Call { head: 1, action };
        let mut sheet = Vec::new();
        let refused = Err(Refusal::NoMoreTransactions);
        call_line(&mut sheet, call(Action::Open), refused);
        let refused = Err(Refusal::NoMoreAttempts);
        call_line(&mut sheet, call(Action::Again), refused);
        assert_eq!(sheet, b"o\t1\t9\t-\na\t1\t10\t-\n");
    }
}
