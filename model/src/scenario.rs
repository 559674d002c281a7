//! The reader of scenarios (`docs/RULES.md`, "The scenario" and "Faults").

use crate::rig::{Action, Board, Call, MAX_CELLS, MAX_HEADS, Policy, Setup, Word};

/// The most bytes that a scenario may have.
pub const MAX_TEXT: usize = 65_536;

#[derive(Clone, Copy, Debug, PartialEq, Eq)]
pub enum Line {
    Rig(Setup),
    Set { cell: u32, word: Word },
    Call(Call),
}

/// What is wrong with a text, and where. Lines count from 1, bytes from 0.
#[derive(Clone, Copy, Debug, PartialEq, Eq)]
pub struct Fault {
    pub what: Wrong,
    pub line: usize,
    pub byte: usize,
    pub layer: Layer,
}

#[derive(Clone, Copy, Debug, PartialEq, Eq)]
pub enum Wrong {
    Cell = 4,
    Setup = 11,
    Word = 21,
    Fields = 22,
    Number = 23,
    Place = 24,
    Length = 25,
}

#[derive(Clone, Copy, Debug, PartialEq, Eq)]
pub enum Layer {
    Line,
    Field,
    Rig,
}

impl Layer {
    pub fn name(self) -> &'static str {
        match self {
            Layer::Line => "line",
            Layer::Field => "field",
            Layer::Rig => "rig",
        }
    }
}

/// How far the text has come: what may stand on the next line.
#[derive(Clone, Copy)]
enum Place {
    /// Only the rig line.
    First,
    /// `set` lines and calls, on a rig of so many cells.
    Sets { cells: usize },
    /// Calls only.
    Calls,
}

/// What the first field of a line says.
#[derive(Clone, Copy)]
enum Kind {
    Rig,
    Set,
    Open,
    Read,
    Write,
    Close,
    Push,
    Jolt,
    Again,
    Drop,
}

impl Kind {
    fn of(word: &[u8]) -> Option<Kind> {
        Some(match word {
            b"rig" => Kind::Rig,
            b"set" => Kind::Set,
            b"o" => Kind::Open,
            b"r" => Kind::Read,
            b"w" => Kind::Write,
            b"c" => Kind::Close,
            b"p" => Kind::Push,
            b"j" => Kind::Jolt,
            b"a" => Kind::Again,
            b"d" => Kind::Drop,
            _ => return None,
        })
    }

    fn may_stand_at(self, place: Place) -> bool {
        match self {
            Kind::Rig => matches!(place, Place::First),
            Kind::Set => matches!(place, Place::Sets { .. }),
            _ => !matches!(place, Place::First),
        }
    }

    /// Whether so many fields may stand after the word.
    fn takes(self, fields: usize) -> bool {
        match self {
            Kind::Rig => fields == 3 || fields == 4,
            Kind::Set | Kind::Read => fields == 2,
            Kind::Write => fields == 3,
            _ => fields == 1,
        }
    }
}

/// Gives the lines of a text one by one, up to the first fault.
pub struct Reader<'a> {
    text: &'a [u8],
    /// The number of the next line, and its first byte.
    line: usize,
    byte: usize,
    place: Place,
}

impl<'a> Reader<'a> {
    /// Refuses a text that is too long, or empty.
    pub fn new(text: &'a [u8]) -> Result<Reader<'a>, Fault> {
        let fault = |what, line, byte| {
            Err(Fault {
                what,
                line,
                byte,
                layer: Layer::Line,
            })
        };
        if text.len() > MAX_TEXT {
            return fault(Wrong::Length, 0, MAX_TEXT);
        }
        if text.is_empty() {
            return fault(Wrong::Place, 1, 0);
        }
        Ok(Reader {
            text,
            line: 1,
            byte: 0,
            place: Place::First,
        })
    }

    /// Understands one line, in the order in which faults are looked for.
    fn understand(&mut self, line: &[u8]) -> Result<Line, Fault> {
        let (number, first) = (self.line, self.byte);
        let fault = move |what, layer| Fault {
            what,
            line: number,
            byte: first,
            layer,
        };
        let mut fields = Fields {
            line: number,
            byte: first,
            rest: Some(line),
        };

        let word = fields.take();
        let kind = Kind::of(word.bytes).ok_or(fault(Wrong::Word, Layer::Line))?;
        if !kind.may_stand_at(self.place) {
            return Err(fault(Wrong::Place, Layer::Line));
        }
        if !kind.takes(fields.count()) {
            return Err(fault(Wrong::Fields, Layer::Line));
        }

        let call = |head, action| Line::Call(Call { head, action });
        let understood = match kind {
            Kind::Rig => {
                let (heads, cells) = (fields.number()? as usize, fields.number()? as usize);
                let setup = Setup {
                    heads,
                    cells,
                    board: fields.board()?,
                    policy: fields.policy()?,
                };
                if !(1..=MAX_HEADS).contains(&heads) || !(1..=MAX_CELLS).contains(&cells) {
                    return Err(fault(Wrong::Setup, Layer::Rig));
                }
                self.place = Place::Sets { cells };
                return Ok(Line::Rig(setup));
            }
            Kind::Set => {
                let (cell, word) = (fields.number()?, fields.amount()?);
                if let Place::Sets { cells } = self.place
                    && cell as usize >= cells
                {
                    return Err(fault(Wrong::Cell, Layer::Rig));
                }
                return Ok(Line::Set { cell, word });
            }
            Kind::Read => {
                let (head, cell) = (fields.number()?, fields.number()?);
                call(head, Action::Read { cell })
            }
            Kind::Write => {
                let (head, cell) = (fields.number()?, fields.number()?);
                let word = fields.amount()?;
                call(head, Action::Write { cell, word })
            }
            Kind::Open => call(fields.number()?, Action::Open),
            Kind::Close => call(fields.number()?, Action::Close),
            Kind::Push => call(fields.number()?, Action::Push),
            Kind::Jolt => call(fields.number()?, Action::Jolt),
            Kind::Again => call(fields.number()?, Action::Again),
            Kind::Drop => call(fields.number()?, Action::Drop),
        };
        self.place = Place::Calls;
        Ok(understood)
    }
}

impl Iterator for Reader<'_> {
    type Item = Result<Line, Fault>;

    fn next(&mut self) -> Option<Self::Item> {
        let rest = &self.text[self.byte..];
        if rest.is_empty() {
            return None;
        }
        let end = rest.iter().position(|&byte| byte == b'\n');
        let line = &rest[..end.unwrap_or(rest.len())];
        let understood = self.understand(line);
        if understood.is_err() {
            // Nothing is read after a fault.
            self.byte = self.text.len();
        } else {
            self.line += 1;
            self.byte += line.len() + usize::from(end.is_some());
        }
        Some(understood)
    }
}

/// The fields of a line that are still to be taken.
struct Fields<'a> {
    line: usize,
    /// The first byte of the next field.
    byte: usize,
    rest: Option<&'a [u8]>,
}

struct Field<'a> {
    bytes: &'a [u8],
    line: usize,
    byte: usize,
}

impl Field<'_> {
    fn fault(&self, what: Wrong) -> Fault {
        Fault {
            what,
            line: self.line,
            byte: self.byte,
            layer: Layer::Field,
        }
    }
}

impl<'a> Fields<'a> {
    fn count(&self) -> usize {
        match self.rest {
            Some(rest) => 1 + rest.iter().filter(|&&byte| byte == b'\t').count(),
            None => 0,
        }
    }

    /// The next field. One that the line does not have is empty; the number of
    /// fields has been looked at before, so none is asked for.
    fn take(&mut self) -> Field<'a> {
        let rest = self.rest.unwrap_or_default();
        let end = rest.iter().position(|&byte| byte == b'\t');
        let field = Field {
            bytes: &rest[..end.unwrap_or(rest.len())],
            line: self.line,
            byte: self.byte,
        };
        self.rest = end.map(|end| &rest[end + 1..]);
        self.byte += field.bytes.len() + 1;
        field
    }

    fn number(&mut self) -> Result<u32, Fault> {
        let field = self.take();
        number(field.bytes).ok_or(field.fault(Wrong::Number))
    }

    fn amount(&mut self) -> Result<i32, Fault> {
        let field = self.take();
        amount(field.bytes).ok_or(field.fault(Wrong::Number))
    }

    fn board(&mut self) -> Result<Board, Fault> {
        let field = self.take();
        match field.bytes {
            b"stores" => Ok(Board::Stores),
            b"lines" => Ok(Board::Lines),
            _ => Err(field.fault(Wrong::Word)),
        }
    }

    /// A policy that is missing is plain; one that is empty is a fault.
    fn policy(&mut self) -> Result<Policy, Fault> {
        if self.rest.is_none() {
            return Ok(Policy::Plain);
        }
        let field = self.take();
        match field.bytes {
            b"plain" => Ok(Policy::Plain),
            b"careful" => Ok(Policy::Careful),
            _ => Err(field.fault(Wrong::Word)),
        }
    }
}

/// Decimal digits without leading zeros, at most 4,294,967,295.
fn number(bytes: &[u8]) -> Option<u32> {
    match bytes {
        [] => None,
        [b'0', _, ..] => None,
        _ => bytes.iter().try_fold(0u32, |number, &byte| match byte {
            b'0'..=b'9' => number.checked_mul(10)?.checked_add(u32::from(byte - b'0')),
            _ => None,
        }),
    }
}

/// A number that may have a minus sign in front, but for `-0`.
fn amount(bytes: &[u8]) -> Option<i32> {
    let amount = match bytes {
        [b'-', digits @ ..] => match number(digits)? {
            0 => return None,
            size => -i64::from(size),
        },
        digits => i64::from(number(digits)?),
    };
    i32::try_from(amount).ok()
}
