//! The rig itself (`docs/RULES.md`, "The rig").
//!
//! Calls are made by head number, and nobody else writes the lists. So the
//! returned numbers 2 and 12 cannot come, and the model has neither of them;
//! nor does a head keep the number of its transaction, for no answer tells it.
//!
//! A scenario's text is too short for 9 and 10. They are for programs that
//! call the rig themselves: 9 comes after 60,000 transactions, but no list of
//! calls reaches 10, as each attempt beyond the policy's patience and one more
//! takes a close of another transaction.

use std::ops::RangeInclusive;
use std::vec;

pub const MAX_HEADS: usize = 8;
pub const MAX_CELLS: usize = 1024;

/// How many cells a log has room for.
pub const LOG: usize = 32;

/// How many transactions a rig opens.
pub const MAX_TRANSACTIONS: u16 = 60_000;

/// How many attempts a transaction makes.
pub const MAX_ATTEMPTS: u32 = 70_000;

/// What a cell holds. In a scenario every word is an amount.
pub type Word = i32;

#[derive(Clone, Copy, Debug, PartialEq, Eq)]
pub enum Board {
    Stores,
    Lines,
}

impl Board {
    /// The line of a cell.
    pub fn line(self, cell: usize) -> usize {
        match self {
            Board::Stores => cell / 8,
            Board::Lines => cell / 4,
        }
    }

    fn fits(self, stores: u16, lines: u16) -> bool {
        match self {
            Board::Stores => stores <= 32,
            Board::Lines => lines <= 4,
        }
    }

    /// What the margin over this board says: 4 stores and 1 line must be left.
    fn fits_with_margin(self, stores: u16, lines: u16) -> bool {
        self.fits(stores.saturating_add(4), lines.saturating_add(1))
    }
}

#[derive(Clone, Copy, Debug, PartialEq, Eq)]
pub enum Policy {
    Plain,
    Careful,
}

impl Policy {
    /// Where the next attempt runs, after the hardware abort of this number.
    fn next(self, cause: Cause, hardware_aborts: u32) -> Mode {
        let software_from = match (self, cause) {
            (Policy::Plain, _) => 3,
            (Policy::Careful, Cause::Capacity) => 1,
            (Policy::Careful, Cause::Conflict) => 16,
            (Policy::Careful, _) => 5,
        };
        if hardware_aborts >= software_from {
            Mode::Software
        } else {
            Mode::Hardware
        }
    }
}

/// What set-up takes. Heads are 1 to `MAX_HEADS`, cells 1 to `MAX_CELLS`.
#[derive(Clone, Copy, Debug, PartialEq, Eq)]
pub struct Setup {
    pub heads: usize,
    pub cells: usize,
    pub board: Board,
    pub policy: Policy,
}

/// Where an attempt runs.
#[derive(Clone, Copy, Debug, PartialEq, Eq)]
pub enum Mode {
    Hardware = 1,
    Software = 2,
}

/// Why an attempt aborted. Only software attempts abort with `Changed`, and
/// with nothing else.
#[derive(Clone, Copy, Debug, PartialEq, Eq)]
pub enum Cause {
    Conflict = 1,
    Capacity = 2,
    Lock = 3,
    Other = 4,
    Changed = 5,
}

/// A call by the head of a number; the rig may have no such head or cell.
#[derive(Clone, Copy, Debug, PartialEq, Eq)]
pub struct Call {
    pub head: u32,
    pub action: Action,
}

#[derive(Clone, Copy, Debug, PartialEq, Eq)]
pub enum Action {
    Open,
    Read { cell: u32 },
    Write { cell: u32, word: Word },
    Close,
    Push,
    Jolt,
    Again,
    Drop,
}

/// What a granted call gives.
#[derive(Clone, Copy, Debug, PartialEq, Eq)]
pub enum Granted {
    /// Open, again: an attempt has begun.
    Begun(Mode),
    /// Read.
    Word(Word),
    Written,
    /// Close: the transaction is over, after so many attempts.
    Closed(u32),
    /// Close: the head has yet to write its log back; so many attempts.
    WritingBack(u32),
    /// Push: so many slots are left.
    Left(usize),
    Dropped,
}

#[derive(Clone, Copy, Debug, PartialEq, Eq)]
pub enum Refusal {
    NoHead,
    NoCell,
    /// The state does not take the call.
    State,
    /// The head was aborted already, or has aborted in this call.
    Aborted(Cause),
    /// S is odd: a software commit writes back.
    Locked,
    /// A log has no room.
    Full,
    /// The rig has opened all transactions that it may.
    NoMoreTransactions,
    /// The transaction has made all attempts that it may.
    NoMoreAttempts,
}

pub type Answer = Result<Granted, Refusal>;

/// A cell and a word that was read from it, or is to be written to it.
#[derive(Clone, Copy, Debug)]
struct Slot {
    cell: usize,
    word: Word,
}

/// Slots in the order in which they were added, one for a cell.
#[derive(Debug, Default)]
struct Log(Vec<Slot>);

impl Log {
    fn get(&self, cell: usize) -> Option<Word> {
        self.0
            .iter()
            .find(|slot| slot.cell == cell)
            .map(|slot| slot.word)
    }

    /// Replaces the cell's slot or adds one. Without room nothing is changed.
    fn put(&mut self, cell: usize, word: Word) -> Result<(), Refusal> {
        if let Some(slot) = self.0.iter_mut().find(|slot| slot.cell == cell) {
            slot.word = word;
        } else if self.0.len() < LOG {
            self.0.push(Slot { cell, word });
        } else {
            return Err(Refusal::Full);
        }
        Ok(())
    }
}

/// A set of numbers below 64 × N, one bit for each.
#[derive(Clone, Debug)]
struct Bits<const N: usize> {
    bits: [u64; N],
    len: usize,
}

impl<const N: usize> Default for Bits<N> {
    fn default() -> Self {
        Bits {
            bits: [0; N],
            len: 0,
        }
    }
}

impl<const N: usize> Bits<N> {
    fn contains(&self, number: usize) -> bool {
        self.bits[number / 64] >> (number % 64) & 1 == 1
    }

    /// How many there would be with this number among them.
    fn len_with(&self, number: usize) -> usize {
        self.len + usize::from(!self.contains(number))
    }

    fn insert(&mut self, number: usize) {
        self.len = self.len_with(number);
        self.bits[number / 64] |= 1 << (number % 64);
    }
}

/// A set of cells.
type Cells = Bits<{ MAX_CELLS / 64 }>;

/// A set of lines; no board has more of them than a quarter of the cells.
type Lines = Bits<{ MAX_CELLS / 4 / 64 }>;

/// An attempt in hardware. What it read is never looked at again, so of its
/// read log only the cells are kept.
#[derive(Debug, Default)]
pub struct Hardware {
    reads: Cells,
    writes: Log,
    stores: u16,
    /// The lines of the cells in either log.
    touched: Lines,
    /// The lines of the cells in the write log.
    written: Lines,
}

impl Hardware {
    fn fits(&self, board: Board, lines: usize) -> bool {
        board.fits_with_margin(self.stores, u16::try_from(lines).unwrap_or(u16::MAX))
    }
}

/// An attempt in software.
#[derive(Debug)]
pub struct Software {
    reads: Log,
    writes: Log,
    snapshot: Clock,
}

impl Software {
    /// Validates, if anything was committed since the snapshot. Says whether
    /// every word that was read is still in its cell.
    fn validate(&mut self, now: Clock, cells: &[Word], board: Board, others: &mut Others) -> bool {
        if self.snapshot != now {
            for slot in &self.reads.0 {
                others.load(board.line(slot.cell));
                if cells[slot.cell] != slot.word {
                    return false;
                }
            }
            self.snapshot = now;
        }
        true
    }
}

/// S and C.
#[derive(Clone, Copy, Debug, Default, PartialEq, Eq)]
struct Clock {
    /// S, the sequence number: odd while a software commit writes back.
    sequence: u64,
    /// C, the commit counter: how many hardware attempts have closed.
    commits: u64,
}

impl Clock {
    fn is_locked(self) -> bool {
        self.sequence % 2 == 1
    }
}

/// What a head is in. Each state owns what no other needs.
#[derive(Debug, Default)]
pub enum State {
    #[default]
    Idle,
    Hardware(Hardware),
    Software(Software),
    Aborted(Cause),
    WritingBack(Rest),
}

/// What of a write log has yet to be put into the cells.
#[derive(Debug)]
pub struct Rest(vec::IntoIter<Slot>);

#[derive(Debug, Default)]
struct Head {
    state: State,
    /// Of the latest transaction.
    attempts: u32,
    /// How many of the attempts aborted in hardware.
    hardware_aborts: u32,
}

impl Head {
    fn begin(&mut self, mode: Mode, now: Clock) -> Granted {
        self.attempts += 1;
        self.state = match mode {
            Mode::Hardware => State::Hardware(Hardware::default()),
            Mode::Software => State::Software(Software {
                reads: Log::default(),
                writes: Log::default(),
                snapshot: now,
            }),
        };
        Granted::Begun(mode)
    }

    /// Aborts, and gives what is to be answered if this is the head's own call.
    fn abort(&mut self, cause: Cause) -> Refusal {
        if let State::Hardware(_) = self.state {
            self.hardware_aborts += 1;
        }
        self.state = State::Aborted(cause);
        Refusal::Aborted(cause)
    }

    /// Aborts if the head is in hardware and its attempt is such a one.
    fn abort_hardware(&mut self, cause: Cause, such: impl Fn(&Hardware) -> bool) {
        if let State::Hardware(attempt) = &self.state
            && such(attempt)
        {
            self.abort(cause);
        }
    }
}

/// All heads but the one that calls.
struct Others<'a> {
    before: &'a mut [Head],
    after: &'a mut [Head],
}

impl Others<'_> {
    /// Every other head in hardware, if its attempt is such a one, aborts.
    fn abort(&mut self, cause: Cause, such: impl Fn(&Hardware) -> bool) {
        for head in self.before.iter_mut().chain(self.after.iter_mut()) {
            head.abort_hardware(cause, &such);
        }
    }

    /// What loading a cell of this line does to them.
    fn load(&mut self, line: usize) {
        self.abort(Cause::Conflict, |attempt| attempt.written.contains(line));
    }

    /// What writing a cell of this line in hardware does to them.
    fn store(&mut self, line: usize) {
        self.abort(Cause::Conflict, |attempt| attempt.touched.contains(line));
    }

    /// What taking the sequence lock does to them.
    fn lock(&mut self) {
        self.abort(Cause::Lock, |_| true);
    }
}

#[derive(Debug)]
pub struct Rig {
    board: Board,
    policy: Policy,
    clock: Clock,
    /// The numbers that no transaction has taken yet.
    numbers: RangeInclusive<u16>,
    heads: Vec<Head>,
    cells: Vec<Word>,
}

impl Rig {
    /// Every head is idle, and every cell holds 0.
    pub fn new(setup: &Setup) -> Rig {
        Rig {
            board: setup.board,
            policy: setup.policy,
            clock: Clock::default(),
            numbers: 1..=MAX_TRANSACTIONS,
            heads: (0..setup.heads).map(|_| Head::default()).collect(),
            cells: vec![0; setup.cells],
        }
    }

    /// Puts a word into a cell before the first call. Says whether the rig has
    /// the cell.
    pub fn set(&mut self, cell: u32, word: Word) -> bool {
        match self.cells.get_mut(cell as usize) {
            Some(held) => {
                *held = word;
                true
            }
            None => false,
        }
    }

    pub fn cells(&self) -> &[Word] {
        &self.cells
    }

    /// The state of a head; one that the rig does not have is taken as idle.
    pub fn state(&self, head: usize) -> &State {
        self.heads
            .get(head)
            .map_or(&State::Idle, |head| &head.state)
    }

    pub fn is_locked(&self) -> bool {
        self.clock.is_locked()
    }

    /// A call. What refuses it is looked for in the order of the returned
    /// numbers: 3 and 4 here and in `cell`, then the state, then 7 to 10.
    pub fn call(&mut self, call: Call) -> Answer {
        let head = call.head as usize;
        if head >= self.heads.len() {
            return Err(Refusal::NoHead);
        }
        match call.action {
            Action::Open => self.open(head),
            Action::Read { cell } => self.read(head, self.cell(cell)?),
            Action::Write { cell, word } => self.write(head, self.cell(cell)?, word),
            Action::Close => self.close(head),
            Action::Push => self.push(head),
            Action::Jolt => self.jolt(head),
            Action::Again => self.again(head),
            Action::Drop => self.drop(head),
        }
    }

    fn cell(&self, cell: u32) -> Result<usize, Refusal> {
        let cell = cell as usize;
        if cell < self.cells.len() {
            Ok(cell)
        } else {
            Err(Refusal::NoCell)
        }
    }

    fn open(&mut self, head: usize) -> Answer {
        let me = &mut self.heads[head];
        let State::Idle = me.state else {
            return Err(Refusal::State);
        };
        if self.clock.is_locked() {
            return Err(Refusal::Locked);
        }
        // Nothing refuses the call any more once it has taken a number.
        if self.numbers.next().is_none() {
            return Err(Refusal::NoMoreTransactions);
        }
        me.attempts = 0;
        me.hardware_aborts = 0;
        Ok(me.begin(Mode::Hardware, self.clock))
    }

    fn read(&mut self, head: usize, cell: usize) -> Answer {
        let (me, mut others) = split(&mut self.heads, head);
        let line = self.board.line(cell);
        match &mut me.state {
            State::Idle | State::WritingBack(_) => Err(Refusal::State),
            State::Aborted(cause) => Err(Refusal::Aborted(*cause)),
            State::Hardware(attempt) => {
                if let Some(word) = attempt.writes.get(cell) {
                    return Ok(Granted::Word(word));
                }
                if attempt.reads.len_with(cell) > LOG {
                    return Err(Refusal::Full);
                }
                if !attempt.fits(self.board, attempt.touched.len_with(line)) {
                    return Err(me.abort(Cause::Capacity));
                }
                others.load(line);
                attempt.reads.insert(cell);
                attempt.touched.insert(line);
                Ok(Granted::Word(self.cells[cell]))
            }
            State::Software(attempt) => {
                if let Some(word) = attempt.writes.get(cell) {
                    return Ok(Granted::Word(word));
                }
                if self.clock.is_locked() {
                    return Err(Refusal::Locked);
                }
                let new = attempt.reads.get(cell).is_none();
                if new && attempt.reads.0.len() == LOG {
                    return Err(Refusal::Full);
                }
                if !attempt.validate(self.clock, &self.cells, self.board, &mut others) {
                    return Err(me.abort(Cause::Changed));
                }
                others.load(line);
                let word = self.cells[cell];
                if new {
                    attempt.reads.put(cell, word)?;
                }
                Ok(Granted::Word(word))
            }
        }
    }

    fn write(&mut self, head: usize, cell: usize, word: Word) -> Answer {
        let (me, mut others) = split(&mut self.heads, head);
        match &mut me.state {
            State::Idle | State::WritingBack(_) => Err(Refusal::State),
            State::Aborted(cause) => Err(Refusal::Aborted(*cause)),
            State::Hardware(attempt) => {
                attempt.writes.put(cell, word)?;
                attempt.stores = attempt.stores.saturating_add(1);
                let line = self.board.line(cell);
                attempt.touched.insert(line);
                attempt.written.insert(line);
                if !attempt.fits(self.board, attempt.touched.len) {
                    return Err(me.abort(Cause::Capacity));
                }
                others.store(line);
                Ok(Granted::Written)
            }
            State::Software(attempt) => {
                attempt.writes.put(cell, word)?;
                Ok(Granted::Written)
            }
        }
    }

    fn close(&mut self, head: usize) -> Answer {
        let (me, mut others) = split(&mut self.heads, head);
        match &mut me.state {
            State::Idle | State::WritingBack(_) => Err(Refusal::State),
            State::Aborted(cause) => Err(Refusal::Aborted(*cause)),
            State::Hardware(attempt) => {
                for slot in &attempt.writes.0 {
                    self.cells[slot.cell] = slot.word;
                }
                self.clock.commits += 1;
                me.state = State::Idle;
                Ok(Granted::Closed(me.attempts))
            }
            State::Software(attempt) if attempt.writes.0.is_empty() => {
                me.state = State::Idle;
                Ok(Granted::Closed(me.attempts))
            }
            State::Software(attempt) => {
                if self.clock.is_locked() {
                    return Err(Refusal::Locked);
                }
                if !attempt.validate(self.clock, &self.cells, self.board, &mut others) {
                    return Err(me.abort(Cause::Changed));
                }
                self.clock.sequence += 1;
                others.lock();
                let writes = std::mem::take(&mut attempt.writes);
                me.state = State::WritingBack(Rest(writes.0.into_iter()));
                Ok(Granted::WritingBack(me.attempts))
            }
        }
    }

    fn push(&mut self, head: usize) -> Answer {
        let me = &mut self.heads[head];
        let State::WritingBack(Rest(rest)) = &mut me.state else {
            return Err(Refusal::State);
        };
        if let Some(slot) = rest.next() {
            self.cells[slot.cell] = slot.word;
        }
        let left = rest.len();
        if left == 0 {
            self.clock.sequence += 1;
            me.state = State::Idle;
        }
        Ok(Granted::Left(left))
    }

    fn jolt(&mut self, head: usize) -> Answer {
        let me = &mut self.heads[head];
        match me.state {
            State::Hardware(_) => Err(me.abort(Cause::Other)),
            _ => Err(Refusal::State),
        }
    }

    fn again(&mut self, head: usize) -> Answer {
        let me = &mut self.heads[head];
        let State::Aborted(cause) = me.state else {
            return Err(Refusal::State);
        };
        if self.clock.is_locked() {
            return Err(Refusal::Locked);
        }
        if me.attempts >= MAX_ATTEMPTS {
            return Err(Refusal::NoMoreAttempts);
        }
        let mode = match cause {
            // It was a software attempt, so the next is one too.
            Cause::Changed => Mode::Software,
            _ => self.policy.next(cause, me.hardware_aborts),
        };
        Ok(me.begin(mode, self.clock))
    }

    fn drop(&mut self, head: usize) -> Answer {
        let me = &mut self.heads[head];
        match me.state {
            State::Idle | State::WritingBack(_) => Err(Refusal::State),
            State::Hardware(_) | State::Software(_) | State::Aborted(_) => {
                me.state = State::Idle;
                Ok(Granted::Dropped)
            }
        }
    }
}

/// The head that calls, and all others.
fn split(heads: &mut [Head], head: usize) -> (&mut Head, Others<'_>) {
    let (before, rest) = heads.split_at_mut(head);
    let (me, after) = rest.split_at_mut(1);
    (&mut me[0], Others { before, after })
}

#[cfg(test)]
mod tests {
    use super::*;

    /// A rig of three heads and one cell. The first head has a transaction of
    /// so many attempts, the last of them in hardware.
    fn rig(attempts: u32) -> Rig {
        let mut rig = Rig::new(&Setup {
            heads: 3,
            cells: 1,
            board: Board::Lines,
            policy: Policy::Plain,
        });
        assert_eq!(by(&mut rig, 0, Action::Open), BEGUN);
        // No list of calls comes so far.
        rig.heads[0].attempts = attempts;
        rig
    }

    fn by(rig: &mut Rig, head: u32, action: Action) -> Answer {
        rig.call(Call { head, action })
    }

    const BEGUN: Answer = Ok(Granted::Begun(Mode::Hardware));
    const JOLTED: Answer = Err(Refusal::Aborted(Cause::Other));

    #[test]
    fn the_last_attempt_is_granted() {
        let mut rig = rig(69_999);
        assert_eq!(by(&mut rig, 0, Action::Jolt), JOLTED);
        assert_eq!(by(&mut rig, 0, Action::Again), BEGUN);
        assert_eq!(by(&mut rig, 0, Action::Close), Ok(Granted::Closed(70_000)));
    }

    #[test]
    fn the_attempt_after_the_last_is_refused() {
        let mut rig = rig(70_000);
        assert_eq!(by(&mut rig, 0, Action::Jolt), JOLTED);
        let refused = Err(Refusal::NoMoreAttempts);
        assert_eq!(by(&mut rig, 0, Action::Again), refused);
        // Nothing has changed.
        assert_eq!(by(&mut rig, 0, Action::Read { cell: 0 }), JOLTED);
        assert_eq!(rig.heads[0].attempts, 70_000);
        assert_eq!(rig.heads[0].hardware_aborts, 1);
        assert_eq!(by(&mut rig, 0, Action::Again), refused);
        // It is of this transaction alone, and ends with it.
        assert_eq!(by(&mut rig, 1, Action::Open), BEGUN);
        assert_eq!(by(&mut rig, 1, Action::Jolt), JOLTED);
        assert_eq!(by(&mut rig, 1, Action::Again), BEGUN);
        assert_eq!(by(&mut rig, 0, Action::Drop), Ok(Granted::Dropped));
        assert_eq!(by(&mut rig, 0, Action::Open), BEGUN);
        assert_eq!(by(&mut rig, 0, Action::Jolt), JOLTED);
        assert_eq!(by(&mut rig, 0, Action::Again), BEGUN);
        assert_eq!(by(&mut rig, 0, Action::Close), Ok(Granted::Closed(2)));
    }

    #[test]
    fn a_software_attempt_after_the_last_is_refused() {
        let mut rig = rig(69_997);
        for _ in 0..2 {
            assert_eq!(by(&mut rig, 0, Action::Jolt), JOLTED);
            assert_eq!(by(&mut rig, 0, Action::Again), BEGUN);
        }
        assert_eq!(by(&mut rig, 0, Action::Jolt), JOLTED);
        let software = Ok(Granted::Begun(Mode::Software));
        assert_eq!(by(&mut rig, 0, Action::Again), software);
        let read = Action::Read { cell: 0 };
        assert_eq!(by(&mut rig, 0, read), Ok(Granted::Word(0)));
        assert_eq!(by(&mut rig, 1, Action::Open), BEGUN);
        let write = Action::Write { cell: 0, word: 7 };
        assert_eq!(by(&mut rig, 1, write), Ok(Granted::Written));
        assert_eq!(by(&mut rig, 1, Action::Close), Ok(Granted::Closed(1)));
        let changed = Err(Refusal::Aborted(Cause::Changed));
        assert_eq!(by(&mut rig, 0, read), changed);
        let refused = Err(Refusal::NoMoreAttempts);
        assert_eq!(by(&mut rig, 0, Action::Again), refused);
        assert_eq!(by(&mut rig, 0, read), changed);
    }

    #[test]
    fn state_and_lock_come_before_the_attempts() {
        let mut rig = rig(70_000);
        // In hardware.
        let state = Err(Refusal::State);
        assert_eq!(by(&mut rig, 0, Action::Again), state);
        // Another head commits in software, which aborts this one.
        assert_eq!(by(&mut rig, 1, Action::Open), BEGUN);
        for _ in 0..3 {
            assert_eq!(by(&mut rig, 1, Action::Jolt), JOLTED);
            assert!(by(&mut rig, 1, Action::Again).is_ok());
        }
        let write = Action::Write { cell: 0, word: 7 };
        assert_eq!(by(&mut rig, 1, write), Ok(Granted::Written));
        assert_eq!(by(&mut rig, 1, Action::Close), Ok(Granted::WritingBack(4)));
        assert_eq!(by(&mut rig, 3, Action::Again), Err(Refusal::NoHead));
        assert_eq!(by(&mut rig, 0, Action::Again), Err(Refusal::Locked));
        assert_eq!(by(&mut rig, 1, Action::Push), Ok(Granted::Left(0)));
        let refused = Err(Refusal::NoMoreAttempts);
        assert_eq!(by(&mut rig, 0, Action::Again), refused);
        // Idle after all.
        assert_eq!(by(&mut rig, 0, Action::Drop), Ok(Granted::Dropped));
        assert_eq!(by(&mut rig, 0, Action::Again), state);
    }
}
