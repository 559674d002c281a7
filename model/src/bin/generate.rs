//! Makes scenarios at random: `generate SEED COUNT FOLDER` writes COUNT files
//! `00000.scenario`, `00001.scenario`, .. into FOLDER. What is in a file
//! depends on the seed and on its number alone.
//!
//! The kinds take turns. Most calls are chosen by the state that the head
//! really has; the model's own rig is run along for that.

use std::path::Path;
use std::process::ExitCode;
use std::{env, fs, io};

use model::rig::{
    Action, Answer, Board, Call, Granted, LOG, MAX_CELLS, MAX_HEADS, Policy, Rig, Setup, State,
    Word,
};
use model::scenario::MAX_TEXT;

type Kind = (&'static str, fn(&mut Random) -> Vec<u8>);

const KINDS: [Kind; 7] = [
    ("valid", valid),
    ("contended", contended),
    ("software", software),
    ("full", full),
    ("long", long),
    ("spoiled", spoiled),
    ("grammar", grammar),
];

fn main() -> ExitCode {
    let args: Vec<String> = env::args().skip(1).collect();
    let [seed, count, folder] = args.as_slice() else {
        eprintln!("usage: generate SEED COUNT FOLDER");
        return ExitCode::from(2);
    };
    let (Ok(seed), Ok(count)) = (seed.parse(), count.parse()) else {
        eprintln!("generate: SEED and COUNT are numbers");
        return ExitCode::from(2);
    };
    match generate(seed, count, Path::new(folder)) {
        Ok(made) => {
            for ((name, _), made) in KINDS.iter().zip(made) {
                println!("{name}\t{made}");
            }
            ExitCode::SUCCESS
        }
        Err(error) => {
            eprintln!("generate: {error}");
            ExitCode::FAILURE
        }
    }
}

fn generate(seed: u64, count: u64, folder: &Path) -> io::Result<[u64; KINDS.len()]> {
    let mut made = [0; KINDS.len()];
    fs::create_dir_all(folder)?;
    for number in 0..count {
        let kind = (number % KINDS.len() as u64) as usize;
        let text = (KINDS[kind].1)(&mut Random::new(seed, number));
        fs::write(folder.join(format!("{number:05}.scenario")), text)?;
        made[kind] += 1;
    }
    Ok(made)
}

/// The generator splitmix64.
struct Random(u64);

impl Random {
    fn new(seed: u64, number: u64) -> Random {
        // Both are stirred, so that neighbours have nothing in common.
        let seed = Random(seed).next();
        Random(seed ^ Random(!number).next())
    }

    fn next(&mut self) -> u64 {
        self.0 = self.0.wrapping_add(0x9e37_79b9_7f4a_7c15);
        let mut z = self.0;
        z = (z ^ (z >> 30)).wrapping_mul(0xbf58_476d_1ce4_e5b9);
        z = (z ^ (z >> 27)).wrapping_mul(0x94d0_49bb_1331_11eb);
        z ^ (z >> 31)
    }

    /// A number below `end`, which is not 0.
    fn below(&mut self, end: usize) -> usize {
        ((u128::from(self.next()) * end as u128) >> 64) as usize
    }

    fn between(&mut self, first: usize, last: usize) -> usize {
        first + self.below(last - first + 1)
    }

    fn percent(&mut self, chance: usize) -> bool {
        self.below(100) < chance
    }

    /// One of a list that is not empty.
    fn pick<T: Copy>(&mut self, list: &[T]) -> T {
        list[self.below(list.len())]
    }

    /// The index of a weight, each as likely as it says. Not all are 0.
    fn weighted(&mut self, weights: &[usize]) -> usize {
        let mut rest = self.below(weights.iter().sum());
        for (index, &weight) in weights.iter().enumerate() {
            if rest < weight {
                return index;
            }
            rest -= weight;
        }
        0
    }

    fn shuffle<T>(&mut self, list: &mut [T]) {
        for last in (1..list.len()).rev() {
            list.swap(last, self.below(last + 1));
        }
    }
}

// ---------------------------------------------------------------------------
// A scenario in the making

/// What a head is in, without what it owns there.
#[derive(Clone, Copy, PartialEq, Eq)]
enum Now {
    Idle,
    Hardware,
    Software,
    Aborted,
    WritingBack,
}

/// How often a head that is in an attempt does what.
#[derive(Clone, Copy)]
struct Habits {
    read: usize,
    write: usize,
    close: usize,
    jolt: usize,
    drop: usize,
    /// In percent: calls that are made without regard to the state.
    wild: usize,
    /// In percent: while a head is writing back, it is its turn.
    push: usize,
}

const CALM: Habits = Habits {
    read: 40,
    write: 30,
    close: 20,
    jolt: 5,
    drop: 4,
    wild: 8,
    push: 60,
};

const RESTLESS: Habits = Habits {
    read: 30,
    write: 30,
    close: 8,
    jolt: 12,
    drop: 1,
    wild: 3,
    push: 40,
};

const DILIGENT: Habits = Habits {
    read: 42,
    write: 28,
    close: 20,
    jolt: 1,
    drop: 2,
    wild: 2,
    push: 22,
};

/// The bytes of a write with the longest numbers that there are.
const LONGEST_CALL: usize = 36;

struct Script<'a> {
    random: &'a mut Random,
    setup: Setup,
    rig: Rig,
    text: Vec<u8>,
    /// Calls that would make the text longer than this are left out.
    limit: usize,
    calls: usize,
    /// The cells that most calls name.
    pool: Vec<usize>,
}

impl<'a> Script<'a> {
    /// The rig line; a plain policy is missing now and then.
    fn new(random: &'a mut Random, setup: Setup) -> Script<'a> {
        let board = match setup.board {
            Board::Stores => "stores",
            Board::Lines => "lines",
        };
        let policy = match setup.policy {
            Policy::Plain if random.percent(50) => "",
            Policy::Plain => "\tplain",
            Policy::Careful => "\tcareful",
        };
        let rig = format!("rig\t{}\t{}\t{board}{policy}\n", setup.heads, setup.cells);
        let mut pool: Vec<usize> = (0..setup.cells).collect();
        if setup.cells > 12 && random.percent(60) {
            random.shuffle(&mut pool);
            pool.truncate(random.between(2, 12));
        }
        Script {
            random,
            rig: Rig::new(&setup),
            setup,
            text: rig.into_bytes(),
            limit: MAX_TEXT,
            calls: 0,
            pool,
        }
    }

    fn sets(&mut self, most: usize) {
        for _ in 0..self.random.below(most + 1) {
            let cell = self.cell();
            let word = self.word(cell);
            self.rig.set(cell as u32, word);
            self.text.extend(format!("set\t{cell}\t{word}\n").bytes());
        }
    }

    /// There is no room for every call any more. Four bytes are kept for `pad`.
    fn is_over(&self) -> bool {
        self.text.len() + LONGEST_CALL + 4 > self.limit
    }

    /// Writes the call down and makes it. None if there is no room for it.
    fn call(&mut self, head: usize, action: Action) -> Option<Answer> {
        if self.is_over() {
            return None;
        }
        let line = match action {
            Action::Open => format!("o\t{head}\n"),
            Action::Read { cell } => format!("r\t{head}\t{cell}\n"),
            Action::Write { cell, word } => format!("w\t{head}\t{cell}\t{word}\n"),
            Action::Close => format!("c\t{head}\n"),
            Action::Push => format!("p\t{head}\n"),
            Action::Jolt => format!("j\t{head}\n"),
            Action::Again => format!("a\t{head}\n"),
            Action::Drop => format!("d\t{head}\n"),
        };
        self.text.extend(line.bytes());
        self.calls += 1;
        let head = head as u32;
        Some(self.rig.call(Call { head, action }))
    }

    fn now(&self, head: usize) -> Now {
        match self.rig.state(head) {
            State::Idle => Now::Idle,
            State::Hardware(_) => Now::Hardware,
            State::Software(_) => Now::Software,
            State::Aborted(_) => Now::Aborted,
            State::WritingBack(_) => Now::WritingBack,
        }
    }

    /// The head that is writing back, if there is one.
    fn writer(&self) -> Option<usize> {
        (0..self.setup.heads).find(|&head| self.now(head) == Now::WritingBack)
    }

    fn head(&mut self) -> usize {
        self.random.below(self.setup.heads)
    }

    /// A head other than this, if the rig has more than one.
    fn other(&mut self, head: usize) -> usize {
        if self.setup.heads == 1 {
            return head;
        }
        (head + self.random.between(1, self.setup.heads - 1)) % self.setup.heads
    }

    fn cell(&mut self) -> usize {
        if self.random.percent(92) {
            self.pool[self.random.below(self.pool.len())]
        } else {
            self.random.below(self.setup.cells)
        }
    }

    /// A cell on the line of this one.
    fn neighbour(&mut self, cell: usize) -> usize {
        let board = self.setup.board;
        let line: Vec<usize> = (0..self.setup.cells)
            .filter(|&other| board.line(other) == board.line(cell))
            .collect();
        self.random.pick(&line)
    }

    /// A word to be written to a cell; often the one that is in it already.
    fn word(&mut self, cell: usize) -> Word {
        match self.random.weighted(&[35, 40, 8, 17]) {
            0 => self.rig.cells()[cell],
            1 => self.random.below(7) as Word - 3,
            2 => self.random.pick(&[
                Word::MIN,
                Word::MAX,
                Word::MIN + 1,
                Word::MAX - 1,
                -1,
                10,
                -10,
                1_000_000_000,
            ]),
            _ => {
                // All lengths of numbers are about as likely.
                let shift = self.random.below(32);
                (self.random.next() as Word) >> shift
            }
        }
    }

    fn read(&mut self, head: usize) -> Option<Answer> {
        let cell = self.cell() as u32;
        self.call(head, Action::Read { cell })
    }

    fn write(&mut self, head: usize) -> Option<Answer> {
        let cell = self.cell();
        self.write_to(head, cell)
    }

    fn write_to(&mut self, head: usize, cell: usize) -> Option<Answer> {
        let word = self.word(cell);
        let cell = cell as u32;
        self.call(head, Action::Write { cell, word })
    }

    /// Writes the word that is in the cell already.
    fn rewrite(&mut self, head: usize, cell: usize) -> Option<Answer> {
        let word = self.rig.cells()[cell];
        let cell = cell as u32;
        self.call(head, Action::Write { cell, word })
    }

    /// A number that a rig with so many of something does not have.
    fn missing(&mut self, count: usize) -> usize {
        let most = u32::MAX as usize;
        match self.random.below(5) {
            0 => most,
            1 => most - self.random.below(8),
            2 => self.random.between(count, most),
            3 => self.random.between(count, count + 10),
            _ => count,
        }
    }

    /// Any call at all, also by a head or of a cell that is missing.
    fn wild(&mut self) {
        let mut head = self.head();
        let mut cell = self.cell();
        let word = self.word(cell);
        if self.random.percent(15) {
            head = self.missing(self.setup.heads);
        }
        if self.random.percent(25) {
            cell = self.missing(self.setup.cells);
        }
        let cell = cell as u32;
        let action = self.random.pick(&[
            Action::Open,
            Action::Read { cell },
            Action::Read { cell },
            Action::Write { cell, word },
            Action::Write { cell, word },
            Action::Close,
            Action::Push,
            Action::Jolt,
            Action::Again,
            Action::Drop,
        ]);
        self.call(head, action);
    }

    /// A call that makes sense for the head, most of the time.
    fn step(&mut self, head: usize, habits: &Habits) {
        if self.random.percent(habits.wild) {
            return self.wild();
        }
        if let Some(writer) = self.writer()
            && self.random.percent(habits.push)
        {
            self.call(writer, Action::Push);
            return;
        }
        let now = self.now(head);
        match now {
            Now::Idle => {
                self.call(head, Action::Open);
            }
            Now::Hardware | Now::Software => {
                let jolt = if now == Now::Hardware { habits.jolt } else { 0 };
                let weights = [habits.read, habits.write, habits.close, jolt, habits.drop];
                match self.random.weighted(&weights) {
                    0 => self.read(head),
                    1 => self.write(head),
                    2 => self.call(head, Action::Close),
                    3 => self.call(head, Action::Jolt),
                    _ => self.call(head, Action::Drop),
                };
            }
            Now::Aborted => {
                match self.random.weighted(&[70, 8, 8, 8, habits.drop]) {
                    0 => self.call(head, Action::Again),
                    1 => self.read(head),
                    2 => self.write(head),
                    3 => self.call(head, Action::Close),
                    _ => self.call(head, Action::Drop),
                };
            }
            Now::WritingBack => {
                self.call(head, Action::Push);
            }
        }
    }

    /// Pushes until the lock is free.
    fn free_the_lock(&mut self) {
        while let Some(writer) = self.writer() {
            if self.call(writer, Action::Push).is_none() {
                return;
            }
        }
    }

    /// Gets a head that is idle or has aborted into an attempt. Gives what it
    /// is in then.
    fn enter(&mut self, head: usize) -> Now {
        if matches!(self.now(head), Now::Hardware | Now::Software) {
            return self.now(head);
        }
        self.free_the_lock();
        match self.now(head) {
            Now::Idle => self.call(head, Action::Open),
            _ => self.call(head, Action::Again),
        };
        self.now(head)
    }

    /// Gets a head into a new attempt in hardware, if that takes no jolt.
    fn enter_hardware(&mut self, head: usize) -> bool {
        if self.now(head) == Now::Software {
            self.call(head, Action::Drop);
        }
        if self.enter(head) == Now::Software {
            self.call(head, Action::Drop);
            self.enter(head);
        }
        self.now(head) == Now::Hardware
    }

    /// Jolts a head until it is in software.
    fn enter_software(&mut self, head: usize) -> bool {
        for _ in 0..20 {
            if self.enter(head) == Now::Software {
                return true;
            }
            if self.random.percent(10) {
                self.read(head);
            }
            self.call(head, Action::Jolt);
        }
        false
    }

    /// A whole small transaction, so that the commit counter moves.
    fn errand(&mut self, head: usize) {
        if self.rig.is_locked() || !self.enter_hardware(head) {
            return;
        }
        for _ in 0..self.random.below(4) {
            if self.random.percent(60) {
                self.write(head);
            } else {
                self.read(head);
            }
        }
        self.call(head, Action::Close);
    }

    /// A transaction that writes some of these cells. So many percent of the
    /// writes put another word there; the others move C, but change no word.
    fn errand_to(&mut self, head: usize, cells: &[usize], changed: usize) {
        if cells.is_empty() || self.rig.is_locked() || !self.enter_hardware(head) {
            return;
        }
        for _ in 0..self.random.between(1, 2) {
            let cell = self.random.pick(cells);
            if self.random.percent(changed) {
                self.write_to(head, cell);
            } else {
                self.rewrite(head, cell);
            }
        }
        self.call(head, Action::Close);
    }
}

// ---------------------------------------------------------------------------
// Rounds: some calls with one aim

impl Script<'_> {
    /// One head's attempts are aborted by another, again and again.
    fn duel(&mut self) {
        let victim = self.head();
        let rival = self.other(victim);
        if victim == rival || !self.enter_hardware(victim) {
            return;
        }
        for _ in 0..self.random.between(1, 19) {
            if self.enter(victim) == Now::Software || self.is_over() {
                break;
            }
            let cell = self.cell();
            let near = self.neighbour(cell);
            if self.random.percent(12) {
                self.call(victim, Action::Jolt);
            } else if self.random.percent(50) {
                self.call(victim, Action::Read { cell: cell as u32 });
                self.enter(rival);
                if self.now(rival) == Now::Software {
                    self.call(rival, Action::Drop);
                    self.enter(rival);
                }
                self.write_to(rival, near);
            } else {
                self.write_to(victim, cell);
                self.enter(rival);
                if self.random.percent(50) {
                    self.call(rival, Action::Read { cell: near as u32 });
                } else {
                    self.write_to(rival, near);
                }
            }
            if self.random.percent(30) {
                let end = self
                    .random
                    .pick(&[Action::Close, Action::Close, Action::Drop]);
                self.call(rival, end);
                self.free_the_lock();
            }
            if self.random.percent(15) {
                self.read(victim);
            }
        }
        for _ in 0..self.random.below(4) {
            self.step(victim, &CALM);
        }
    }

    fn contended_round(&mut self) {
        if self.random.percent(15) {
            return self.duel();
        }
        for _ in 0..self.random.between(5, 40) {
            let head = self.head();
            self.step(head, &RESTLESS);
        }
    }

    /// A head in software reads, and another changes what it has read, again
    /// and again.
    fn software_duel(&mut self) {
        let victim = self.head();
        let rival = self.other(victim);
        if victim == rival || !self.enter_software(victim) {
            return;
        }
        let rounds = self.random.pick(&[4, 25, 25, 80]);
        for _ in 0..self.random.between(1, rounds) {
            if self.enter(victim) != Now::Software || self.is_over() {
                break;
            }
            let mut cells = Vec::new();
            for _ in 0..self.random.between(1, 4) {
                let cell = self.cell();
                if self.random.percent(75) {
                    self.call(victim, Action::Read { cell: cell as u32 });
                } else {
                    self.write_to(victim, cell);
                }
                cells.push(cell);
            }
            self.errand_to(rival, &cells, 85);
            if self.random.percent(20) {
                self.call(victim, Action::Close);
            } else {
                self.read(victim);
            }
            if self.now(victim) == Now::WritingBack {
                break;
            }
        }
    }

    fn software_round(&mut self) {
        if self.random.percent(12) {
            return self.software_duel();
        }
        let most = (self.setup.heads - 1).clamp(1, 4);
        let deep = self.random.between(most.min(2), most);
        for head in 0..deep {
            if self.now(head) != Now::WritingBack && self.random.percent(60) {
                self.enter_software(head);
            }
        }
        for _ in 0..self.random.between(5, 30) {
            match self.random.weighted(&[70, 12, 6, 12]) {
                0 => {
                    let head = self.random.below(deep);
                    self.step(head, &DILIGENT);
                }
                1 => {
                    let head = self.other(0);
                    self.errand(head);
                }
                2 => {
                    let head = self.other(0);
                    let pool = self.pool.clone();
                    self.errand_to(head, &pool, 0);
                }
                _ => {
                    let head = self.head();
                    self.step(head, &CALM);
                }
            }
        }
    }

    /// Fills a log, and goes on where it has no more room.
    fn filling_round(&mut self) {
        let head = self.head();
        let rival = self.other(head);
        let is_in_software = match self.random.percent(65) {
            true => self.enter_software(head),
            false => {
                self.enter_hardware(head);
                false
            }
        };
        let mut cells: Vec<usize> = (0..self.setup.cells).collect();
        if self.random.percent(60) {
            self.random.shuffle(&mut cells);
        }
        // In hardware more than 28 stores do not fit, so there mostly reads.
        let writes = match is_in_software {
            true => self.random.pick(&[0, 10, 50, 90, 100]),
            false => self.random.pick(&[0, 0, 0, 10]),
        };
        let many = self.random.between(LOG - 1, LOG + 4);
        let mut named: Vec<usize> = Vec::new();
        for &cell in cells.iter().take(many) {
            if !matches!(self.now(head), Now::Hardware | Now::Software) {
                break;
            }
            if self.random.percent(writes) {
                self.write_to(head, cell);
            } else {
                self.call(head, Action::Read { cell: cell as u32 });
            }
            named.push(cell);
            if rival != head && self.random.percent(6) {
                self.errand_to(rival, &named, 5);
            }
            if self.random.percent(10) {
                let cell = self.random.pick(&named) as u32;
                self.call(head, Action::Read { cell });
            }
        }
        // At the full log: what is in it, and what is not.
        for _ in 0..self.random.between(2, 10) {
            let old = match named.as_slice() {
                [] => 0,
                named => self.random.pick(named),
            };
            let new = cells[cells.len() - 1 - self.random.below(cells.len().min(3))];
            match self.random.below(7) {
                0 | 1 => self.call(head, Action::Read { cell: old as u32 }),
                2 => self.call(head, Action::Read { cell: new as u32 }),
                3 => self.write_to(head, old),
                4 => self.write_to(head, new),
                _ if rival != head => {
                    self.errand_to(rival, &named, 15);
                    None
                }
                _ => None,
            };
        }
        let end = self
            .random
            .pick(&[Action::Close, Action::Close, Action::Close, Action::Drop]);
        let ended = self.call(head, end);
        if let Some(Ok(Granted::WritingBack(_))) = ended {
            let talk = self.random.pick(&[0, 20, 50]);
            while self.now(head) == Now::WritingBack && !self.is_over() {
                if self.random.percent(talk) {
                    let head = self.head();
                    self.step(head, &Habits { push: 0, ..CALM });
                } else {
                    self.call(head, Action::Push);
                }
            }
        }
    }

    /// Up to where the board does not fit any more, and one further.
    fn capacity_round(&mut self) {
        let head = self.head();
        if !self.enter_hardware(head) {
            return;
        }
        for _ in 0..self.random.between(1, 4) {
            match self.setup.board {
                Board::Stores => self.stores_to_the_edge(head),
                Board::Lines => self.lines_to_the_edge(head),
            }
            if self.now(head) == Now::Aborted && self.random.percent(50) {
                self.step(head, &CALM);
            }
            if self.enter(head) != Now::Hardware {
                break;
            }
        }
        for _ in 0..self.random.below(6) {
            self.step(head, &CALM);
        }
    }

    fn stores_to_the_edge(&mut self, head: usize) {
        // One cell over and over, or many.
        let many = self.random.pick(&[1, 2, 8, 40]).min(self.setup.cells);
        for _ in 0..self.random.between(26, 30) {
            let cell = self.random.below(many);
            self.write_to(head, cell);
            if self.random.percent(8) {
                self.read(head);
            }
            if self.now(head) != Now::Hardware {
                return;
            }
        }
        self.read(head);
        self.write(head);
        let end = self
            .random
            .pick(&[Action::Close, Action::Drop, Action::Jolt]);
        self.call(head, end);
    }

    fn lines_to_the_edge(&mut self, head: usize) {
        let lines = self.setup.cells.div_ceil(4);
        let mut lines: Vec<usize> = (0..lines).collect();
        self.random.shuffle(&mut lines);
        for many in 1..=lines.len().min(self.random.between(3, 4)) {
            for _ in 0..self.random.between(1, 6) {
                let line = match self.random.percent(50) {
                    true => lines[many - 1],
                    false => self.random.pick(&lines[..many]),
                };
                let cell = (4 * line + self.random.below(4)).min(self.setup.cells - 1);
                if self.random.percent(50) {
                    self.write_to(head, cell);
                } else {
                    self.call(head, Action::Read { cell: cell as u32 });
                }
                if self.now(head) != Now::Hardware {
                    return;
                }
            }
        }
        let end = self
            .random
            .pick(&[Action::Close, Action::Drop, Action::Jolt]);
        self.call(head, end);
    }

    fn full_round(&mut self) {
        if self.random.percent(55) {
            self.filling_round();
        } else {
            self.capacity_round();
        }
    }

    fn valid_round(&mut self, habits: &Habits) {
        let head = self.head();
        self.step(head, habits);
    }
}

// ---------------------------------------------------------------------------
// The kinds

fn board(random: &mut Random) -> Board {
    random.pick(&[Board::Stores, Board::Lines])
}

fn policy(random: &mut Random) -> Policy {
    random.pick(&[Policy::Plain, Policy::Careful])
}

fn habits(random: &mut Random) -> Habits {
    // With many jolts, heads get into software.
    let jolts = random.pick(&[5, 15, 40]);
    let mut share = |most: usize| random.below(most + 1);
    Habits {
        read: 10 + share(60),
        write: 10 + share(60),
        close: 2 + share(30),
        jolt: share(jolts),
        drop: share(8),
        wild: share(20),
        push: 20 + share(60),
    }
}

fn any_setup(random: &mut Random) -> Setup {
    let cells = match random.weighted(&[50, 30, 15, 5]) {
        0 => random.between(1, 8),
        1 => random.between(9, 40),
        2 => random.between(41, 200),
        _ => random.between(201, MAX_CELLS),
    };
    Setup {
        heads: random.between(1, MAX_HEADS),
        cells,
        board: board(random),
        policy: policy(random),
    }
}

fn contended_setup(random: &mut Random) -> Setup {
    let board = board(random);
    let most = match board {
        Board::Stores => 16,
        Board::Lines => 8,
    };
    Setup {
        heads: random.between(2, MAX_HEADS),
        cells: random.between(1, most),
        board,
        policy: policy(random),
    }
}

fn software_setup(random: &mut Random) -> Setup {
    let cells = match random.percent(80) {
        true => random.between(1, 8),
        false => random.between(9, 60),
    };
    Setup {
        heads: random.between(2, MAX_HEADS),
        cells,
        board: board(random),
        policy: policy(random),
    }
}

fn full_setup(random: &mut Random) -> Setup {
    let cells = match random.percent(90) {
        true => random.between(LOG + 1, 70),
        false => random.between(71, MAX_CELLS),
    };
    Setup {
        heads: random.between(1, 4),
        cells,
        board: board(random),
        policy: policy(random),
    }
}

/// The last line lacks its newline now and then.
fn finish(script: Script) -> Vec<u8> {
    let mut text = script.text;
    if script.random.percent(10) {
        text.pop();
    }
    text
}

fn valid(random: &mut Random) -> Vec<u8> {
    let setup = any_setup(random);
    let habits = habits(random);
    let most = random.pick(&[10, 60, 150, 400]);
    let calls = random.between(1, most);
    let mut script = Script::new(random, setup);
    script.sets(10);
    while script.calls < calls && !script.is_over() {
        script.valid_round(&habits);
    }
    finish(script)
}

fn contended(random: &mut Random) -> Vec<u8> {
    let setup = contended_setup(random);
    let calls = random.between(150, 900);
    let mut script = Script::new(random, setup);
    script.sets(6);
    while script.calls < calls && !script.is_over() {
        script.contended_round();
    }
    finish(script)
}

fn software(random: &mut Random) -> Vec<u8> {
    let setup = software_setup(random);
    let calls = random.between(60, 500);
    let mut script = Script::new(random, setup);
    script.sets(6);
    while script.calls < calls && !script.is_over() {
        script.software_round();
    }
    finish(script)
}

fn full(random: &mut Random) -> Vec<u8> {
    let setup = full_setup(random);
    let calls = random.between(60, 400);
    let mut script = Script::new(random, setup);
    script.sets(6);
    while script.calls < calls && !script.is_over() {
        script.full_round();
    }
    finish(script)
}

/// One of the kinds above, up to a length near the most that a text may have.
fn long(random: &mut Random) -> Vec<u8> {
    let style = random.below(4);
    let setup = match style {
        0 => any_setup(random),
        1 => contended_setup(random),
        2 => software_setup(random),
        _ => full_setup(random),
    };
    let habits = habits(random);
    let length = match random.weighted(&[40, 15, 20, 15, 10]) {
        0 => random.between(60_000, MAX_TEXT),
        1 => random.between(MAX_TEXT - 8, MAX_TEXT),
        2 => MAX_TEXT,
        3 => MAX_TEXT + 1,
        _ => random.between(MAX_TEXT + 2, MAX_TEXT + 5_000),
    };
    let has_last_newline = random.percent(70);
    let mut script = Script::new(random, setup);
    script.limit = length + usize::from(!has_last_newline);
    script.sets(40);
    while !script.is_over() {
        match style {
            0 => script.valid_round(&habits),
            1 => script.contended_round(),
            2 => script.software_round(),
            _ => script.full_round(),
        }
    }
    let mut text = pad(script);
    if !has_last_newline {
        text.pop();
    }
    text
}

/// Makes the text just as long as its limit by pushes and jolts, mostly of
/// heads that the rig does not have.
fn pad(script: Script) -> Vec<u8> {
    let mut text = script.text;
    loop {
        let left = script.limit - text.len();
        // A line of this kind has 4 to 13 bytes.
        let size = match left {
            0..4 => return text,
            4..8 => left,
            8..=13 if script.random.percent(50) => left,
            _ => script.random.between(4, (left - 4).min(13)),
        };
        text.extend([script.random.pick(b"pj"), b'\t']);
        text.push(script.random.pick(b"123"));
        text.extend((0..size - 4).map(|_| script.random.pick(b"0123456789")));
        text.push(b'\n');
    }
}

/// A scenario of another kind with a few places spoiled.
fn spoiled(random: &mut Random) -> Vec<u8> {
    let mut text = match random.weighted(&[30, 15, 15, 12, 4, 24]) {
        0 => valid(random),
        1 => contended(random),
        2 => software(random),
        3 => full(random),
        4 => long(random),
        _ => grammar(random),
    };
    for _ in 0..random.between(1, 4) {
        spoil(random, &mut text);
    }
    text
}

fn spoil(random: &mut Random, text: &mut Vec<u8>) {
    if text.is_empty() {
        return text.push(any_byte(random));
    }
    // In half of the cases near the front, where a text is understood first.
    let end = match random.percent(50) {
        true => text.len().min(80),
        false => text.len(),
    };
    let place = random.below(end);
    match random.below(13) {
        0 | 1 => text[place] = any_byte(random),
        2 | 3 => text.insert(place, any_byte(random)),
        4 => {
            text.remove(place);
        }
        5..=7 => {
            let mut lines = parts(text, b'\n');
            spoil_list(random, &mut lines);
            *text = lines.join(&b'\n');
        }
        8..=11 => {
            let mut lines = parts(text, b'\n');
            let index = text[..place].iter().filter(|&&byte| byte == b'\n').count();
            let mut fields = parts(&lines[index], b'\t');
            if random.percent(75) {
                spoil_list(random, &mut fields);
            } else {
                change_field(random, &mut fields);
            }
            lines[index] = fields.join(&b'\t');
            *text = lines.join(&b'\n');
        }
        _ if random.percent(50) => text.truncate(place),
        _ => {
            text.pop();
        }
    }
}

/// Drops, doubles, swaps or moves one of a list.
fn spoil_list(random: &mut Random, list: &mut Vec<Vec<u8>>) {
    let from = random.below(list.len());
    let to = random.below(list.len());
    match random.below(4) {
        0 => {
            list.remove(from);
        }
        1 => list.insert(to, list[from].clone()),
        2 => list.swap(from, to),
        _ => {
            let moved = list.remove(from);
            list.insert(to, moved);
        }
    }
}

/// Any byte; those that mean something are more likely.
fn any_byte(random: &mut Random) -> u8 {
    match random.weighted(&[20, 15, 20, 8, 15, 8, 14]) {
        0 => b'\t',
        1 => b'\n',
        2 => random.pick(b"0123456789"),
        3 => b'-',
        4 => random.pick(b"orwcpjadsetigRIGOxz"),
        5 => b'\r',
        _ => random.next() as u8,
    }
}

fn parts(text: &[u8], at: u8) -> Vec<Vec<u8>> {
    text.split(|&byte| byte == at).map(<[u8]>::to_vec).collect()
}

/// A line as its fields.
type Fields = Vec<Vec<u8>>;

fn fields(line: &str) -> Fields {
    parts(line.as_bytes(), b'\t')
}

/// Short texts with faults at their edges.
fn grammar(random: &mut Random) -> Vec<u8> {
    if random.percent(8) {
        return random.pick(&WHOLE_TEXTS).to_vec();
    }
    let mut lines = small_scenario(random);
    if random.percent(15) {
        change_size(random, &mut lines[0]);
    }
    let mut line = 0;
    for _ in 0..random.pick(&[0, 1, 1, 1, 1, 2, 2, 2, 3]) {
        // Often the same line again: two things are wrong on it then.
        if line >= lines.len() || random.percent(55) {
            line = match random.percent(20) {
                true => 0,
                false => random.below(lines.len()),
            };
        }
        match random.weighted(&[48, 8, 18, 16, 10]) {
            0 => change_field(random, &mut lines[line]),
            1 => lines[line][0] = random.pick(&WORDS).to_vec(),
            2 => change_count(random, &mut lines[line]),
            3 => line = misplace(random, &mut lines),
            _ => {
                let cell = random.pick(&SIZES);
                let amount = match random.percent(60) {
                    true => "1",
                    false => random.pick(&AMOUNTS),
                };
                lines.insert(1, fields(&format!("set\t{cell}\t{amount}")));
            }
        }
    }
    let newline: &[u8] = match random.percent(4) {
        true => b"\r\n",
        false => b"\n",
    };
    let lines: Vec<Vec<u8>> = lines.iter().map(|fields| fields.join(&b'\t')).collect();
    let mut text = lines.join(newline);
    if random.percent(80) {
        text.extend(newline);
    }
    text
}

fn small_scenario(random: &mut Random) -> Vec<Fields> {
    let setup = Setup {
        heads: random.pick(&[1, 2, 3, 8]),
        cells: random.pick(&[1, 2, 3, 5, 16, MAX_CELLS]),
        board: board(random),
        policy: policy(random),
    };
    let calls = random.pick(&[0, 1, 3, 6, 12]);
    let mut script = Script::new(random, setup);
    script.sets(3);
    while script.calls < calls {
        script.valid_round(&CALM);
    }
    script.text.pop();
    parts(&script.text, b'\n')
        .iter()
        .map(|line| parts(line, b'\t'))
        .collect()
}

/// Gives a rig line heads and cells at the edges.
fn change_size(random: &mut Random, rig: &mut Fields) {
    let heads = random.pick(&["0", "1", "8", "9", "4294967295"]);
    let cells = random.pick(&["0", "1", "1024", "1025", "4294967295"]);
    for (field, size) in [(1, heads), (2, cells)] {
        if random.percent(60)
            && let Some(field) = rig.get_mut(field)
        {
            *field = size.into();
        }
    }
}

/// Puts something at the edge of what is allowed into a field.
fn change_field(random: &mut Random, line: &mut Fields) {
    if line.len() < 2 {
        return line.push(random.pick(&NUMBERS).into());
    }
    let field = random.between(1, line.len() - 1);
    let word = line[0].as_slice();
    let with = match (word, field) {
        (b"rig", 3) => random.pick(&BOARDS),
        (b"rig", 4) => random.pick(&POLICIES),
        (b"set", 2) | (b"w", 3) => random.pick(&AMOUNTS),
        (b"rig", _) if random.percent(40) => return change_size(random, line),
        (b"set", 1) if random.percent(60) => random.pick(&SIZES),
        _ => random.pick(&NUMBERS),
    };
    line[field] = with.into();
}

/// Gives a line more or fewer fields.
fn change_count(random: &mut Random, line: &mut Fields) {
    match random.below(6) {
        0 => line.push(Vec::new()),
        1 => line.push(b"0".to_vec()),
        2 => line.push(b"plain".to_vec()),
        3 => line.insert(random.between(0, line.len()), b"1".to_vec()),
        4 if line.len() > 1 => {
            line.pop();
        }
        _ => line.truncate(1),
    }
}

/// Puts a line where it may not stand. Gives the number of that line.
fn misplace(random: &mut Random, lines: &mut Vec<Fields>) -> usize {
    let line = match random.below(8) {
        0 => fields("rig\t1\t1\tlines"),
        1 => fields("rig\tx"),
        2 => fields("set\t0\t1"),
        3 => fields("set\t1"),
        4 => fields("set\t9\t-0"),
        5 => fields(random.pick(&["", "\t", "\t\t", "\r", " ", "\0"])),
        6 => fields("o\t0"),
        _ => fields("o\t00\t"),
    };
    let at = match random.below(3) {
        0 => 0,
        1 => lines.len(),
        _ => random.between(0, lines.len()),
    };
    lines.insert(at, line);
    at
}

const WHOLE_TEXTS: [&[u8]; 32] = [
    b"",
    b"\n",
    b"\n\n",
    b"\t",
    b"\t\n",
    b"\r\n",
    b" ",
    b"\0",
    b"\xff",
    b"\xef\xbb\xbfrig\t1\t1\tlines\n",
    b"rig",
    b"rig\n",
    b"rig\t",
    b"rig\t\t",
    b"rig\t\t\t",
    b"rig\t\t\t\t",
    b"rig\t\t\t\t\t",
    b"rig\t1\t1\tlines",
    b"rig\t1\t1\tlines\n",
    b"rig\t1\t1\tlines\n\n",
    b"rig\t1\t1\tlines\n\t",
    b"rig\t1\t1\tlines\t",
    b"rig\t1\t1\tlines\r\n",
    b"rig\t1\t1\tstores\tplain\t\n",
    b"rig\t8\t1024\tstores\tcareful",
    b"rig\t9\t1025\tstores\tcareful",
    b"rig\t0\t0\tline\tcareful",
    b"\nrig\t1\t1\tlines\n",
    b"set\t0\t1\nrig\t1\t1\tlines\n",
    b"o\t0\n",
    b"o",
    b"rig 1 1 lines\n",
];

#[rustfmt::skip]
const WORDS: [&[u8]; 20] = [
    b"", b"RIG", b"Rig", b"rig ", b" rig", b"ri", b"rigg", b"SET", b"sets", b"se", b"O", b"oo",
    b"open", b"R", b"x", b"0", b"cell", b"fault", b"d\r", b"\xc3\xb6",
];

#[rustfmt::skip]
const NUMBERS: [&str; 30] = [
    "0", "1", "2", "7", "8", "9", "1023", "1024", "2147483648", "4294967295", "4294967296",
    "4294967297", "4294967300", "9999999999", "10000000000", "18446744073709551615",
    "18446744073709551616", "18446744073709551617", "00", "01", "0000000001", "-0", "-1", "+1",
    "1.0", "", " 1", "1\r", "0x1", "x",
];

#[rustfmt::skip]
const AMOUNTS: [&str; 34] = [
    "0", "1", "-1", "10", "-10", "2147483646", "2147483647", "2147483648", "-2147483647",
    "-2147483648", "-2147483649", "4294967295", "4294967296", "-4294967295", "-4294967296",
    "9999999999", "18446744073709551617", "-18446744073709551617", "00", "01", "-0", "-00", "-01",
    "-", "--1", "+1", "+0", "", " 1", "1-", "-1\r", "1.0", "-x", "\u{2212}1",
];

/// At the edges of the rigs that `small_scenario` makes.
const SIZES: [&str; 9] = ["1", "2", "3", "5", "15", "16", "1023", "1024", "4294967295"];

#[rustfmt::skip]
const BOARDS: [&str; 12] = [
    "stores", "lines", "Lines", "STORES", "line", "store", "lines ", "lines\r", "", "plain", "0",
    "liness",
];

#[rustfmt::skip]
const POLICIES: [&str; 11] = [
    "plain", "careful", "Plain", "CAREFUL", "careful ", "careful\r", "plai", "plainn", "",
    "lines", "0",
];
