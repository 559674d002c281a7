//! Times two programs that print run sheets against each other, on the same
//! scenarios: `race TIMES FIRST SECOND FOLDER`. The scenarios are written into
//! the folder. Each run is a process of its own, the two take turns, and what
//! they print is thrown away, after it has been found to be the same once.

use std::error::Error;
use std::fmt::Write as _;
use std::fs::{self, File};
use std::path::{Path, PathBuf};
use std::process::{Command, ExitCode, Stdio};
use std::time::Instant;
use std::{env, iter};

use model::rig::LOG;
use model::scenario::MAX_TEXT;

type Fallible<T> = Result<T, Box<dyn Error>>;

fn main() -> ExitCode {
    let args: Vec<String> = env::args().skip(1).collect();
    let [times, first, second, folder] = args.as_slice() else {
        eprintln!("usage: race TIMES FIRST SECOND FOLDER");
        return ExitCode::from(2);
    };
    let Ok(times) = times.parse() else {
        eprintln!("race: TIMES is a number");
        return ExitCode::from(2);
    };
    match race(times, first, second, Path::new(folder)) {
        Ok(()) => ExitCode::SUCCESS,
        Err(error) => {
            eprintln!("race: {error}");
            ExitCode::FAILURE
        }
    }
}

fn race(times: usize, first: &str, second: &str, folder: &Path) -> Fallible<()> {
    println!("median of {times} runs, in milliseconds");
    println!(
        "{:<24}{:>8}{:>9}{:>9}{:>8}{:>16}",
        "scenario", "calls", "first", "second", "ratio", "calls a second"
    );
    for (name, text) in scenarios() {
        let calls = text.lines().count() - 1;
        let file = folder.join(name.replace(' ', "-") + ".scenario");
        fs::write(&file, text)?;
        if sheet(first, &file)? != sheet(second, &file)? {
            return Err(format!("the two do not agree on {}", file.display()).into());
        }
        let (one, other) = medians(times, first, second, &file)?;
        let rate = match calls {
            0 => "-".to_string(),
            _ => format!("{:.0}", calls as f64 / one * 1e3),
        };
        println!(
            "{name:<24}{calls:>8}{one:>9.3}{other:>9.3}{:>8.2}{rate:>16}",
            one / other
        );
    }
    Ok(())
}

fn sheet(program: &str, scenario: &PathBuf) -> Fallible<Vec<u8>> {
    let ran = Command::new(program)
        .stdin(File::open(scenario)?)
        .output()?;
    Ok(ran.stdout)
}

/// How long the two take, each in the middle of so many runs.
fn medians(times: usize, first: &str, second: &str, file: &PathBuf) -> Fallible<(f64, f64)> {
    let mut spent = [Vec::new(), Vec::new()];
    for _ in 0..times.max(1) {
        for (program, spent) in iter::zip([first, second], &mut spent) {
            spent.push(once(program, file)?);
        }
    }
    let [one, other] = spent.map(|mut spent| {
        spent.sort_by(f64::total_cmp);
        spent[spent.len() / 2]
    });
    Ok((one, other))
}

/// One run, in milliseconds.
fn once(program: &str, scenario: &PathBuf) -> Fallible<f64> {
    let input = File::open(scenario)?;
    let start = Instant::now();
    Command::new(program)
        .stdin(input)
        .stdout(Stdio::null())
        .status()?;
    Ok(start.elapsed().as_secs_f64() * 1e3)
}

// ---------------------------------------------------------------------------
// The scenarios

fn scenarios() -> [(&'static str, String); 4] {
    [
        ("start-up", Text::new(8, 64, "lines", "plain").0),
        ("contended", contended()),
        ("deep in software", deep()),
        ("wide in hardware", wide()),
    ]
}

/// A scenario in the making. A line that makes it too long is its end.
struct Text(String);

impl Text {
    fn new(heads: usize, cells: usize, board: &str, policy: &str) -> Text {
        Text(format!("rig\t{heads}\t{cells}\t{board}\t{policy}\n"))
    }

    /// Adds a line of these fields. None once there is no room for it.
    fn add(&mut self, letter: char, numbers: &[usize]) -> Option<()> {
        let before = self.0.len();
        self.0.push(letter);
        for number in numbers {
            let _ = write!(self.0, "\t{number}");
        }
        self.0.push('\n');
        if self.0.len() > MAX_TEXT {
            self.0.truncate(before);
            return None;
        }
        Some(())
    }

    /// A head opens, and three interrupts send it to software.
    fn open_in_software(&mut self, head: usize) -> Option<()> {
        self.add('o', &[head])?;
        for _ in 0..3 {
            self.add('j', &[head])?;
            self.add('a', &[head])?;
        }
        Some(())
    }
}

/// Eight heads read the same two cells and write one of their own, and now and
/// then the first of the two. Each makes its calls in turn, whatever it is in.
fn contended() -> String {
    let mut text = Text::new(8, 64, "lines", "plain");
    let mut turns = || {
        for turn in 0.. {
            for step in ['o', 'a', 'r', 's', 'w', 'c', 'p'] {
                for head in 0..8 {
                    let own = match (turn + head) % 8 {
                        0 => 0,
                        _ => 4 + head * 7 + turn % 7,
                    };
                    match step {
                        'r' => text.add('r', &[head, 0])?,
                        's' => text.add('r', &[head, 1])?,
                        'w' => text.add('w', &[head, own, turn])?,
                        _ => text.add(step, &[head])?,
                    }
                }
            }
        }
        Some(())
    };
    turns();
    text.0
}

/// Four heads fill their read logs in software, while a fifth commits in
/// hardware, so that every read has to validate what was read before.
fn deep() -> String {
    let mut text = Text::new(8, 1024, "stores", "plain");
    let mut turns = || {
        for turn in 0.. {
            for head in 0..4 {
                text.open_in_software(head)?;
            }
            for cell in 0..LOG {
                for head in 0..4 {
                    text.add('r', &[head, cell])?;
                }
                if cell % 4 == 0 {
                    text.add('o', &[5])?;
                    text.add('w', &[5, 100 + cell, turn])?;
                    text.add('c', &[5])?;
                }
            }
            for head in 0..4 {
                text.add('d', &[head])?;
            }
        }
        Some(())
    };
    turns();
    text.0
}

/// Eight heads in hardware, each with 28 cells in both of its logs.
fn wide() -> String {
    let mut text = Text::new(8, 1024, "stores", "careful");
    let mut turns = || {
        for turn in 0.. {
            for head in 0..8 {
                text.add('o', &[head])?;
            }
            for place in 0..28 {
                for head in 0..8 {
                    let cell = 100 * head + 3 * place;
                    text.add('r', &[head, cell])?;
                    text.add('w', &[head, cell, turn + place])?;
                }
            }
            for head in 0..8 {
                text.add('c', &[head])?;
            }
        }
        Some(())
    };
    turns();
    text.0
}
