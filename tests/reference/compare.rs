//! Runs two programs on many days and compares what they print, byte by byte.
//!
//! `compare ENGINE REFERENCE DIRECTORY SEED FIRST DAYS SECONDS` tries the days at every bound and one past it, then the
//! days FIRST to FIRST + DAYS - 1 of the seed, and stops early after SECONDS. Each day of a seed depends on the seed and
//! its number alone, so that a day can be made again. At the first difference the day stays in DIRECTORY, and the exit
//! status is 1.

mod days;

use days::bounds::bounds;
use days::seeded;
use std::collections::BTreeMap;
use std::fs::{self, File};
use std::io;
use std::path::{Path, PathBuf};
use std::process::{Command, ExitCode, Stdio};
use std::time::{Duration, Instant};

struct Task {
    engine: PathBuf,
    reference: PathBuf,
    directory: PathBuf,
    seed: u64,
    first: u64,
    days: u64,
    limit: Duration,
}

/// What a program prints for a day; one that fails is an error.
fn output(program: &Path, day: &Path) -> io::Result<Vec<u8>> {
    let run = Command::new(program).stdin(Stdio::from(File::open(day)?)).stderr(Stdio::inherit()).output()?;
    if !run.status.success() {
        return Err(io::Error::other(format!("{}: {} for {}", program.display(), run.status, day.display())));
    }
    Ok(run.stdout)
}

/// What the days showed, so that a reader sees what they reached.
#[derive(Default)]
struct Seen {
    days: u64,
    ended: u64,
    settled: u64,
    waiting: u64,
    causes: BTreeMap<u64, u64>,
}

impl Seen {
    fn add(&mut self, text: &[u8]) {
        self.days += 1;
        let text = String::from_utf8_lossy(text);
        for line in text.lines() {
            let words: Vec<&str> = line.split(' ').collect();
            let number = |at: usize| words.get(at).and_then(|word| word.parse::<u64>().ok()).unwrap_or(0);
            match words.as_slice() {
                ["refusal", ..] => {
                    *self.causes.entry(number(1)).or_default() += 1;
                    self.ended += u64::from(number(1) <= 8);
                }
                ["settled", _, "waiting", _] => {
                    self.settled += number(1);
                    self.waiting += number(3);
                }
                _ => (),
            }
        }
    }

    fn print(&self, seed: u64, at_bounds: u64) {
        println!(
            "{} days compared, {at_bounds} at bounds and past them and {} of seed {seed}: one text from both for each",
            self.days,
            self.days - at_bounds
        );
        println!("days ended by their form, sheet or roster: {}", self.ended);
        // Each pair stands in the statements of two members.
        println!("pairs: {} settled, {} waiting", self.settled / 2, self.waiting / 2);
        let causes: Vec<String> = self.causes.iter().map(|(cause, times)| format!("{cause} ({times})")).collect();
        println!("causes, with how often they were printed: {}", causes.join(", "));
    }
}

fn first_difference(engine: &[u8], reference: &[u8]) -> String {
    let lines = |text: &[u8]| -> Vec<String> { String::from_utf8_lossy(text).lines().map(str::to_string).collect() };
    let (engine, reference) = (lines(engine), lines(reference));
    let at = engine.iter().zip(&reference).take_while(|(a, b)| a == b).count();
    let line = |text: &[String]| text.get(at).cloned().unwrap_or("(the text ends)".to_string());
    format!("line {}\n  engine:    {}\n  reference: {}", at + 1, line(&engine), line(&reference))
}

impl Task {
    /// The text that both programs print for a day, or an error where they print two; the day is then kept.
    fn text(&self, name: &str, file: &[u8]) -> Result<Vec<u8>, Failure> {
        let day = self.directory.join(format!("{name}.day"));
        fs::write(&day, file)?;
        let engine = output(&self.engine, &day)?;
        let reference = output(&self.reference, &day)?;
        if engine != reference {
            let difference = first_difference(&engine, &reference);
            return Err(Failure::Different(format!("{} differs in {difference}", day.display())));
        }
        fs::remove_file(&day)?;
        Ok(engine)
    }

    /// The days at the bounds and one past them.
    fn compare_bounds(&self, seen: &mut Seen) -> Result<(), Failure> {
        for (number, [at, past]) in bounds().iter().enumerate() {
            let at = self.text(&format!("at-bound-{number}"), at)?;
            let past = self.text(&format!("past-bound-{number}"), past)?;
            if at == past {
                return Err(Failure::Different(format!("bound {number} is not met: one text at it and past it")));
            }
            seen.add(&at);
            seen.add(&past);
        }
        Ok(())
    }

    fn compare_seeded(&self, seen: &mut Seen) -> Result<(), Failure> {
        let begun = Instant::now();
        for number in self.first..self.first.saturating_add(self.days) {
            if begun.elapsed() > self.limit {
                println!("the time is over at day {number}");
                break;
            }
            let text = self.text(&format!("seed-{}-{number}", self.seed), &seeded(self.seed, number))?;
            seen.add(&text);
        }
        Ok(())
    }
}

/// Why a comparison ends early.
enum Failure {
    Different(String),
    Broken(io::Error),
}

impl From<io::Error> for Failure {
    fn from(error: io::Error) -> Failure {
        Failure::Broken(error)
    }
}

fn compare(task: &Task) -> Result<(), Failure> {
    let mut seen = Seen::default();
    task.compare_bounds(&mut seen)?;
    let at_bounds = seen.days;
    task.compare_seeded(&mut seen)?;
    seen.print(task.seed, at_bounds);
    Ok(())
}

fn task() -> Option<Task> {
    let mut given = std::env::args().skip(1);
    let mut paths = || given.next().map(PathBuf::from);
    let (engine, reference, directory) = (paths()?, paths()?, paths()?);
    let mut numbers = || given.next()?.parse().ok();
    let (seed, first, days, seconds) = (numbers()?, numbers()?, numbers()?, numbers()?);
    Some(Task { engine, reference, directory, seed, first, days, limit: Duration::from_secs(seconds) })
}

fn main() -> ExitCode {
    let Some(task) = task() else {
        eprintln!("compare ENGINE REFERENCE DIRECTORY SEED FIRST DAYS SECONDS");
        return ExitCode::from(2);
    };
    match compare(&task) {
        Ok(()) => ExitCode::SUCCESS,
        Err(Failure::Different(what)) => {
            eprintln!("{what}");
            ExitCode::FAILURE
        }
        Err(Failure::Broken(error)) => {
            eprintln!("{error}");
            ExitCode::from(2)
        }
    }
}
