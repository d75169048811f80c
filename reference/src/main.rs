//! The command: see README.md.

use std::fs;
use std::io::{self, BufReader, BufWriter, Read, Write};
use std::process::ExitCode;

use reference::cases::{self, Case};
use reference::check::check;
use reference::coverage::Coverage;
use reference::file::MOST_BYTES;
use reference::random::{self, Sort};
use reference::{explain, services, text};

const USAGE: &str = "usage:
  reference report  < FILE             what the report program prints
  reference cases   < BATCH            rows, statements and report of each case
  reference check   < BATCH            first breach of 1 to 12, or 0, of each case
  reference encode  < TEXT > FILE      the file of a text
  reference explain < FILE             the text of a file, and what became of it
  reference random SEED [SORT] > FILE
  reference random-batch COUNT SEED [SORT] > BATCH
                                       cases of the seeds SEED, SEED + 1, ...
  reference batch TABLE SPACE FILE... > BATCH
  reference pick N < BATCH > FILE      the file of case N
  reference coverage COUNT SEED [SORT] what the files of those seeds bring up
SORT is any, small, twice, spliced or cut";

/// What went wrong, and the exit status that says so.
enum Failure {
    /// Standard input, or a file, is not what it should be.
    Input(String),
    /// The command is not what it should be.
    Usage(String),
    /// Nobody reads the output any more.
    Closed,
}

impl From<String> for Failure {
    fn from(error: String) -> Failure {
        Failure::Input(error)
    }
}

fn main() -> ExitCode {
    let arguments: Vec<String> = std::env::args().skip(1).collect();
    let words: Vec<&str> = arguments.iter().map(String::as_str).collect();
    let mut output = BufWriter::new(io::stdout().lock());
    let outcome = run(&words, &mut output).and_then(|()| output.flush().map_err(unwritten));
    match outcome {
        Ok(()) | Err(Failure::Closed) => ExitCode::SUCCESS,
        Err(Failure::Input(error)) => {
            eprintln!("reference: {error}");
            ExitCode::from(1)
        }
        Err(Failure::Usage(error)) => {
            eprintln!("reference: {error}\n{USAGE}");
            ExitCode::from(2)
        }
    }
}

fn run(words: &[&str], output: &mut impl Write) -> Result<(), Failure> {
    let mut put = |bytes: &[u8]| output.write_all(bytes).map_err(unwritten);
    match words {
        ["report"] => put(&services::report_program(&file_input()?)),
        ["cases"] => each_case(|place, case| put(cases::lines(place, &case).as_bytes())),
        ["check"] => each_case(|_, case| put(format!("{}\n", check(&case.file)).as_bytes())),
        ["encode"] => put(&text::parse(&text_input()?)?.to_bytes()),
        ["explain"] => put(explain::explain(&file_input()?).as_bytes()),
        ["random", seed, sort @ ..] => put(&random::file(sort_of(sort)?, number(seed)?)),
        ["random-batch", count, seed, sort @ ..] => {
            let sort = sort_of(sort)?;
            each_seed(count, seed, |seed| put(&cases::write_case(&random::case(sort, seed))))
        }
        ["batch", entries, space, files @ ..] => {
            let (entries, space) = (number(entries)?, number(space)?);
            files.iter().try_for_each(|path| put(&case_of(path, entries, space)?))
        }
        ["pick", wanted] => put(&pick(number(wanted)?)?),
        ["coverage", count, seed, sort @ ..] => {
            let sort = sort_of(sort)?;
            let mut coverage = Coverage::default();
            each_seed(count, seed, |seed| {
                coverage.note(&random::file(sort, seed));
                Ok(())
            })?;
            put(coverage.lines().as_bytes())
        }
        [] => Err(Failure::Usage("no command".into())),
        _ => Err(Failure::Usage(format!("no such command: {}", words.join(" ")))),
    }
}

fn unwritten(error: io::Error) -> Failure {
    match error.kind() {
        io::ErrorKind::BrokenPipe => Failure::Closed,
        _ => Failure::Input(error.to_string()),
    }
}

fn number<T: std::str::FromStr>(word: &str) -> Result<T, Failure> {
    word.parse().map_err(|_| Failure::Usage(format!("not a number here: {word}")))
}

fn sort_of(words: &[&str]) -> Result<Sort, Failure> {
    let name = words.first().unwrap_or(&"any");
    match Sort::ALL.iter().find(|(known, _)| known == name) {
        Some((_, sort)) if words.len() < 2 => Ok(*sort),
        _ => Err(Failure::Usage(format!("no such sort: {}", words.join(" ")))),
    }
}

fn text_input() -> Result<String, Failure> {
    let mut text = String::new();
    io::stdin().read_to_string(&mut text).map_err(|error| error.to_string())?;
    Ok(text)
}

/// A file on standard input. Of one over 65,536 bytes, the first byte too many
/// is enough to refuse it, and the rest is passed over.
fn file_input() -> Result<Vec<u8>, Failure> {
    let mut bytes = Vec::new();
    let mut input = io::stdin().lock();
    let read = input.by_ref().take(MOST_BYTES as u64 + 1).read_to_end(&mut bytes);
    let read = read.and_then(|_| io::copy(&mut input, &mut io::sink()));
    read.map_err(|error| error.to_string())?;
    Ok(bytes)
}

/// Does something with every case of the batch on standard input.
fn each_case(mut act: impl FnMut(usize, Case) -> Result<(), Failure>) -> Result<(), Failure> {
    let mut batch = BufReader::new(io::stdin().lock());
    let mut place = 0;
    loop {
        let case = cases::read_case(&mut batch);
        match case.map_err(|error| format!("case {place}: {error}"))? {
            Some(case) => act(place, case)?,
            None => return Ok(()),
        }
        place += 1;
    }
}

/// Does something with that many seeds, from the given one on.
fn each_seed(
    count: &str,
    seed: &str,
    act: impl FnMut(u64) -> Result<(), Failure>,
) -> Result<(), Failure> {
    let (count, seed): (u64, u64) = (number(count)?, number(seed)?);
    (0..count).map(|place| seed.wrapping_add(place)).try_for_each(act)
}

/// A file of its own as a case in a batch.
fn case_of(path: &str, entries: u32, space: u32) -> Result<Vec<u8>, Failure> {
    let file = fs::read(path).map_err(|error| format!("{path}: {error}"))?;
    Ok(cases::write_case(&Case { file, entries, space }))
}

fn pick(wanted: usize) -> Result<Vec<u8>, Failure> {
    let mut picked = None;
    let mut count = 0;
    each_case(|place, case| {
        count = place + 1;
        if place == wanted {
            picked = Some(case.file);
        }
        Ok(())
    })?;
    picked.ok_or_else(|| Failure::Input(format!("no case {wanted} among {count}")))
}
