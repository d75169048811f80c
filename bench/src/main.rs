//! Measures the report services.
//!
//!     bench time ROUNDS          each file of `inputs::all`: best and median
//!     bench growth ROUNDS        the same of `inputs::growth`, without the second
//!     bench once SERVICE FILE [CALLS]
//!                                one call or some, for callgrind and perf
//!     bench stack                the bytes of stack that a call takes
//!     bench files                the files: name, bytes, answer, what they are
//!
//! All services get the same file and the same space of 65,536 bytes. In each
//! round each service is called in turn, so often that a turn takes a
//! millisecond; the figures are nanoseconds a call, over the rounds.

use std::env;
use std::process::exit;
use std::time::Instant;

use bench::{call, inputs, stack, Service, SERVICES};

/// What a turn takes, at least.
const TURN: u128 = 1_000_000;
/// The second implementation is slow: it has a turn of as many rounds as go in
/// this time, or three.
const MOST_OF_SECOND: u128 = 1_000_000_000;

struct Measured {
    best: u128,
    median: u128,
}

/// One of the services, with how it is measured on a file.
struct Runner {
    service: Service,
    calls: u128,
    rounds: usize,
    times: Vec<u128>,
}

impl Runner {
    fn new(name: &str, service: Service, file: &[u8], space: &mut [u8], rounds: usize) -> Runner {
        let mut runner = Runner { service, calls: 1, rounds, times: Vec::new() };
        // once to have all at hand, and once to see how long it takes
        runner.turn(file, space);
        let one = runner.turn(file, space).max(1);
        runner.calls = (TURN / one).max(1);
        if name == "second" {
            let turns = MOST_OF_SECOND / (one * runner.calls);
            runner.rounds = rounds.min((turns as usize).max(3));
        }
        runner
    }

    fn turn(&self, file: &[u8], space: &mut [u8]) -> u128 {
        let start = Instant::now();
        for _ in 0..self.calls {
            std::hint::black_box(call(self.service, std::hint::black_box(file), space));
        }
        start.elapsed().as_nanos() / self.calls
    }

    fn measured(mut self) -> Measured {
        self.times.sort_unstable();
        Measured { best: self.times[0], median: self.times[self.times.len() / 2] }
    }
}

fn measure(services: &[(&str, Service)], file: &[u8], rounds: usize) -> Vec<Measured> {
    let mut space = vec![0; 65_536];
    let new =
        |(name, service): &(&str, Service)| Runner::new(name, *service, file, &mut space, rounds);
    let mut runners: Vec<Runner> = services.iter().map(new).collect();
    for round in 0..rounds {
        for runner in runners.iter_mut().filter(|runner| round < runner.rounds) {
            let time = runner.turn(file, &mut space);
            runner.times.push(time);
        }
    }
    runners.into_iter().map(Runner::measured).collect()
}

/// The services must agree before anything is measured.
fn agree(name: &str, file: &[u8]) -> u64 {
    let mut answers = Vec::new();
    for (_, service) in SERVICES {
        let mut space = vec![0x80; 65_536];
        answers.push((call(service, file, &mut space), space));
    }
    if env::var("BENCH_PARTED").is_err() && answers.iter().any(|other| *other != answers[0]) {
        let numbers: Vec<u64> = answers.iter().map(|answer| answer.0).collect();
        eprintln!("bench: {name}: the services part: {numbers:?}");
        exit(1);
    }
    answers[1].0
}

fn line(name: &str, measured: &[Measured]) {
    let figures = measured.iter().map(|one| format!("\t{}\t{}", one.best, one.median));
    println!("{name}{}", figures.collect::<String>());
}

fn once(service: &str, name: &str, calls: usize) {
    let found = SERVICES.iter().find(|(known, _)| *known == service);
    let named = inputs::all().into_iter().map(|(known, _, file)| (known.to_string(), file));
    let grown = inputs::growth();
    let grown = grown.into_iter().map(|(what, count, file)| (format!("{what}-{count}"), file));
    let file = named.chain(grown).find(|(known, _)| known == name);
    let (Some((_, service)), Some((_, file))) = (found, file) else {
        eprintln!("bench: no such service or file: {service} {name}");
        exit(2);
    };
    let mut space = vec![0; 65_536];
    for _ in 1..calls {
        call(*service, &file, &mut space);
    }
    println!("{}", call(*service, &file, &mut space));
}

fn main() {
    let words: Vec<String> = env::args().skip(1).collect();
    let words: Vec<&str> = words.iter().map(String::as_str).collect();
    match words[..] {
        ["time", rounds] => {
            for (name, _, file) in inputs::all() {
                agree(name, &file);
                line(name, &measure(&SERVICES, &file, rounds.parse().expect("a number")));
            }
        }
        ["growth", rounds] => {
            for (what, count, file) in inputs::growth() {
                let name = format!("{what}-{count}");
                agree(&name, &file);
                line(&name, &measure(&SERVICES[..2], &file, rounds.parse().expect("a number")));
            }
        }
        ["stack"] => {
            let mut space = vec![0; 65_536];
            for (name, _, file) in inputs::all() {
                let taken = |(_, service): &(&str, Service)| {
                    format!("\t{}", stack::taken(*service, &file, &mut space))
                };
                println!("{name}{}", SERVICES.iter().map(taken).collect::<String>());
            }
        }
        ["files"] => {
            for (name, words, file) in inputs::all() {
                println!("{name}\t{}\t{}\t{words}", file.len(), agree(name, &file));
            }
        }
        ["once", service, name] => once(service, name, 1),
        ["once", service, name, calls] => once(service, name, calls.parse().expect("a number")),
        _ => {
            eprintln!(
                "usage: bench time ROUNDS | growth ROUNDS | stack | files | once SERVICE FILE [CALLS]"
            );
            exit(2);
        }
    }
}
