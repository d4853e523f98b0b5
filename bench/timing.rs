//! Times `bookrun` beside the plain Rust program, after seeing that they print the same.
//!
//!     timing BOOKRUN PLAIN FOLDER ROUNDS
//!
//! A run is one process, from its start to its end, with the page as its standard input.
//! The programs take turns within every round, so that whatever else the machine does
//! falls on all of them. The empty page shows what starting costs, to be subtracted.

use std::env;
use std::fs::{self, File};
use std::path::{Path, PathBuf};
use std::process::{Command, ExitCode, Stdio};
use std::time::{Duration, Instant};

type Trouble = Box<dyn std::error::Error>;

/// A program that runs pages, with its arguments.
struct Runner {
    program: PathBuf,
    arguments: &'static [&'static str],
}

impl Runner {
    fn command(&self, page: &Path) -> Result<Command, Trouble> {
        let mut command = Command::new(&self.program);
        command.args(self.arguments).stdin(File::open(page)?);
        Ok(command)
    }

    fn output(&self, page: &Path) -> Result<Vec<u8>, Trouble> {
        let output = self.command(page)?.output()?;
        if !output.status.success() {
            return Err(format!("{} ended with {}", self.program.display(), output.status).into());
        }
        Ok(output.stdout)
    }

    fn time(&self, page: &Path) -> Result<Duration, Trouble> {
        let mut command = self.command(page)?;
        command.stdout(Stdio::null());
        let start = Instant::now();
        command.status()?;
        Ok(start.elapsed())
    }
}

/// The times of one program on one page.
#[derive(Default)]
struct Times(Vec<Duration>);

impl Times {
    fn least(&self) -> f64 {
        self.0.iter().min().map_or(0.0, milliseconds)
    }

    fn median(&self) -> f64 {
        let mut sorted = self.0.clone();
        sorted.sort();
        sorted.get(sorted.len() / 2).map_or(0.0, milliseconds)
    }
}

fn milliseconds(time: &Duration) -> f64 {
    time.as_secs_f64() * 1_000.0
}

/// A page, with how often it runs in a round: short runs need more of them.
struct Page {
    name: &'static str,
    path: PathBuf,
    repeats: usize,
}

struct Bench {
    runners: [Runner; 3],
    pages: [Page; 4],
}

/// The places of the runners in `Bench::runners`.
const BOOKRUN: usize = 0;
const PLAIN: usize = 1;
const SLOW_VOTE: usize = 2;

/// The place of the empty page in `Bench::pages`.
const EMPTY: usize = 0;

/// For each page, the times of each runner.
type Table = [[Times; 3]; 4];

impl Bench {
    fn new(bookrun: &str, plain: &str, folder: &str) -> Bench {
        let runner = |program: &str, arguments| Runner {
            program: program.into(),
            arguments,
        };
        let page = |name, repeats| Page {
            name,
            path: Path::new(folder).join(name),
            repeats,
        };
        Bench {
            runners: [
                runner(bookrun, &[]),
                runner(plain, &[]),
                runner(plain, &["--slow-vote"]),
            ],
            pages: [
                page("empty", 5),
                page("hot", 5),
                page("votes", 1),
                page("mixed", 5),
            ],
        }
    }

    /// The slow vote is of interest only where there are many votes.
    fn is_timed(page: &Page, runner: usize) -> bool {
        runner != SLOW_VOTE || page.name == "votes"
    }

    fn check_agreement(&self) -> Result<(), Trouble> {
        for page in &self.pages {
            let expected = self.runners[PLAIN].output(&page.path)?;
            for runner in &self.runners {
                if runner.output(&page.path)? != expected {
                    let program = runner.program.display();
                    return Err(format!("{program} prints something else on {}", page.name).into());
                }
            }
            let (bytes, lines) = (fs::metadata(&page.path)?.len(), count_lines(&expected));
            println!(
                "{:<6} {bytes:>6} bytes {lines:>6} records, all print the same",
                page.name
            );
        }
        Ok(())
    }

    fn measure(&self, rounds: usize) -> Result<Table, Trouble> {
        let mut table = Table::default();
        for round in 0..rounds {
            for (page, row) in self.pages.iter().zip(&mut table) {
                for turn in 0..page.repeats * self.runners.len() {
                    // Each round begins with another program.
                    let runner = (round + turn) % self.runners.len();
                    if Bench::is_timed(page, runner) {
                        row[runner].0.push(self.runners[runner].time(&page.path)?);
                    }
                }
            }
        }
        Ok(table)
    }

    fn print(&self, table: &Table) {
        println!();
        println!("            least of all runs          less the empty page        median");
        println!("page     bookrun    plain  ratio    bookrun    plain  ratio       ratio");
        let start = &table[EMPTY];
        for (at, (page, row)) in self.pages.iter().zip(table).enumerate() {
            let (bookrun, plain) = (row[BOOKRUN].least(), row[PLAIN].least());
            print!("{:<6} {} ", page.name, columns(bookrun, plain));
            if at == EMPTY {
                print!("{:>27}", "");
            } else {
                print!(
                    "{} ",
                    columns(
                        bookrun - start[BOOKRUN].least(),
                        plain - start[PLAIN].least()
                    )
                );
            }
            println!("{:>11.2}", row[BOOKRUN].median() / row[PLAIN].median());
        }
        self.print_slow_vote(table);
    }

    fn print_slow_vote(&self, table: &Table) {
        for (page, row) in self.pages.iter().zip(table) {
            if Bench::is_timed(page, SLOW_VOTE) {
                let slow = row[SLOW_VOTE].least() - table[EMPTY][PLAIN].least();
                let plain = row[PLAIN].least() - table[EMPTY][PLAIN].least();
                let bookrun = row[BOOKRUN].least() - table[EMPTY][BOOKRUN].least();
                println!();
                println!(
                    "{}, choice after choice in plain Rust: {slow:.3} ms, which is",
                    page.name
                );
                println!(
                    "{:.2} times plain and {:.2} times bookrun",
                    slow / plain,
                    slow / bookrun
                );
            }
        }
        println!("(times in milliseconds, whole processes; less the empty page where told)");
    }
}

fn columns(bookrun: f64, plain: f64) -> String {
    format!("{bookrun:>9.3} {plain:>8.3} {:>6.2}", bookrun / plain)
}

fn count_lines(text: &[u8]) -> usize {
    text.iter().filter(|&&byte| byte == b'\n').count()
}

fn bench(arguments: &[String]) -> Result<(), Trouble> {
    let [bookrun, plain, folder, rounds] = arguments else {
        return Err("timing BOOKRUN PLAIN FOLDER ROUNDS".into());
    };
    let bench = Bench::new(bookrun, plain, folder);
    bench.check_agreement()?;
    let table = bench.measure(rounds.parse()?)?;
    bench.print(&table);
    Ok(())
}

fn main() -> ExitCode {
    let arguments: Vec<String> = env::args().skip(1).collect();
    match bench(&arguments) {
        Ok(()) => ExitCode::SUCCESS,
        Err(trouble) => {
            eprintln!("{trouble}");
            ExitCode::FAILURE
        }
    }
}
