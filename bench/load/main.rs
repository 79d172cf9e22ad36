//! A load generator for SFTP servers on standard streams. It speaks packets itself, checks every
//! reply, and prints the servers side by side as tables in Markdown:
//!
//!   load [--seconds S] [--files N] [--names N] [--only WORD] NAME=COMMAND..
//!
//! Each workload runs in five rounds, of S / 5 seconds or of one whole file, listing or directory
//! of new files where that takes longer, and the servers take turns from round to round, and so do
//! workloads that are to be compared with each other. A rate is the median round's.
//! Ratios are those of the first server to each other one. A server with `:` at the end of its
//! name keeps no tree: of its attributes and names only the form is checked.
//! The first wrong reply ends the run with status 1.
//!
//!   load shared ..
//!   load carry ..
//!
//! measure many sessions on one tree, and what carries bytes to and from a socket: see these
//! modules.

mod carry;
mod session;
mod shared;
mod wire;
mod workloads;

use session::Session;
use std::process::ExitCode;
use std::time::{Duration, Instant};
use wire::Outcome;
use workloads::{Row, Setting, Workload, ROWS};

const ROUNDS: u32 = 5;

struct Server {
    name: String,
    command: String,
    is_constant: bool,
}

struct Options {
    seconds: f64,
    files: usize,
    names: usize,
    only: String,
    servers: Vec<Server>,
}

/// What one server did with one workload.
struct Figure {
    /// Units a second.
    rate: f64,
    /// Microseconds of the server's processor time for one unit.
    processor: f64,
}

fn value<T: std::str::FromStr>(word: &str, words: &mut dyn Iterator<Item = String>) -> Outcome<T> {
    let text = words.next().ok_or(format!("{word} wants a value"))?;
    text.parse().map_err(|_| format!("{word}: {text} is no value"))
}

fn read_options(mut words: impl Iterator<Item = String>) -> Outcome<Options> {
    let mut options =
        Options { seconds: 3.0, files: 1000, names: 100_000, only: String::new(), servers: vec![] };
    while let Some(word) = words.next() {
        match word.as_str() {
            "--seconds" => options.seconds = value(&word, &mut words)?,
            "--files" => options.files = value(&word, &mut words)?,
            "--names" => options.names = value(&word, &mut words)?,
            "--only" => options.only = value(&word, &mut words)?,
            _ => {
                let (name, command) =
                    word.split_once('=').ok_or(format!("{word}: what is that?"))?;
                let is_constant = name.ends_with(':');
                let name = name.trim_end_matches(':').to_string();
                options.servers.push(Server { name, command: command.to_string(), is_constant });
            }
        }
    }
    if options.servers.is_empty() || options.files == 0 || options.names == 0 {
        return Err("a server, files and names are wanted".into());
    }
    Ok(options)
}

/// One workload on one server.
struct Lane {
    name: String,
    session: Session,
    workload: Box<dyn Workload>,
    rates: Vec<f64>,
    units: u64,
    processor_before: f64,
}

impl Lane {
    fn start(row: &Row, server: &Server, options: &Options) -> Outcome<Lane> {
        let name = format!("{}: {}", row.title, server.name);
        let (files, names) = (options.files, options.names);
        let begun = Instant::now();
        let mut session = Session::start(&server.command)?;
        let mut workload =
            (row.make)(Setting { files, names, is_constant: server.is_constant, number: 0 });
        workload.prepare(&mut session).map_err(|error| format!("{name}: {error}"))?;
        let processor_before = session.processor_seconds()?;
        eprintln!("{name}: prepared in {:.2} s", begun.elapsed().as_secs_f64());
        Ok(Lane { name, session, workload, rates: vec![], units: 0, processor_before })
    }

    fn round(&mut self, length: Duration) -> Outcome<()> {
        let begun = Instant::now();
        let units = self.workload.round(&mut self.session, begun + length);
        let units = units.map_err(|error| format!("{}: {error}", self.name))?;
        self.rates.push(units as f64 / begun.elapsed().as_secs_f64());
        self.units += units;
        Ok(())
    }

    fn finish(mut self, unit: f64) -> Outcome<Figure> {
        let seconds = self.session.processor_seconds()? - self.processor_before;
        self.session.end()?;
        self.rates.sort_by(f64::total_cmp);
        let rate = self.rates[self.rates.len() / 2] / unit;
        Ok(Figure { rate, processor: seconds * 1e6 / (self.units as f64 / unit) })
    }
}

/// The servers' figures for workloads that take turns.
fn measure<'a>(rows: &[&'a Row], options: &Options) -> Outcome<Vec<(&'a Row, Vec<Figure>)>> {
    let mut lanes = vec![];
    for row in rows {
        for server in &options.servers {
            lanes.push(Lane::start(row, server, options)?);
        }
    }
    let length = Duration::from_secs_f64(options.seconds / f64::from(ROUNDS));
    for _ in 0..ROUNDS {
        for lane in &mut lanes {
            lane.round(length)?;
        }
    }
    let mut measured = vec![];
    for row in rows {
        let own = lanes.drain(..options.servers.len());
        let figures: Outcome<_> = own.map(|lane| lane.finish(row.unit.size)).collect();
        measured.push((*row, figures?));
    }
    Ok(measured)
}

/// A number with two digits or more that mean something.
fn number(value: f64) -> String {
    let digits = if value > 0.0 { value.log10().floor() as i32 } else { 0 };
    format!("{value:.*}", (1 - digits).max(0) as usize)
}

fn print_line(title: &str, cells: impl Iterator<Item = String>) {
    println!("| {title} | {} |", cells.collect::<Vec<_>>().join(" | "));
}

fn print_head(title: &str, cells: Vec<String>) {
    println!();
    let rule = "---|".repeat(cells.len());
    print_line(title, cells.into_iter());
    println!("|---|{rule}");
}

/// Prints the first server's figures divided by each other one's.
fn print_ratios(options: &Options, rows: &[(&Row, Vec<Figure>)]) {
    let first = &options.servers[0].name;
    let heads = ["rate", "processor time"].iter().flat_map(|what| {
        options.servers[1..].iter().map(move |server| format!("{what}, {first} : {}", server.name))
    });
    print_head("Ratios", heads.collect());
    for (row, figures) in rows {
        let rates = figures[1..].iter().map(|other| figures[0].rate / other.rate);
        let times = figures[1..].iter().map(|other| figures[0].processor / other.processor);
        print_line(row.title, rates.chain(times).map(number));
    }
}

/// Prints one figure of each server.
fn print_figures(
    title: &str,
    options: &Options,
    rows: &[(&Row, Vec<Figure>)],
    pick: fn(&Figure) -> f64,
) {
    print_head(title, options.servers.iter().map(|server| server.name.clone()).collect());
    for (row, figures) in rows {
        let title = format!("{} ({})", row.title, row.unit.name);
        print_line(&title, figures.iter().map(pick).map(number));
    }
}

fn run(words: impl Iterator<Item = String>) -> Outcome<()> {
    let options = read_options(words)?;
    let wanted: Vec<&Row> = ROWS.iter().filter(|row| row.title.contains(&options.only)).collect();
    let mut rows = vec![];
    for together in wanted.chunk_by(|_, next| next.is_beside) {
        rows.extend(measure(together, &options)?);
    }
    println!(
        "{} files in the tree, {} names in a large directory, {} s for a cell",
        options.files, options.names, options.seconds
    );
    print_ratios(&options, &rows);
    print_figures("Units a second", &options, &rows, |figure| figure.rate);
    let title = "Processor time for a unit, in microseconds";
    print_figures(title, &options, &rows, |figure| figure.processor);
    Ok(())
}

fn main() -> ExitCode {
    let mut words = std::env::args().skip(1).peekable();
    let outcome = match words.peek().map(String::as_str) {
        Some("shared") => shared::run(words.skip(1)),
        Some("carry") => carry::run(words.skip(1)),
        _ => run(words),
    };
    match outcome {
        Ok(()) => ExitCode::SUCCESS,
        Err(error) => {
            eprintln!("load: {error}");
            ExitCode::FAILURE
        }
    }
}
