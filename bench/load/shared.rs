//! Many sessions at once on one tree, each with a thread of the generator's own:
//!
//!   load shared [--seconds S] [--files N] [--names N] [--folder PATH] [--only WORD] NAME=COMMAND..
//!
//! A command is a program and its words, split at spaces. A server with `@` at the end of its name
//! listens on the Unix socket whose path stands for `{}`, and keeps one tree. One with `{}` and no
//! `@` has a process for each session, over a pair of sockets, and the tree is the folder that
//! stands for `{}`. Another one has a process and a tree for each session, so it is measured with
//! one session alone; or with many, where it keeps no tree and its name ends with `:`. What is
//! measured are stats, changes, renames, data and sessions, or of these alone what has the word.
//!
//! Ratios are those of the first server to each other one. Rounds are those of the other workloads.

use crate::session::{processor_seconds, Session};
use crate::wire::Outcome;
use crate::workloads::{
    MakeDirectories, MakeFiles, MoveDirectory, ReadFile, Rename, Setting, Stat, StatMoving,
    Workload, WriteFile,
};
use crate::{number, print_head, print_line, value, ROUNDS};
use std::process::{Child, Command};
use std::sync::atomic::{AtomicU64, Ordering};
use std::thread;
use std::time::{Duration, Instant};

/// How many clients open sessions at once, how many sessions they open in a round, and how many
/// calls each makes.
const CLIENTS: u64 = 16;
const OPENED: u64 = 1000;
const CALLS: usize = 10;

#[derive(Clone, Copy, PartialEq, Eq)]
enum Kind {
    Listens,
    Shares,
    Alone,
    Constant,
}

struct Server {
    name: String,
    command: String,
    kind: Kind,
}

struct Options {
    seconds: f64,
    files: usize,
    names: usize,
    folder: String,
    only: String,
    servers: Vec<Server>,
}

fn read_server(word: &str) -> Outcome<Server> {
    let (name, command) = word.split_once('=').ok_or(format!("{word}: what is that?"))?;
    let kind = match name.chars().last() {
        Some('@') => Kind::Listens,
        Some(':') => Kind::Constant,
        _ if command.contains("{}") => Kind::Shares,
        _ => Kind::Alone,
    };
    let name = name.trim_end_matches(['@', ':']).to_string();
    Ok(Server { name, command: command.to_string(), kind })
}

fn read_options(mut words: impl Iterator<Item = String>) -> Outcome<Options> {
    let mut options = Options {
        seconds: 3.0,
        files: 1000,
        names: 1000,
        folder: "/tmp".into(),
        only: String::new(),
        servers: vec![],
    };
    while let Some(word) = words.next() {
        match word.as_str() {
            "--seconds" => options.seconds = value(&word, &mut words)?,
            "--files" => options.files = value(&word, &mut words)?,
            "--names" => options.names = value(&word, &mut words)?,
            "--folder" => options.folder = value(&word, &mut words)?,
            "--only" => options.only = value(&word, &mut words)?,
            _ => options.servers.push(read_server(&word)?),
        }
    }
    if options.servers.is_empty() || options.files == 0 || options.names == 0 {
        return Err("a server, files and names are wanted".into());
    }
    Ok(options)
}

/// A server's tree.
struct Tree {
    /// The command, with the tree's place.
    command: String,
    place: String,
    kind: Kind,
    /// The process that serves all sessions, where there is one.
    listener: Option<Child>,
}

impl Tree {
    /// Makes the tree at a place of its own.
    fn start(server: &Server, place: String) -> Outcome<Tree> {
        let command = server.command.replace("{}", &place);
        let mut tree = Tree { command, place, kind: server.kind, listener: None };
        match server.kind {
            Kind::Listens => tree.listen()?,
            Kind::Shares => std::fs::create_dir(&tree.place)
                .map_err(|error| format!("{}: {error}", tree.place))?,
            Kind::Alone | Kind::Constant => {}
        }
        Ok(tree)
    }

    fn words(&self) -> Vec<&str> {
        self.command.split_whitespace().collect()
    }

    /// Starts the process that serves all sessions, and waits until it listens.
    fn listen(&mut self) -> Outcome<()> {
        let words = self.words();
        let child = Command::new(words[0]).args(&words[1..]).spawn();
        self.listener = Some(child.map_err(|error| format!("{}: {error}", self.command))?);
        for _ in 0..1000 {
            if std::fs::exists(&self.place).unwrap_or(false) {
                return Ok(());
            }
            thread::sleep(Duration::from_millis(10));
        }
        Err(format!("{}: it doesn't listen", self.command))
    }

    fn open(&self) -> Outcome<Session> {
        match self.kind {
            Kind::Listens => Session::connect(&self.place),
            _ => Session::spawn(&self.words()),
        }
        .map_err(|error| format!("{}: {error}", self.command))
    }

    /// The processor time so far of the process that serves all sessions, in seconds.
    fn processor_seconds(&self) -> Outcome<f64> {
        self.listener.as_ref().map_or(Ok(0.0), |child| processor_seconds(child.id()))
    }
}

impl Drop for Tree {
    fn drop(&mut self) {
        if let Some(child) = &mut self.listener {
            let _ = child.kill().and_then(|()| child.wait());
            let _ = std::fs::remove_file(&self.place);
        }
    }
}

/// Sessions at once, each with its workload. The first one's units are counted apart from those of
/// the others.
struct Row {
    title: &'static str,
    sessions: u64,
    make: fn(Setting) -> Box<dyn Workload>,
}

const fn row(title: &'static str, sessions: u64, make: fn(Setting) -> Box<dyn Workload>) -> Row {
    Row { title, sessions, make }
}

const STATS: [Row; 4] = [
    row("1 session", 1, |setting| Stat::new(setting, 64)),
    row("2 sessions", 2, |setting| Stat::new(setting, 64)),
    row("4 sessions", 4, |setting| Stat::new(setting, 64)),
    row("8 sessions", 8, |setting| Stat::new(setting, 64)),
];

const STATS_ALONE: [Row; 2] = [
    row("1 session", 1, |setting| Stat::new(setting, 1)),
    row("8 sessions", 8, |setting| Stat::new(setting, 1)),
];

const CHANGES: [Row; 4] = [
    row("MKDIR and RMDIR, 1 session", 1, |setting| MakeDirectories::new(setting, 1)),
    row("MKDIR and RMDIR, 8 sessions", 8, |setting| MakeDirectories::new(setting, 1)),
    row("open, close and remove, 1 session", 1, |setting| MakeFiles::new(setting, 1)),
    row("open, close and remove, 8 sessions", 8, |setting| MakeFiles::new(setting, 1)),
];

const DATA: [Row; 4] = [
    row("WRITE of 32768 bytes, 1 session", 1, WriteFile::new),
    row("WRITE of 32768 bytes, 8 sessions", 8, WriteFile::new),
    row("READ of 32768 bytes, 1 session", 1, |_| ReadFile::new()),
    row("READ of 32768 bytes, 8 sessions", 8, |_| ReadFile::new()),
];

const RENAMES: [Row; 4] = [
    row("one at a time, nobody beside", 1, |setting| rename(setting, 1)),
    row("64 sent ahead, nobody beside", 1, |setting| rename(setting, 64)),
    row("one at a time, 7 sessions of STAT beside", 8, |setting| rename(setting, 1)),
    row("64 sent ahead, 7 sessions of STAT beside", 8, |setting| rename(setting, 64)),
];

/// The first session renames the directory, and the others ask for what is below it.
fn rename(setting: Setting, ahead: usize) -> Box<dyn Workload> {
    match setting.number {
        0 => MoveDirectory::new(setting, Rename::Posix, ahead),
        _ => StatMoving::new(setting),
    }
}

/// What one server did. Rates are in units a second.
#[derive(Clone, Copy)]
struct Figure {
    first: f64,
    others: f64,
    /// Microseconds of the servers' processor time for one unit.
    processor: f64,
}

/// Sessions of one row on one server's tree.
struct Lane {
    name: String,
    tree: Tree,
    sessions: Vec<(Session, Box<dyn Workload>)>,
    rounds: Vec<(f64, f64)>,
    units: u64,
    processor_before: f64,
}

impl Lane {
    fn start(row: &Row, server: &Server, options: &Options, place: String) -> Outcome<Lane> {
        let name = format!("{}: {}", row.title, server.name);
        let tree = Tree::start(server, place)?;
        let mut sessions = vec![];
        for number in 0..row.sessions {
            let mut session = tree.open()?;
            let mut workload = (row.make)(setting(server, options, number));
            if number == 0 {
                workload.prepare(&mut session).map_err(|error| format!("{name}: {error}"))?;
            }
            sessions.push((session, workload));
        }
        let mut lane =
            Lane { name, tree, sessions, rounds: vec![], units: 0, processor_before: 0.0 };
        lane.processor_before = lane.processor_seconds()?;
        eprintln!("{}: prepared", lane.name);
        Ok(lane)
    }

    fn processor_seconds(&self) -> Outcome<f64> {
        let mut sum = self.tree.processor_seconds()?;
        for (session, _) in &self.sessions {
            sum += session.processor_seconds()?;
        }
        Ok(sum)
    }

    fn round(&mut self, length: Duration) -> Outcome<()> {
        let begun = Instant::now();
        let until = begun + length;
        let work = |(session, workload): &mut (Session, Box<dyn Workload>)| {
            workload.round(session, until).map(|units| (units, begun.elapsed().as_secs_f64()))
        };
        let done: Outcome<Vec<(u64, f64)>> = thread::scope(|scope| {
            let threads: Vec<_> =
                self.sessions.iter_mut().map(|pair| scope.spawn(move || work(pair))).collect();
            threads
                .into_iter()
                .map(|thread| thread.join().unwrap_or(Err("a panic".into())))
                .collect()
        });
        let done = done.map_err(|error| format!("{}: {error}", self.name))?;
        let rates: Vec<f64> = done.iter().map(|(units, seconds)| *units as f64 / seconds).collect();
        self.rounds.push((rates[0], rates[1..].iter().sum()));
        self.units += done.iter().map(|(units, _)| units).sum::<u64>();
        Ok(())
    }

    /// The figure of the median round of the first session and of the others, each.
    fn finish(mut self) -> Outcome<Figure> {
        let seconds = self.processor_seconds()? - self.processor_before;
        for (session, _) in self.sessions.drain(..) {
            session.end()?;
        }
        let first = median(self.rounds.iter().map(|round| round.0));
        let others = median(self.rounds.iter().map(|round| round.1));
        Ok(Figure { first, others, processor: seconds * 1e6 / self.units as f64 })
    }
}

fn setting(server: &Server, options: &Options, number: u64) -> Setting {
    let is_constant = server.kind == Kind::Constant;
    Setting { files: options.files, names: options.names, is_constant, number }
}

pub fn median(values: impl Iterator<Item = f64>) -> f64 {
    let mut values: Vec<f64> = values.collect();
    values.sort_by(f64::total_cmp);
    values[values.len() / 2]
}

/// Places for trees, each another one.
struct Places<'a> {
    folder: &'a str,
    used: u64,
}

impl Places<'_> {
    fn next(&mut self) -> String {
        self.used += 1;
        format!("{}/{}", self.folder, self.used)
    }
}

/// The servers' figures for one row; none where the server isn't measured.
fn measure(row: &Row, options: &Options, places: &mut Places) -> Outcome<Vec<Option<Figure>>> {
    // A peer without a tree has no directory to rename, and each of its sessions a file of its own.
    let needs_tree = RENAMES.iter().chain(&DATA).any(|other| other.title == row.title);
    let mut lanes = vec![];
    for server in &options.servers {
        let is_apart = server.kind == Kind::Alone && row.sessions > 1
            || server.kind == Kind::Constant && needs_tree;
        lanes.push(match is_apart {
            true => None,
            false => Some(Lane::start(row, server, options, places.next())?),
        });
    }
    let length = Duration::from_secs_f64(options.seconds / f64::from(ROUNDS));
    for _ in 0..ROUNDS {
        for lane in lanes.iter_mut().flatten() {
            lane.round(length)?;
        }
    }
    lanes.into_iter().map(|lane| lane.map(Lane::finish).transpose()).collect()
}

/// Opens sessions, makes some calls in each and drops it, with others that do the same.
fn open_and_drop(tree: &Tree, setting: Setting, left: &AtomicU64) -> Outcome<()> {
    while left.fetch_sub(1, Ordering::Relaxed) as i64 > 0 {
        let mut session = tree.open()?;
        Stat::few(setting, &mut session, CALLS)?;
        session.end()?;
    }
    Ok(())
}

/// The processor time so far of those processes that have ended, in seconds.
fn processor_seconds_of_ended() -> Outcome<f64> {
    let text = std::fs::read_to_string("/proc/self/stat").map_err(|error| error.to_string())?;
    let fields: Vec<&str> = text.rsplit(')').next().unwrap_or("").split_whitespace().collect();
    let ticks = |at: usize| fields.get(at).and_then(|field| field.parse::<u64>().ok());
    Ok((ticks(13).unwrap_or(0) + ticks(14).unwrap_or(0)) as f64 / 100.0)
}

/// Sessions a second, and microseconds of processor time for one, of a round.
fn open_round(tree: &Tree, server: &Server, options: &Options) -> Outcome<(f64, f64)> {
    let left = &AtomicU64::new(OPENED);
    let before = processor_seconds_of_ended()? + tree.processor_seconds()?;
    let begun = Instant::now();
    let done: Outcome<Vec<()>> = thread::scope(|scope| {
        let client = |number| open_and_drop(tree, setting(server, options, number), left);
        let threads: Vec<_> =
            (0..CLIENTS).map(|number| scope.spawn(move || client(number))).collect();
        threads.into_iter().map(|thread| thread.join().unwrap_or(Err("a panic".into()))).collect()
    });
    done.map_err(|error| format!("sessions: {}: {error}", server.name))?;
    let rate = OPENED as f64 / begun.elapsed().as_secs_f64();
    let seconds = processor_seconds_of_ended()? + tree.processor_seconds()? - before;
    Ok((rate, seconds * 1e6 / OPENED as f64))
}

/// The figures of servers whose sessions share a tree, for sessions that are opened and dropped.
fn measure_opening(options: &Options, places: &mut Places) -> Outcome<Vec<Option<Figure>>> {
    let mut lanes = vec![];
    for server in &options.servers {
        let shares = matches!(server.kind, Kind::Listens | Kind::Shares);
        let lane = if shares { Some(start_opening(server, options, places.next())?) } else { None };
        lanes.push((server, lane, vec![]));
    }
    for _ in 0..ROUNDS {
        for (server, lane, rounds) in &mut lanes {
            if let Some(tree) = lane {
                rounds.push(open_round(tree, server, options)?);
            }
        }
    }
    let figure = |rounds: Vec<(f64, f64)>| Figure {
        first: median(rounds.iter().map(|round| round.0)),
        others: 0.0,
        processor: median(rounds.iter().map(|round| round.1)),
    };
    Ok(lanes.into_iter().map(|(_, lane, rounds)| lane.map(|_| figure(rounds))).collect())
}

/// A tree with the files that sessions ask for.
fn start_opening(server: &Server, options: &Options, place: String) -> Outcome<Tree> {
    let tree = Tree::start(server, place)?;
    let mut session = tree.open()?;
    Stat::new(setting(server, options, 0), 1).prepare(&mut session)?;
    session.end()?;
    Ok(tree)
}

/// Prints a number of each server, and the first one's divided by each other one's.
fn print_table(
    title: &str,
    options: &Options,
    rows: &[(&str, Vec<Option<Figure>>)],
    pick: fn(&Figure) -> f64,
) {
    let names: Vec<&String> = options.servers.iter().map(|server| &server.name).collect();
    let ratios = names[1..].iter().map(|name| format!("{} : {name}", names[0]));
    print_head(title, names.iter().map(|name| name.to_string()).chain(ratios).collect());
    for (title, figures) in rows {
        let values: Vec<Option<f64>> =
            figures.iter().map(|figure| figure.as_ref().map(pick)).collect();
        let ratios = values[1..].iter().map(|other| Some(values[0]? / (*other)?));
        let cells = values.iter().copied().chain(ratios);
        print_line(title, cells.map(|cell| cell.map_or("".into(), number)));
    }
}

/// The servers' figures for rows.
type Figures<'a> = Vec<(&'a str, Vec<Option<Figure>>)>;

fn measure_all(
    rows: &'static [Row],
    options: &Options,
    places: &mut Places,
) -> Outcome<Figures<'static>> {
    rows.iter().map(|row| Ok((row.title, measure(row, options, places)?))).collect()
}

/// Units a second of all sessions together.
fn rate(figure: &Figure) -> f64 {
    figure.first + figure.others
}

fn print_stats(options: &Options, places: &mut Places) -> Outcome<()> {
    let rows = measure_all(&STATS, options, places)?;
    print_table("STATs a second, 64 sent ahead", options, &rows, rate);
    let title = "Processor time for a STAT, in microseconds";
    print_table(title, options, &rows, |figure| figure.processor);
    let rows = measure_all(&STATS_ALONE, options, places)?;
    print_table("STATs a second, one at a time", options, &rows, rate);
    print_table(title, options, &rows, |figure| figure.processor);
    Ok(())
}

fn print_changes(options: &Options, places: &mut Places) -> Outcome<()> {
    let rows = measure_all(&CHANGES, options, places)?;
    print_table("Calls a second, one at a time", options, &rows, rate);
    let title = "Processor time for a call, in microseconds";
    print_table(title, options, &rows, |figure| figure.processor);
    Ok(())
}

fn print_data(options: &Options, places: &mut Places) -> Outcome<()> {
    let rows = measure_all(&DATA, options, places)?;
    print_table("MB a second, 64 sent ahead", options, &rows, |figure| rate(figure) / 1e6);
    let title = "Processor time for a MB, in microseconds";
    print_table(title, options, &rows, |figure| figure.processor * 1e6);
    Ok(())
}

fn print_renames(options: &Options, places: &mut Places) -> Outcome<()> {
    let rows = measure_all(&RENAMES, options, places)?;
    print_table("Renames a second", options, &rows, |figure| figure.first);
    print_table("STATs a second beside them", options, &rows[2..], |figure| figure.others);
    Ok(())
}

fn print_sessions(options: &Options, places: &mut Places) -> Outcome<()> {
    let title = format!("{OPENED} sessions of {CALLS} calls, {CLIENTS} clients");
    let rows = vec![(title.as_str(), measure_opening(options, places)?)];
    print_table("Sessions a second", options, &rows, |figure| figure.first);
    let title = "Processor time for a session, in microseconds";
    print_table(title, options, &rows, |figure| figure.processor);
    Ok(())
}

pub fn run(words: impl Iterator<Item = String>) -> Outcome<()> {
    let options = read_options(words)?;
    let mut places = Places { folder: &options.folder, used: 0 };
    println!(
        "{} files in the tree, {} names in the directory that moves, {} s for a cell",
        options.files, options.names, options.seconds
    );
    type Print = fn(&Options, &mut Places) -> Outcome<()>;
    let parts: [(&str, Print); 5] = [
        ("stats", print_stats),
        ("changes", print_changes),
        ("renames", print_renames),
        ("data", print_data),
        ("sessions", print_sessions),
    ];
    for (name, print) in parts {
        if name.contains(&options.only) {
            print(&options, &mut places)?;
        }
    }
    Ok(())
}
