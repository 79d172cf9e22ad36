//! What carries standard input and output to and from a Unix socket:
//!
//!   load carry [--gigabytes N] [--folder PATH] NAME=COMMAND..
//!
//! A command is a program and its words, split at spaces; the socket's path stands for `{}`. In
//! each of five rounds it carries N gigabytes, and commands take turns. What comes is counted, and
//! not compared.

use crate::session::processor_seconds;
use crate::shared::median;
use crate::wire::Outcome;
use crate::{number, print_head, print_line, value, ROUNDS};
use std::fs::File;
use std::io::{self, Read, Write};
use std::net::Shutdown;
use std::os::fd::OwnedFd;
use std::os::unix::net::{UnixListener, UnixStream};
use std::process::{Child, Command, Stdio};
use std::thread;
use std::time::Instant;

/// The bytes of one read or write of the generator's.
const PIECE: usize = 1 << 20;

#[derive(Clone, Copy)]
enum Way {
    ToNothing,
    ToPipe,
    ToSocket,
    FromPipe,
    FromSocket,
}

const WAYS: [(&str, Way); 5] = [
    ("from the socket, to /dev/null", Way::ToNothing),
    ("from the socket, to a pipe", Way::ToPipe),
    ("from the socket, to another socket", Way::ToSocket),
    ("from a pipe, to the socket", Way::FromPipe),
    ("from another socket, to the socket", Way::FromSocket),
];

/// Writes so many bytes.
fn pour(to: &mut dyn Write, bytes: u64) -> io::Result<()> {
    let piece = vec![0; PIECE];
    let mut left = bytes;
    while left > 0 {
        let count = left.min(PIECE as u64) as usize;
        to.write_all(&piece[..count])?;
        left -= count as u64;
    }
    Ok(())
}

/// Reads to the end, and counts.
fn drink(from: &mut dyn Read) -> io::Result<u64> {
    let mut piece = vec![0; PIECE];
    let mut bytes = 0;
    loop {
        match from.read(&mut piece)? {
            0 => return Ok(bytes),
            count => bytes += count as u64,
        }
    }
}

/// A process that carries, and the generator's ends of its input and output, where it has them.
struct Carrier {
    child: Child,
    input: Option<Box<dyn Write + Send>>,
    output: Option<Box<dyn Read + Send>>,
    peer: UnixStream,
}

fn boxed_writer(to: impl Write + Send + 'static) -> Box<dyn Write + Send> {
    Box::new(to)
}

fn boxed_reader(from: impl Read + Send + 'static) -> Box<dyn Read + Send> {
    Box::new(from)
}

impl Carrier {
    fn start(command: &str, path: &str, way: Way) -> io::Result<Carrier> {
        let listener = UnixListener::bind(path)?;
        let command = command.replace("{}", path);
        let mut words = command.split_whitespace();
        let mut process = Command::new(words.next().unwrap_or(""));
        process.args(words).stdin(Stdio::null()).stdout(Stdio::null());
        let (ours, theirs) = UnixStream::pair()?;
        match way {
            Way::ToNothing => &mut process,
            Way::ToPipe => process.stdout(Stdio::piped()),
            Way::ToSocket => process.stdout(OwnedFd::from(theirs)),
            Way::FromPipe => process.stdin(Stdio::piped()),
            Way::FromSocket => process.stdin(OwnedFd::from(theirs)),
        };
        let mut child = process.spawn()?;
        // The generator's own copies of the process's ends go with it.
        drop(process);
        let (peer, _) = listener.accept()?;
        std::fs::remove_file(path)?;
        let ours = Some(ours);
        let (input, output) = match way {
            Way::ToNothing => (None, None),
            Way::ToPipe | Way::FromPipe => {
                (child.stdin.take().map(boxed_writer), child.stdout.take().map(boxed_reader))
            }
            Way::ToSocket => (None, ours.map(boxed_reader)),
            Way::FromSocket => (ours.map(boxed_writer), None),
        };
        Ok(Carrier { child, input, output, peer })
    }

    /// Carries so many bytes. Gives the seconds that it took, and those of the process's processor
    /// time.
    fn carry(self, bytes: u64) -> io::Result<(f64, f64)> {
        let Carrier { mut child, input, output, peer } = self;
        let begun = Instant::now();
        let came = match input {
            Some(input) => up(peer, input, bytes)?,
            None => down(peer, output, bytes)?,
        };
        wait_unreaped(&child)?;
        let seconds = begun.elapsed().as_secs_f64();
        let processor = processor_seconds(child.id()).map_err(io::Error::other)?;
        if !child.wait()?.success() || came != bytes {
            return Err(io::Error::other(format!("{came} bytes came of {bytes}")));
        }
        Ok((seconds, processor))
    }
}

/// Gives so many bytes to the process's input, and counts what comes to the socket.
fn up(mut peer: UnixStream, mut input: Box<dyn Write + Send>, bytes: u64) -> io::Result<u64> {
    peer.shutdown(Shutdown::Write)?;
    let writer = thread::spawn(move || pour(&mut input, bytes));
    let came = drink(&mut peer)?;
    writer.join().map_err(|_| io::ErrorKind::Other)??;
    Ok(came)
}

/// Gives so many bytes to the socket, and counts what comes to the process's output, where that is
/// to be seen.
fn down(mut peer: UnixStream, output: Option<Box<dyn Read + Send>>, bytes: u64) -> io::Result<u64> {
    let writer = thread::spawn(move || {
        pour(&mut peer, bytes)?;
        peer.shutdown(Shutdown::Write)?;
        drink(&mut peer)
    });
    let came = output.map_or(Ok(bytes), |mut output| drink(&mut output))?;
    writer.join().map_err(|_| io::ErrorKind::Other)??;
    Ok(came)
}

/// Waits until the process has ended, and leaves it there to be looked at.
fn wait_unreaped(child: &Child) -> io::Result<()> {
    let path = format!("/proc/{}/stat", child.id());
    loop {
        let mut text = String::new();
        File::open(&path)?.read_to_string(&mut text)?;
        if text.rsplit(") ").next().is_some_and(|rest| rest.starts_with('Z')) {
            return Ok(());
        }
        thread::yield_now();
    }
}

struct Options {
    gigabytes: f64,
    folder: String,
    commands: Vec<(String, String)>,
}

fn read_options(mut words: impl Iterator<Item = String>) -> Outcome<Options> {
    let mut options = Options { gigabytes: 2.0, folder: "/tmp".into(), commands: vec![] };
    while let Some(word) = words.next() {
        match word.as_str() {
            "--gigabytes" => options.gigabytes = value(&word, &mut words)?,
            "--folder" => options.folder = value(&word, &mut words)?,
            _ => {
                let (name, command) =
                    word.split_once('=').ok_or(format!("{word}: what is that?"))?;
                options.commands.push((name.to_string(), command.to_string()));
            }
        }
    }
    Ok(options)
}

/// Gigabytes a second and seconds of processor time for one, of each command.
fn measure(options: &Options, way: Way) -> Outcome<Vec<(f64, f64)>> {
    let mut rounds = vec![vec![]; options.commands.len()];
    let path = format!("{}/peer", options.folder);
    let bytes = (options.gigabytes * 1e9) as u64;
    for _ in 0..ROUNDS {
        for ((name, command), rounds) in options.commands.iter().zip(&mut rounds) {
            let carried =
                Carrier::start(command, &path, way).and_then(|carrier| carrier.carry(bytes));
            rounds.push(carried.map_err(|error| format!("{name}: {error}"))?);
        }
    }
    let figure = |rounds: &Vec<(f64, f64)>| {
        let rate = median(rounds.iter().map(|round| options.gigabytes / round.0));
        (rate, median(rounds.iter().map(|round| round.1 / options.gigabytes)))
    };
    Ok(rounds.iter().map(figure).collect())
}

pub fn run(words: impl Iterator<Item = String>) -> Outcome<()> {
    let options = read_options(words)?;
    let names = options.commands.iter().map(|command| &command.0);
    let times = names.clone().map(|name| format!("processor time, {name}"));
    print_head("Gigabytes a second", names.cloned().chain(times).collect());
    for (title, way) in WAYS {
        let figures = measure(&options, way)?;
        let rates = figures.iter().map(|figure| figure.0);
        print_line(title, rates.chain(figures.iter().map(|figure| figure.1)).map(number));
    }
    Ok(())
}
