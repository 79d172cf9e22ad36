//! One session with a server, on its standard streams or on a socket.

use crate::wire::{Fields, Outcome, Reply, Request, INIT, LONGEST_PACKET, OK, VERSION};
use std::io::{Read, Write};
use std::ops::Range;
use std::os::fd::OwnedFd;
use std::os::unix::net::UnixStream;
use std::process::{Child, Command, Stdio};

/// Requests are written once so many bytes of them wait.
const BATCH: usize = 120_000;

/// What a slot does: it checks the reply to its last request, if there was one, and sends its
/// next request, or answers false.
pub type Step<'a> = dyn FnMut(usize, Option<Reply>, Request) -> Outcome<bool> + 'a;

pub struct Session {
    /// The process that serves this session alone.
    child: Option<Child>,
    to_server: Box<dyn Write + Send>,
    from_server: Box<dyn Read + Send>,
    output: Vec<u8>,
    input: Vec<u8>,
    unread: Range<usize>,
    sequence: u32,
}

impl Session {
    /// Starts the server, a command for the shell, and opens the session over pipes.
    pub fn start(command: &str) -> Outcome<Session> {
        let mut child = Command::new("sh")
            .args(["-c", &format!("exec {command}")])
            .stdin(Stdio::piped())
            .stdout(Stdio::piped())
            .spawn()
            .map_err(|error| format!("{command}: {error}"))?;
        let to_server = Box::new(child.stdin.take().unwrap());
        let from_server = Box::new(child.stdout.take().unwrap());
        Session::open(Some(child), to_server, from_server)
    }

    /// Starts the server, a program and its words, and opens the session over a pair of sockets.
    pub fn spawn(words: &[&str]) -> Outcome<Session> {
        let fault = |error| format!("{words:?}: {error}");
        let (ours, theirs) = UnixStream::pair().map_err(fault)?;
        let output: OwnedFd = theirs.try_clone().map_err(fault)?.into();
        let child = Command::new(words[0])
            .args(&words[1..])
            .stdin(OwnedFd::from(theirs))
            .stdout(output)
            .spawn()
            .map_err(fault)?;
        Session::over(Some(child), ours)
    }

    /// Opens a session with the server that listens at the path.
    pub fn connect(path: &str) -> Outcome<Session> {
        let stream = UnixStream::connect(path).map_err(|error| format!("{path}: {error}"))?;
        Session::over(None, stream)
    }

    fn over(child: Option<Child>, stream: UnixStream) -> Outcome<Session> {
        let other = stream.try_clone().map_err(|error| format!("a socket: {error}"))?;
        Session::open(child, Box::new(stream), Box::new(other))
    }

    fn open(
        child: Option<Child>,
        to_server: Box<dyn Write + Send>,
        from_server: Box<dyn Read + Send>,
    ) -> Outcome<Session> {
        let mut session = Session {
            child,
            to_server,
            from_server,
            output: vec![0, 0, 0, 5, INIT, 0, 0, 0, 3],
            input: vec![0; 4 * LONGEST_PACKET],
            unread: 0..0,
            sequence: 0,
        };
        session.flush()?;
        let packet = session.packet()?;
        if !session.input[packet].starts_with(&[VERSION, 0, 0, 0, 3]) {
            return Err("no VERSION 3".into());
        }
        Ok(session)
    }

    fn flush(&mut self) -> Outcome<()> {
        self.to_server.write_all(&self.output).map_err(|error| format!("write: {error}"))?;
        self.output.clear();
        Ok(())
    }

    /// Where the next packet stands in `input`, if it is there whole.
    fn buffered(&mut self) -> Outcome<Option<Range<usize>>> {
        if self.unread.len() < 4 {
            return Ok(None);
        }
        let length = Fields(&self.input[self.unread.clone()]).u32()? as usize;
        if !(5..=LONGEST_PACKET).contains(&length) {
            return Err(format!("a reply of length {length}"));
        }
        if self.unread.len() < 4 + length {
            return Ok(None);
        }
        let start = self.unread.start + 4;
        self.unread.start = start + length;
        Ok(Some(start..start + length))
    }

    /// Waits for the next packet.
    fn packet(&mut self) -> Outcome<Range<usize>> {
        loop {
            if let Some(packet) = self.buffered()? {
                return Ok(packet);
            }
            if self.input.len() - self.unread.end <= LONGEST_PACKET {
                self.input.copy_within(self.unread.clone(), 0);
                self.unread = 0..self.unread.len();
            }
            let rest = &mut self.input[self.unread.end..];
            let count = self.from_server.read(rest).map_err(|error| format!("read: {error}"))?;
            if count == 0 {
                return Err("the server ended where a reply is due".into());
            }
            self.unread.end += count;
        }
    }

    /// The id of a slot's next request.
    fn next_id(&mut self, slot: usize) -> u32 {
        self.sequence = self.sequence % 0xff_ffff + 1;
        self.sequence << 8 | slot as u32
    }

    /// Keeps `slots` requests under way, at most 256, until no slot sends more. Answers the
    /// number of replies. They may come in any order.
    pub fn pump(&mut self, slots: usize, step: &mut Step) -> Outcome<u64> {
        let mut sent = vec![None; slots];
        for slot in 0..slots {
            let id = self.next_id(slot);
            let request = Request { out: &mut self.output, id };
            sent[slot] = step(slot, None, request)?.then_some(id);
        }
        let mut replies = 0;
        while sent.iter().any(Option::is_some) {
            self.flush()?;
            let mut next = Some(self.packet()?);
            while let Some(packet) = next {
                self.turn(packet, &mut sent, step)?;
                replies += 1;
                next = self.buffered()?;
            }
        }
        self.flush()?;
        Ok(replies)
    }

    /// Gives a reply to the slot whose request it answers.
    fn turn(
        &mut self,
        packet: Range<usize>,
        sent: &mut [Option<u32>],
        step: &mut Step,
    ) -> Outcome<()> {
        if self.output.len() > BATCH {
            self.flush()?;
        }
        let kind = self.input[packet.start];
        let id = Fields(&self.input[packet.start + 1..packet.end]).u32()?;
        let slot = (id & 0xff) as usize;
        if sent.get(slot) != Some(&Some(id)) {
            return Err(format!("a reply with the id {id}, which isn't under way"));
        }
        let next = self.next_id(slot);
        let reply = Reply { kind, fields: Fields(&self.input[packet.start + 5..packet.end]) };
        let request = Request { out: &mut self.output, id: next };
        sent[slot] = step(slot, Some(reply), request)?.then_some(next);
        Ok(())
    }

    /// Sends one request and gives its reply to `check`.
    pub fn ask<T>(
        &mut self,
        send: &dyn Fn(Request),
        check: &dyn Fn(Reply) -> Outcome<T>,
    ) -> Outcome<T> {
        let mut answer = None;
        self.pump(1, &mut |_, reply, request| match reply {
            None => {
                send(request);
                Ok(true)
            }
            Some(reply) => {
                answer = Some(check(reply)?);
                Ok(false)
            }
        })?;
        answer.ok_or("no reply".into())
    }

    /// Sends one request that must succeed with STATUS.
    pub fn succeed(&mut self, send: &dyn Fn(Request)) -> Outcome<()> {
        self.ask(send, &|reply| reply.status(OK))
    }

    /// The processor time of the session's own process so far, in seconds.
    pub fn processor_seconds(&self) -> Outcome<f64> {
        self.child.as_ref().map_or(Ok(0.0), |child| processor_seconds(child.id()))
    }

    /// Ends the input, and waits for the session's own process to end.
    pub fn end(self) -> Outcome<()> {
        let Session { child, to_server, from_server, .. } = self;
        drop((to_server, from_server));
        match child {
            None => Ok(()),
            Some(mut child) => child.wait().map(drop).map_err(|error| format!("wait: {error}")),
        }
    }
}

/// The processor time of a process so far, in seconds, without its children. The system counts
/// hundredths.
pub fn processor_seconds(process: u32) -> Outcome<f64> {
    let path = format!("/proc/{process}/stat");
    let text = std::fs::read_to_string(&path).map_err(|error| format!("{path}: {error}"))?;
    let fields: Vec<&str> = text.rsplit(')').next().unwrap_or("").split_whitespace().collect();
    let ticks = |at: usize| fields.get(at).and_then(|field| field.parse::<u64>().ok());
    match (ticks(11), ticks(12)) {
        (Some(user), Some(system)) => Ok((user + system) as f64 / 100.0),
        _ => Err(format!("{path} has no times")),
    }
}
