//! The records of calls.

use crate::calls::Call;
use crate::{checked, Engine, Error, Kind, OpenFlag, Refusal};
use lucernetick_sys as sys;
use std::collections::{BTreeMap, VecDeque};
use std::mem;

/// More records than one turn adds, which may complete the calls of all sessions.
const LEAST_KEPT: u64 = 512;
/// No record has this index, so `lt_calls` only returns their number.
const BEYOND: u64 = 1 << 63;

/// A record of the library.
#[derive(Clone, Debug)]
enum Record {
    Call(Box<Call>),
    /// This session ended.
    Left(u64),
}

impl Record {
    fn is(&self, key: Key) -> bool {
        self.key() == key
    }

    fn key(&self) -> Key {
        match self {
            Record::Call(call) => Key::Call(call.number),
            Record::Left(session) => Key::Left(*session),
        }
    }
}

/// What makes a record unique: calls have numbers, and a session ends once.
#[derive(Clone, Copy, Debug, PartialEq, Eq)]
enum Key {
    Call(u64),
    Left(u64),
}

/// The call that opened a handle.
#[derive(Debug)]
struct Opening {
    session: u64,
    path: Vec<u8>,
    writes: bool,
}

/// What an engine knows of the records that it has read.
#[derive(Debug, Default)]
pub(crate) struct Records {
    /// How many calls to keep; 0 for all, which the library keeps.
    keep: u64,
    /// The last calls, if their number is limited.
    kept: VecDeque<Call>,
    /// How many calls were recorded.
    pub(crate) recorded: u64,
    /// How many of the library's records were read, if it keeps all.
    read: u64,
    /// The last one that was read.
    last: Option<Key>,
    /// The greatest number of a call.
    highest: u64,
    /// The calls that opened the handles which are open.
    opened: BTreeMap<u64, Opening>,
    /// Counts the records after which there may be a complete file at a path.
    pub(crate) changes: u64,
    /// Names or attributes may be others than at the last `is_shaped`.
    shaped: bool,
}

impl Records {
    pub(crate) fn new(keep: u64) -> Self {
        Self { keep, ..Self::default() }
    }

    /// How many records the library keeps; 0 for all.
    pub(crate) fn limit(&self) -> u64 {
        match self.keep {
            0 => 0,
            _ => LEAST_KEPT,
        }
    }

    /// The path that a handle of this session was opened with.
    pub(crate) fn opened(&self, session: u64, handle: u64) -> Option<&[u8]> {
        let opening = self.opened.get(&handle).filter(|opening| opening.session == session)?;
        Some(&opening.path)
    }

    /// Whether a handle for writing that was opened with this path is open.
    pub(crate) fn is_written(&self, path: &[u8]) -> bool {
        self.opened.values().any(|opening| opening.writes && opening.path == path)
    }

    /// Whether names or attributes may have changed since the last time.
    pub(crate) fn is_shaped(&mut self) -> bool {
        mem::take(&mut self.shaped)
    }

    fn note(&mut self, record: &Record) {
        match record {
            Record::Call(call) => self.note_call(call),
            Record::Left(left) => {
                let count = self.opened.len();
                self.opened.retain(|_, opening| opening.session != *left);
                self.changes += u64::from(self.opened.len() != count);
            }
        }
        self.last = Some(record.key());
    }

    fn note_call(&mut self, call: &Call) {
        use Kind::*;
        self.recorded += 1;
        self.highest = self.highest.max(call.number);
        if self.keep > 0 {
            self.kept.push_back(call.clone());
            self.kept.drain(..self.kept.len().saturating_sub(self.keep as usize));
        }
        if matches!(call.kind, Open | Opendir) && call.answer.is_ok() {
            let (session, path) = (call.session, call.path.clone());
            let writes = call.flags & OpenFlag::WRITE != 0;
            self.opened.insert(call.number, Opening { session, path, writes });
        } else if call.kind == Close && self.opened(call.session, call.handle).is_some() {
            self.opened.remove(&call.handle);
        }
        self.shaped |= call.kind.shapes() || call.flags & OpenFlag::CREATE != 0;
        let names = matches!(call.kind, Open | Close | Mkdir | Rename | PosixRename | Hardlink);
        self.changes += u64::from(names);
    }

    /// If the library dropped records before they were read: how many calls. They are of one
    /// session, whose calls have consecutive numbers.
    fn missed(&self, news: &[Record]) -> u64 {
        let first = news.iter().find_map(|record| match record {
            Record::Call(call) => Some(call.number),
            Record::Left(_) => None,
        });
        match first {
            Some(first) if news.len() as u64 == self.limit() => {
                first.saturating_sub(self.highest + 1)
            }
            _ => 0,
        }
    }
}

impl Engine {
    /// The records of all calls, in the order in which they took effect, including those of
    /// `write_files`. If the engine has a limit (`with_keep`) and has dropped its oldest records,
    /// this is `Error::Dropped`.
    pub fn calls(&mut self) -> Result<Vec<Call>, Error> {
        let found = self.last_calls()?;
        match self.dropped() {
            0 => Ok(found),
            count => Err(Error::Dropped(count)),
        }
    }

    /// The records that are kept, as `calls`.
    pub fn last_calls(&mut self) -> Result<Vec<Call>, Refusal> {
        self.read_news()?;
        if self.records.keep > 0 {
            return Ok(self.records.kept.iter().cloned().collect());
        }
        let records = self.library_records(0)?.into_iter();
        Ok(records
            .filter_map(|record| match record {
                Record::Call(call) => Some(*call),
                Record::Left(_) => None,
            })
            .collect())
    }

    /// How many records were dropped, since the engine has a limit (`with_keep`).
    pub fn dropped(&self) -> u64 {
        match self.records.keep {
            0 => 0,
            _ => self.records.recorded - self.records.kept.len() as u64,
        }
    }

    /// Reads the records that were added since the last time, and calls the callbacks.
    pub(crate) fn read_news(&mut self) -> Result<(), Refusal> {
        let news = self.news()?;
        let missed = self.records.missed(&news);
        if missed > 0 {
            self.records.shaped = true;
            self.records.recorded += missed;
            self.records.kept.clear();
        }
        news.iter().for_each(|record| self.records.note(record));
        for record in &news {
            if let Record::Call(call) = record {
                self.call_after(call);
            }
        }
        Ok(())
    }

    fn news(&mut self) -> Result<Vec<Record>, Refusal> {
        let count = self.record(BEYOND)?.1;
        if count < self.records.limit() || self.records.keep == 0 {
            let news = self.library_records(self.records.read)?;
            self.records.read = count;
            return Ok(news);
        }
        self.records.read = count;
        let mut news = VecDeque::new();
        for at in (0..count).rev() {
            match self.record(at)?.0 {
                Some(record) if self.records.last.map_or(true, |last| !record.is(last)) => {
                    news.push_front(record);
                }
                _ => break,
            }
        }
        Ok(news.into())
    }

    /// The library's records from this index on.
    fn library_records(&mut self, from: u64) -> Result<Vec<Record>, Refusal> {
        let mut found = Vec::new();
        while let Some(record) = self.record(from + found.len() as u64)?.0 {
            found.push(record);
        }
        Ok(found)
    }

    /// The library's record at this index, and their number.
    fn record(&mut self, at: u64) -> Result<(Option<Record>, u64), Refusal> {
        let mut record = sys::Call::default();
        // SAFETY: the pointer is an engine's, which only `drop` frees, and the other one is of a
        // local variable.
        let answer = unsafe { sys::lt_calls(self.pointer.as_ptr(), at, &mut record) };
        let count = checked(answer)?;
        if at >= count {
            return Ok((None, count));
        }
        if record.kind == 0 {
            return Ok((Some(Record::Left(record.session)), count));
        }
        // SAFETY: no call was made since.
        Ok((Some(Record::Call(Box::new(unsafe { Call::of(&record) }))), count))
    }
}
