//! Requests that the crate makes itself.

use crate::arguments::{self, seconds, unix_time};
use crate::calls::status_text;
use crate::requests::{MODE, OWNER, SIZE, TIMES};
use crate::tree::PERMISSIONS;
use crate::wire::{string, Fields};
use crate::{Attributes, Engine, Error, Session, Turn};
use std::fs::Metadata;
use std::os::unix::fs::MetadataExt;
use std::time::{SystemTime, UNIX_EPOCH};

const INIT: &[u8] = b"\0\0\0\x05\x01\0\0\0\x03";
/// A SETSTAT with the id 1.
const SETSTAT: &[u8] = b"\x09\0\0\0\x01";

/// A path, and attributes as SETSTAT has them.
type Setting = (Vec<u8>, Vec<u8>);

impl Engine {
    /// Sets those attributes of a file or a directory that are not None, by a request in a session
    /// of its own, to which no rule applies. A new size sets the file's mtime to `moment`. If there
    /// is no such path, and for the root, it is `Error::Status`.
    pub fn set_attributes(
        &mut self,
        path: impl AsRef<[u8]>,
        attributes: &Attributes,
        moment: SystemTime,
    ) -> Result<(), Error> {
        let path = arguments::path("path", path.as_ref())?;
        let moment = unix_time(seconds("moment", moment)?);
        let mut given = *attributes;
        if let Some(found) = self.snapshot()?.get(&path) {
            // Ids and times are sent in pairs.
            let or = |one: Option<u32>, other: Option<u32>, id| one.or(other.map(|_| id));
            given.uid = or(given.uid, given.gid, found.uid);
            given.gid = or(given.gid, given.uid, found.gid);
            given.atime = given.atime.or(given.mtime.map(|_| found.atime));
            given.mtime = given.mtime.or(given.atime.map(|_| found.mtime));
        }
        let encoded = encoded(&given)?;
        self.set_all(&[(path, encoded)], moment)
    }

    /// Sets owners, permissions and times of what was found.
    pub(crate) fn set_found(&mut self, found: &[(Vec<u8>, Metadata)]) -> Result<(), Error> {
        let settings = found.iter().map(|(path, status)| (path.clone(), encoded_status(status)));
        self.set_all(&settings.collect::<Vec<_>>(), UNIX_EPOCH)
    }

    fn set_all(&mut self, settings: &[Setting], moment: SystemTime) -> Result<(), Error> {
        let session = self.open()?;
        let set = self.set_each(session, settings, moment);
        self.close(session)?;
        set
    }

    fn set_each(
        &mut self,
        session: Session,
        settings: &[Setting],
        moment: SystemTime,
    ) -> Result<(), Error> {
        self.ask(session, INIT, moment)?;
        for (path, attributes) in settings {
            let body = [SETSTAT, &string(path), attributes].concat();
            let reply = self.ask(session, &string(&body), moment)?;
            // A status has its code after the length, the type and the id.
            let code = reply.get(9..).and_then(|rest| Fields::of(rest).number(4));
            let code = code.ok_or(Error::Ended)? as u32;
            if code != 0 {
                let request = format!("setstat \"{}\"", path.escape_ascii());
                return Err(Error::Status {
                    code,
                    message: status_text(code).to_string(),
                    request,
                });
            }
        }
        Ok(())
    }

    /// The reply to a packet.
    fn ask(
        &mut self,
        session: Session,
        packet: &[u8],
        moment: SystemTime,
    ) -> Result<Vec<u8>, Error> {
        self.give(session, packet)?;
        match self.settle(session, moment, 1)? {
            Turn::Blocked => Err(Error::Blocked),
            _ => Ok(self.take(session)?),
        }
    }
}

/// The attributes that are given, as SETSTAT has them.
fn encoded(given: &Attributes) -> Result<Vec<u8>, Error> {
    let mut fields = Vec::new();
    let mut flags = 0;
    let mut add = |flag: u32, bytes: Option<Vec<u8>>| {
        flags |= bytes.as_ref().map_or(0, |_| flag);
        fields.extend(bytes.unwrap_or_default());
    };
    let number = |value: Option<u32>| value.map(|value| value.to_be_bytes().to_vec());
    let time = |name, moment: Option<SystemTime>| {
        moment.map(|moment| seconds(name, moment)).transpose().map(number)
    };
    add(SIZE, given.size.map(|size| size.to_be_bytes().to_vec()));
    add(OWNER, number(given.uid));
    add(OWNER, number(given.gid));
    add(MODE, number(given.permissions));
    add(TIMES, time("atime", given.atime)?);
    add(TIMES, time("mtime", given.mtime)?);
    Ok([&flags.to_be_bytes()[..], &fields].concat())
}

/// Owner, permissions and times, as SETSTAT has them. A time out of range is the nearest one.
fn encoded_status(status: &Metadata) -> Vec<u8> {
    let nearest = |seconds: i64| seconds.clamp(0, u32::MAX.into()) as u32;
    let (atime, mtime) = (nearest(status.atime()), nearest(status.mtime()));
    let mode = status.mode() & PERMISSIONS;
    let flags = OWNER | MODE | TIMES;
    let fields = [flags, status.uid(), status.gid(), mode, atime, mtime];
    fields.iter().flat_map(|field| field.to_be_bytes()).collect()
}
