//! Packets of SFTP version 3: requests are written, replies are read and checked.

/// What went wrong, in words.
pub type Outcome<T> = Result<T, String>;

pub const INIT: u8 = 1;
pub const VERSION: u8 = 2;
pub const OPEN: u8 = 3;
pub const CLOSE: u8 = 4;
pub const READ: u8 = 5;
pub const WRITE: u8 = 6;
pub const OPENDIR: u8 = 11;
pub const READDIR: u8 = 12;
pub const REMOVE: u8 = 13;
pub const MKDIR: u8 = 14;
pub const RMDIR: u8 = 15;
pub const STAT: u8 = 17;
pub const RENAME: u8 = 18;
pub const STATUS: u8 = 101;
pub const HANDLE: u8 = 102;
pub const DATA: u8 = 103;
pub const NAME: u8 = 104;
pub const ATTRS: u8 = 105;
pub const EXTENDED: u8 = 200;

pub const OK: u32 = 0;
pub const EOF: u32 = 1;
pub const NO_SUCH_FILE: u32 = 2;

/// Flags of OPEN.
pub const FOR_READING: u32 = 0x1;
pub const FOR_WRITING: u32 = 0x2;
pub const CREATE: u32 = 0x8;
pub const TRUNCATE: u32 = 0x10;
pub const EXCLUSIVE: u32 = 0x20;

/// The longest packet that is sent or taken, without its length field.
pub const LONGEST_PACKET: usize = 262144;

/// One field of a request.
pub enum Field<'a> {
    U32(u32),
    U64(u64),
    Bytes(&'a [u8]),
}

/// Attributes of which none is given.
pub const NO_ATTRIBUTES: Field = Field::U32(0);

/// The place of a request that isn't written yet.
pub struct Request<'a> {
    pub out: &'a mut Vec<u8>,
    pub id: u32,
}

impl Request<'_> {
    pub fn send(self, kind: u8, fields: &[Field]) {
        let start = self.out.len();
        self.out.extend_from_slice(&[0, 0, 0, 0, kind]);
        self.out.extend_from_slice(&self.id.to_be_bytes());
        for field in fields {
            match field {
                Field::U32(value) => self.out.extend_from_slice(&value.to_be_bytes()),
                Field::U64(value) => self.out.extend_from_slice(&value.to_be_bytes()),
                Field::Bytes(bytes) => {
                    self.out.extend_from_slice(&(bytes.len() as u32).to_be_bytes());
                    self.out.extend_from_slice(bytes);
                }
            }
        }
        let length = (self.out.len() - start - 4) as u32;
        self.out[start..start + 4].copy_from_slice(&length.to_be_bytes());
    }
}

/// The fields of a packet that aren't read yet.
pub struct Fields<'a>(pub &'a [u8]);

impl<'a> Fields<'a> {
    fn take(&mut self, count: usize) -> Outcome<&'a [u8]> {
        if self.0.len() < count {
            return Err("a reply is cut short".into());
        }
        let (front, rest) = self.0.split_at(count);
        self.0 = rest;
        Ok(front)
    }

    pub fn u32(&mut self) -> Outcome<u32> {
        Ok(u32::from_be_bytes(self.take(4)?.try_into().unwrap()))
    }

    pub fn u64(&mut self) -> Outcome<u64> {
        Ok(u64::from_be_bytes(self.take(8)?.try_into().unwrap()))
    }

    pub fn bytes(&mut self) -> Outcome<&'a [u8]> {
        let count = self.u32()? as usize;
        self.take(count)
    }

    /// Reads attributes; answers the permissions and the size, where they are given.
    fn attributes(&mut self) -> Outcome<(Option<u32>, Option<u64>)> {
        let flags = self.u32()?;
        let size = if flags & 0x1 != 0 { Some(self.u64()?) } else { None };
        if flags & 0x2 != 0 {
            self.take(8)?;
        }
        let permissions = if flags & 0x4 != 0 { Some(self.u32()?) } else { None };
        if flags & 0x8 != 0 {
            self.take(8)?;
        }
        Ok((permissions, size))
    }

    pub fn end(&self) -> Outcome<()> {
        if self.0.is_empty() {
            Ok(())
        } else {
            Err(format!("a reply has {} bytes left over", self.0.len()))
        }
    }
}

/// One reply. Each of its readers refuses a reply of another kind.
pub struct Reply<'a> {
    pub kind: u8,
    pub fields: Fields<'a>,
}

impl<'a> Reply<'a> {
    fn is(&mut self, kind: u8) -> Outcome<()> {
        if self.kind == kind {
            return Ok(());
        }
        if self.kind != STATUS {
            return Err(format!("a reply of type {}, {kind} is due", self.kind));
        }
        let code = self.fields.u32()?;
        let message = String::from_utf8_lossy(self.fields.bytes()?);
        Err(format!("STATUS {code} ({message}), type {kind} is due"))
    }

    pub fn status(mut self, code: u32) -> Outcome<()> {
        self.is(STATUS)?;
        let got = self.fields.u32()?;
        let message = String::from_utf8_lossy(self.fields.bytes()?);
        if got != code {
            return Err(format!("STATUS {got} ({message}), {code} is due"));
        }
        self.fields.bytes()?;
        self.fields.end()
    }

    pub fn handle(mut self) -> Outcome<Vec<u8>> {
        self.is(HANDLE)?;
        let handle = self.fields.bytes()?.to_vec();
        self.fields.end()?;
        Ok(handle)
    }

    pub fn data(mut self) -> Outcome<&'a [u8]> {
        self.is(DATA)?;
        let data = self.fields.bytes()?;
        self.fields.end()?;
        Ok(data)
    }

    /// The size of a regular file.
    pub fn file_size(mut self) -> Outcome<u64> {
        self.is(ATTRS)?;
        let attributes = self.fields.attributes()?;
        self.fields.end()?;
        match attributes {
            (Some(permissions), Some(size)) if permissions & 0o170000 == 0o100000 => Ok(size),
            _ => Err(format!("{attributes:?} where a file's attributes are due")),
        }
    }

    /// Gives each name to `each`, but `.` and `..`; answers how many.
    pub fn names(mut self, each: &mut dyn FnMut(&[u8]) -> Outcome<()>) -> Outcome<u64> {
        self.is(NAME)?;
        let mut names = 0;
        for _ in 0..self.fields.u32()? {
            let name = self.fields.bytes()?;
            self.fields.bytes()?;
            self.fields.attributes()?;
            if name != b"." && name != b".." {
                each(name)?;
                names += 1;
            }
        }
        self.fields.end()?;
        Ok(names)
    }
}
