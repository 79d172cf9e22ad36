//! Checks of arguments. Errors have the argument's name and its range.

use crate::Error;
use std::time::{Duration, SystemTime, UNIX_EPOCH};

const LONGEST_PATH: usize = 4096;
const LONGEST_NAME: usize = 255;

/// The time this many seconds after 1970 began, in UTC.
///
/// ```
/// use lucernetick::{unix_time, VirtualTime};
///
/// let time = VirtualTime::new(unix_time(1_700_000_000))?;
/// # Ok::<(), lucernetick::Error>(())
/// ```
pub fn unix_time(seconds: u32) -> SystemTime {
    UNIX_EPOCH + Duration::from_secs(u64::from(seconds))
}

/// The whole seconds since 1970 of a timestamp, as the protocol has them.
pub(crate) fn seconds(name: &str, moment: SystemTime) -> Result<u32, Error> {
    let since = moment.duration_since(UNIX_EPOCH).ok();
    since.and_then(|since| u32::try_from(since.as_secs()).ok()).ok_or_else(|| {
        let found = match moment.duration_since(UNIX_EPOCH) {
            Ok(later) => format!("{} seconds after", later.as_secs()),
            Err(earlier) => format!("{} seconds before", earlier.duration().as_secs()),
        };
        let range = "from 1970 to 4294967295 seconds after that";
        Error::Argument(format!("{} must be {}, not {} 1970", name, range, found))
    })
}

pub(crate) fn in_range(name: &str, value: u64, least: u64, most: u64) -> Result<u64, Error> {
    if (least..=most).contains(&value) {
        return Ok(value);
    }
    Err(Error::Argument(format!("{} must be from {} to {}, not {}", name, least, most, value)))
}

/// A path of the tree in the server's normal form: absolute, without `.`, `..` and empty names. In
/// the protocol the empty path is the root.
pub(crate) fn path(name: &str, path: &[u8]) -> Result<Vec<u8>, Error> {
    let (length, text) = (path.len(), path.escape_ascii());
    let longest = path.split(|byte| *byte == b'/').map(<[u8]>::len).max().unwrap_or(0);
    let allowed = |most| format!("and at most {} are allowed", most);
    let why = if path.is_empty() {
        "is empty, and / is the root".to_string()
    } else if path.contains(&0) {
        format!("\"{}\" has a NUL byte", text)
    } else if length > LONGEST_PATH {
        format!("has {} bytes, {}", length, allowed(LONGEST_PATH))
    } else if longest > LONGEST_NAME {
        format!("\"{}\" has a name of {} bytes, {}", text, longest, allowed(LONGEST_NAME))
    } else {
        return Ok(normal(path));
    };
    Err(Error::Argument(format!("{} {}", name, why)))
}

/// A path without a check.
pub(crate) fn normal(path: &[u8]) -> Vec<u8> {
    let mut names: Vec<&[u8]> = Vec::new();
    for name in path.split(|byte| *byte == b'/') {
        match name {
            b".." => drop(names.pop()),
            b"" | b"." => {}
            name => names.push(name),
        }
    }
    [b"/", names.join(&b'/').as_slice()].concat()
}

#[cfg(test)]
mod tests {
    use super::*;

    #[test]
    fn normal_forms() {
        for (path, wanted) in [
            ("/", "/"),
            ("a", "/a"),
            ("/a//b/./c/", "/a/b/c"),
            ("/a/../../b", "/b"),
            (".", "/"),
            ("/a/**/x*", "/a/**/x*"),
        ] {
            assert_eq!(super::path("path", path.as_bytes()).unwrap(), wanted.as_bytes());
        }
    }

    #[test]
    fn times_out_of_range() {
        assert_eq!(seconds("moment", unix_time(u32::MAX)), Ok(u32::MAX));
        let late = unix_time(u32::MAX) + Duration::from_secs(1);
        let early = UNIX_EPOCH - Duration::from_secs(7);
        for (moment, found) in
            [(late, "4294967296 seconds after 1970"), (early, "7 seconds before 1970")]
        {
            let wanted = "moment must be from 1970 to 4294967295 seconds after that, not ";
            let text = seconds("moment", moment).unwrap_err().to_string();
            assert_eq!(text, format!("{}{}", wanted, found));
        }
    }
}
