//! Patterns of paths.

use crate::{arguments, Error};

/// A path in which names may have wildcards.
#[derive(Clone, Debug)]
pub(crate) struct Pattern {
    names: Vec<Vec<u32>>,
}

impl Pattern {
    pub(crate) fn new(path: &[u8]) -> Result<Self, Error> {
        Ok(Self { names: names_of(&arguments::path("path", path)?) })
    }

    /// Whether a path in normal form matches, name by name.
    pub(crate) fn fits(&self, path: &[u8]) -> bool {
        fits(&names_of(path), &self.names)
    }
}

/// Escapes the wildcards of a path, so that as a pattern it matches only itself.
///
/// ```
/// assert_eq!(lucernetick::escape("/a[1]/*"), b"/a[[]1]/[*]");
/// ```
pub fn escape(path: impl AsRef<[u8]>) -> Vec<u8> {
    let escaped = |byte: &u8| match byte {
        b'*' | b'?' | b'[' => vec![b'[', *byte, b']'],
        byte => vec![*byte],
    };
    path.as_ref().iter().flat_map(escaped).collect()
}

fn names_of(path: &[u8]) -> Vec<Vec<u32>> {
    path.split(|byte| *byte == b'/').filter(|name| !name.is_empty()).map(characters).collect()
}

/// The characters of a name. A byte that is not UTF-8 counts as one, which is no other.
fn characters(name: &[u8]) -> Vec<u32> {
    let mut found = Vec::new();
    let mut rest = name;
    while !rest.is_empty() {
        let valid = match std::str::from_utf8(rest) {
            Ok(_) => rest.len(),
            Err(fault) => fault.valid_up_to(),
        };
        let (text, after) = rest.split_at(valid);
        found.extend(String::from_utf8_lossy(text).chars().map(u32::from));
        rest = after;
        if let Some((byte, after)) = rest.split_first() {
            found.push(0xDC00 + u32::from(*byte));
            rest = after;
        }
    }
    found
}

const STAR: u32 = b'*' as u32;
const QUESTION: u32 = b'?' as u32;
const OPENS: u32 = b'[' as u32;
const CLOSES: u32 = b']' as u32;
const NOT: u32 = b'!' as u32;
const DASH: u32 = b'-' as u32;

fn fits(names: &[Vec<u32>], pattern: &[Vec<u32>]) -> bool {
    let (first, rest) = match pattern.split_first() {
        Some(split) => split,
        None => return names.is_empty(),
    };
    if first[..] == [STAR, STAR] {
        return (0..=names.len()).any(|at| fits(&names[at..], rest));
    }
    match names.split_first() {
        Some((name, names)) => name_fits(name, first) && fits(names, rest),
        None => false,
    }
}

/// Whether a name matches a pattern. After a mismatch the last star takes one character more.
fn name_fits(name: &[u32], pattern: &[u32]) -> bool {
    let (mut at, mut of) = (0, 0);
    let mut star = None;
    while at < name.len() {
        if pattern.get(of) == Some(&STAR) {
            star = Some((at, of));
            of += 1;
        } else if let Some(count) = one_fits(name[at], &pattern[of..]) {
            at += 1;
            of += count;
        } else if let Some((begins, place)) = star {
            star = Some((begins + 1, place));
            (at, of) = (begins + 1, place + 1);
        } else {
            return false;
        }
    }
    pattern[of..].iter().all(|part| *part == STAR)
}

/// If a character matches the first part of a pattern: the length of that part.
fn one_fits(character: u32, pattern: &[u32]) -> Option<usize> {
    let matches = |fits: bool, count| if fits { Some(count) } else { None };
    match *pattern.first()? {
        QUESTION => Some(1),
        OPENS => match set_length(pattern) {
            Some(length) => matches(is_in(character, &pattern[1..length - 1]), length),
            None => matches(character == OPENS, 1),
        },
        other => matches(character == other, 1),
    }
}

/// The length of a set with its brackets. A bracket that closes may be its first element.
fn set_length(pattern: &[u32]) -> Option<usize> {
    let begin = if pattern.get(1) == Some(&NOT) { 3 } else { 2 };
    let closes = pattern.iter().skip(begin).position(|part| *part == CLOSES)?;
    Some(begin + closes + 1)
}

fn is_in(character: u32, set: &[u32]) -> bool {
    let (is_not, mut rest) = match set.split_first() {
        Some((&NOT, rest)) => (true, rest),
        _ => (false, set),
    };
    let mut found = false;
    while let Some(first) = rest.first() {
        let (last, count) = match rest {
            [_, DASH, last, ..] => (last, 3),
            _ => (first, 1),
        };
        found |= (*first..=*last).contains(&character);
        rest = &rest[count..];
    }
    found != is_not
}

#[cfg(test)]
mod tests {
    use super::*;

    #[track_caller]
    fn check(pattern: &str, fits: &[&[u8]], others: &[&[u8]]) {
        let pattern = Pattern::new(pattern.as_bytes()).unwrap();
        assert!(fits.iter().all(|path| pattern.fits(path)));
        assert!(!others.iter().any(|path| pattern.fits(path)));
    }

    #[test]
    fn patterns() {
        check("/a/../b/", &[b"/b"], &[b"/", b"/a", b"/b/c", b"/bb"]);
        check("/", &[b"/"], &[b"/a"]);
        check("/out/*.part", &[b"/out/a.part", b"/out/.part"], &[b"/out/a", b"/out/d/a.part"]);
        check("/a*b*c", &[b"/abc", b"/aXbbc", b"/abcbc"], &[b"/ab", b"/abcd"]);
        check("/?", &[b"/a", "/\u{e9}".as_bytes(), b"/\xff"], &[b"/", b"/ab"]);
        check("/[a-c!x]", &[b"/b", b"/!", b"/x"], &[b"/d", b"/-"]);
        check("/[!a-c]", &[b"/d"], &[b"/a"]);
        check("/[]-]x", &[b"/]x", b"/-x"], &[b"/ax"]);
        check("/[a", &[b"/[a"], &[b"/a"]);
        check("/**", &[b"/", b"/a", b"/a/b"], &[]);
        check("/a/**/z", &[b"/a/z", b"/a/b/z", b"/a/z/z"], &[b"/a", b"/z", b"/b/z"]);
    }

    #[test]
    fn escaped_paths() {
        for path in ["/a[1]/*?", "/**/x", "/[!a]"] {
            let pattern = Pattern::new(&escape(path)).unwrap();
            assert!(pattern.fits(path.as_bytes()));
            assert!(!pattern.fits(b"/a1/xx") && !pattern.fits(b"/x"));
        }
    }
}
