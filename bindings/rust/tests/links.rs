//! Files with several names.

use lucernetick::unix_time as at;
use lucernetick::{Engine, Error, Session, Snapshot, Turn};

const INIT: &[u8] = b"\0\0\0\x05\x01\0\0\0\x03";
const ATTRS: u8 = 105;

/// The paths of `alike`, and the numbers of its files.
const ALIKE: [(&str, Option<u64>); 7] = [
    ("/", None),
    ("/a", Some(1)),
    ("/b", Some(2)),
    ("/c", Some(2)),
    ("/d", None),
    ("/d/a", Some(1)),
    ("/d/e", Some(3)),
];

/// A string, its length before it.
fn string(bytes: &[u8]) -> Vec<u8> {
    [&(bytes.len() as u32).to_be_bytes()[..], bytes].concat()
}

/// Opens a session and reads VERSION.
fn client(engine: &mut Engine) -> Session {
    let session = engine.open().unwrap();
    engine.feed(session, INIT).unwrap();
    assert_eq!(engine.turn(session, at(0)), Ok(Turn::Wrote));
    engine.take(session).unwrap();
    session
}

/// The reply to a request with the id 1.
fn ask(engine: &mut Engine, session: Session, kind: u8, fields: &[u8]) -> Vec<u8> {
    let request = string(&[&[kind, 0, 0, 0, 1], fields].concat());
    engine.feed(session, &request).unwrap();
    assert_eq!(engine.settle(session, at(900), 1000), Ok(Turn::Idle));
    engine.take(session).unwrap()
}

/// The server's attributes of all paths of `alike`.
fn look(engine: &mut Engine, session: Session) -> Vec<Vec<u8>> {
    let replies = ALIKE.iter().map(|(path, _)| ask(engine, session, 17, &string(path.as_bytes())));
    let replies: Vec<Vec<u8>> = replies.collect();
    assert!(replies.iter().all(|reply| reply[4] == ATTRS));
    replies
}

/// Two files of two names each and one file of one name. They differ only in their names: their
/// atimes are 5, their mtimes 9.
fn alike() -> Engine {
    let files = [("/a", "same"), ("/b", "same"), ("/d/e", "same")];
    let mut engine = Engine::from_files(files, at(77)).unwrap();
    engine.hard_link("/b", "/c", at(77)).unwrap();
    engine.hard_link("/a", "/d/a", at(77)).unwrap();
    let session = client(&mut engine);
    for (path, _) in files {
        let times = [0, 0, 0, 8, 0, 0, 0, 5, 0, 0, 0, 9];
        ask(&mut engine, session, 9, &[&string(path.as_bytes())[..], &times].concat());
    }
    engine.close(session).unwrap();
    engine
}

/// The numbers of a snapshot's files, by path.
fn numbers(found: &Snapshot) -> Vec<(&str, Option<u64>)> {
    let named = |path| std::str::from_utf8(path).unwrap();
    found.iter().map(|(path, entry)| (named(path), entry.file)).collect()
}

#[test]
fn a_tree_that_begins_with_links() {
    let mut engine = Engine::from_files([("/a", "one"), ("/b", "two")], at(77)).unwrap();
    for (old, new) in [("/a", "/d/a"), ("d/a", "/d/c"), ("/b", "/e/f/b")] {
        engine.hard_link(old, new, at(77)).unwrap();
    }
    let found = engine.snapshot().unwrap();
    let wanted = [
        ("/", None),
        ("/a", Some(1)),
        ("/b", Some(2)),
        ("/d", None),
        ("/d/a", Some(1)),
        ("/d/c", Some(1)),
        ("/e", None),
        ("/e/f", None),
        ("/e/f/b", Some(2)),
    ];
    assert_eq!(numbers(&found), wanted);
    let contents = |path: &str| found[path].contents().unwrap();
    assert_eq!([&*contents("/d/c"), &*contents("/e/f/b")], [b"one", b"two"]);
    assert!(found.values().all(|entry| entry.mtime == at(77)));
}

#[test]
fn a_snapshot_leaves_all_attributes() {
    let mut engine = alike();
    let session = client(&mut engine);
    let before = look(&mut engine, session);
    for _ in 0..3 {
        let found = engine.snapshot().unwrap();
        assert_eq!(numbers(&found), ALIKE);
        assert_eq!(look(&mut engine, session), before);
        let mut files = found.values().filter(|entry| !entry.is_directory());
        assert!(files.all(|entry| (entry.atime, entry.mtime) == (at(5), at(9))));
    }
}

#[test]
fn all_names_are_one_file() {
    let mut engine = alike();
    engine.write_files([("/c", "longer than before")], at(10)).unwrap();
    let found = engine.snapshot().unwrap();
    assert_eq!(found["/b"], found["/c"]);
    assert_eq!(found["/a"], found["/d/a"]);
    assert_eq!(found["/b"].contents().as_deref(), Some("longer than before".as_bytes()));
    let session = client(&mut engine);
    let removed = ask(&mut engine, session, 13, &string(b"/b"));
    assert_eq!(removed[4..13], [101, 0, 0, 0, 1, 0, 0, 0, 0]);
    let left = engine.snapshot().unwrap();
    assert_eq!(left["/c"], found["/c"]);
    assert!(!left.contains("/b"));
}

#[test]
fn links_that_are_refused() {
    let mut engine = alike();
    for (old, new, code) in [("/none", "/x", 2), ("/d", "/x", 4), ("/a", "/b", 4)] {
        let refused = engine.hard_link(old, new, at(0)).unwrap_err();
        assert!(matches!(refused, Error::Status { code: found, .. } if found == code), "{refused}");
    }
    assert_eq!(numbers(&engine.snapshot().unwrap()), ALIKE);
}
