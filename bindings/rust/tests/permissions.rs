//! Permission bits, enforced as POSIX does. The cases are in permissions.txt.

use lucernetick::unix_time as at;
use lucernetick::{Attributes, Engine, Entry, Error, Rule, Session};
use std::time::{Duration, UNIX_EPOCH};

const TABLE: &str = include_str!("permissions.txt");

/// The lines of the table, word by word.
fn lines() -> impl Iterator<Item = Vec<&'static str>> {
    let lines = TABLE.lines().filter(|line| !line.is_empty() && !line.starts_with('#'));
    lines.map(|line| line.split_whitespace().collect())
}

fn octal(word: &str) -> u32 {
    u32::from_str_radix(word, 8).unwrap()
}

/// A number; -1 is the greatest one.
fn number(word: &str) -> u32 {
    word.parse::<i64>().unwrap() as u32
}

fn given(change: impl Fn(&mut Attributes)) -> Attributes {
    let mut given = Attributes::default();
    change(&mut given);
    given
}

fn mode(permissions: u32) -> Attributes {
    given(|given| given.permissions = Some(permissions))
}

/// The tree of the table.
fn tree() -> Engine {
    let mut engine = Engine::new().unwrap();
    for words in lines().filter(|words| words[0] == "tree") {
        match words[2] {
            "d" => engine.make_directories(words[1], at(0)).unwrap(),
            _ => engine.write_files([(words[1], "1")], at(0)).unwrap(),
        }
        let owned = given(|given| {
            given.permissions = Some(octal(words[3]));
            given.uid = Some(number(words[4]));
            given.gid = Some(number(words[5]));
        });
        engine.set_attributes(words[1], &owned, at(0)).unwrap();
    }
    engine
}

/// A session after VERSION.
fn client(engine: &mut Engine, root: &str) -> Session {
    let session = engine.open_at(root).unwrap();
    engine.feed(session, b"\0\0\0\x05\x01\0\0\0\x03").unwrap();
    engine.settle(session, at(0), 1).unwrap();
    engine.take(session).unwrap();
    session
}

fn text(text: &str) -> Vec<u8> {
    [&(text.len() as u32).to_be_bytes(), text.as_bytes()].concat()
}

/// The reply to a request, from its type on.
fn ask(engine: &mut Engine, session: Session, kind: u8, fields: &[u8]) -> Vec<u8> {
    let body = [&[kind, 0, 0, 0, 1], fields].concat();
    engine.feed(session, &[&(body.len() as u32).to_be_bytes()[..], &body].concat()).unwrap();
    engine.settle(session, at(0), 10).unwrap();
    engine.take(session).unwrap().split_off(4)
}

/// The code of a status, and 0 for other replies.
fn code(reply: Vec<u8>) -> u8 {
    if reply[0] == 101 {
        reply[8]
    } else {
        0
    }
}

fn pflags(letters: &str) -> [u8; 4] {
    let flag = |letter| "rwactx".find(letter).map_or(0, |at| 1 << at);
    letters.chars().map(flag).sum::<u32>().to_be_bytes()
}

/// Attributes as SETSTAT has them. A size is the last word.
fn attributes(words: &str) -> Vec<u8> {
    let (mut flags, mut size, mut fields) = (0u32, Vec::new(), Vec::new());
    for (name, value) in words.split(',').filter_map(|word| word.split_once('=')) {
        let (flag, numbers) = match name {
            "size" => {
                size = u64::from(number(value)).to_be_bytes().to_vec();
                (1, Vec::new())
            }
            "ids" => (2, value.split(':').map(number).collect()),
            "mode" => (4, vec![octal(value)]),
            _ => (8, vec![number(value); 2]),
        };
        flags |= flag;
        fields.extend(numbers.iter().flat_map(|number| number.to_be_bytes()));
    }
    [&flags.to_be_bytes()[..], &size, &fields].concat()
}

/// The status of a request of the table.
fn request(engine: &mut Engine, session: Session, words: &[&str]) -> u8 {
    let kind = match words[0] {
        "OPEN" | "FSETSTAT" => {
            let fields = [&text(words[2]), &pflags(words[1])[..], &[0; 4]].concat();
            let opened = ask(engine, session, 3, &fields);
            if words[0] == "OPEN" {
                return code(opened);
            }
            let fields = [&opened[5..], &attributes(words[3])].concat();
            return code(ask(engine, session, 10, &fields));
        }
        "SETSTAT" => {
            let fields = [text(words[1]), attributes(words[2])].concat();
            return code(ask(engine, session, 9, &fields));
        }
        "LSTAT" => 7,
        "OPENDIR" => 11,
        "REMOVE" => 13,
        "MKDIR" => 14,
        "RMDIR" => 15,
        "REALPATH" => 16,
        "STAT" => 17,
        "RENAME" => 18,
        _ => 200,
    };
    let name = match words[0] {
        "POSIX_RENAME" => text("posix-rename@openssh.com"),
        "HARDLINK" => text("hardlink@openssh.com"),
        _ => Vec::new(),
    };
    let paths: Vec<u8> = words[1..].iter().flat_map(|path| text(path)).collect();
    code(ask(engine, session, kind, &[name, paths, vec![0; 4]].concat()))
}

/// The results of the table, by the codes of statuses.
const STATUSES: [&str; 5] = ["ok", "", "missing", "denied", "failure"];

#[test]
fn permissions_follow_each_change() {
    let mut engine = tree();
    let [other, session] = [(); 2].map(|()| client(&mut engine, "/"));
    engine.refuse(Rule::enforce_permissions(1000, 100).session(session)).unwrap();
    let changes: Vec<_> = lines().filter(|words| words[0] == "change").collect();
    for words in &changes {
        let mut parts = words[1..].split(|word| *word == ":");
        let (change, asked) = (parts.next().unwrap(), parts.next().unwrap());
        assert_eq!(request(&mut engine, other, change), 0);
        let (wanted, asked) = asked.split_last().unwrap();
        let found = request(&mut engine, session, asked);
        assert_eq!(STATUSES[usize::from(found)], *wanted, "{}", words.join(" "));
    }
    assert!(changes.len() > 10);
}

#[test]
fn the_table() {
    let mut count = 0;
    for words in lines().filter(|words| !["tree", "change"].contains(&words[0])) {
        let mut engine = tree();
        let session = client(&mut engine, "/");
        let before = engine.snapshot().unwrap();
        let rule = Rule::enforce_permissions(number(words[0]), number(words[1]));
        let rule = engine.refuse(rule).unwrap();
        let (wanted, asked) = words[2..].split_last().unwrap();
        let found = request(&mut engine, session, asked);
        let status = STATUSES[usize::from(found)];
        assert_eq!(status, *wanted, "{}", words.join(" "));
        assert_eq!(rule.refused() == 1, status == "denied");
        if found != 0 && asked[0] != "FSETSTAT" {
            assert_eq!(engine.snapshot().unwrap(), before);
        }
        count += 1;
    }
    assert!(count > 100);
}

fn entry(engine: &Engine, path: &str) -> Entry {
    engine.snapshot().unwrap()[path].clone()
}

/// Whatever ids it sends. The other attributes stay.
#[test]
fn what_a_client_creates_is_its_own() {
    let mut engine = tree();
    let session = client(&mut engine, "/");
    engine.refuse(Rule::enforce_permissions(1000, 100).session(session)).unwrap();
    let path = text("/pub/new");
    for given in ["-", "ids=5:6", "size=3,ids=0:0,mode=0600"] {
        for (kind, flags, remove, default) in
            [(14, &[][..], "RMDIR", 0o755), (3, &pflags("wc")[..], "REMOVE", 0o644)]
        {
            let fields = [&path, flags, &attributes(given)].concat();
            assert_eq!(code(ask(&mut engine, session, kind, &fields)), 0);
            let found = entry(&engine, "/pub/new");
            assert_eq!((found.uid, found.gid), (1000, 100));
            let mode = if given.contains("mode") { 0o600 } else { default };
            assert_eq!(found.permissions(), mode);
            assert_eq!(request(&mut engine, session, &[remove, "/pub/new"]), 0);
        }
    }
}

#[test]
fn a_handle_keeps_its_permissions() {
    let mut engine = tree();
    let session = client(&mut engine, "/");
    engine.refuse(Rule::enforce_permissions(1000, 100)).unwrap();
    let fields = [&text("/home/ann/f"), &pflags("rw")[..], &[0; 4]].concat();
    let handle = ask(&mut engine, session, 3, &fields).split_off(5);
    engine.set_attributes("/home/ann/f", &mode(0), at(0)).unwrap();
    engine.set_attributes("/home/ann", &mode(0), at(0)).unwrap();
    let fields = [&handle[..], &[0; 8], &text("22")].concat();
    assert_eq!(code(ask(&mut engine, session, 6, &fields)), 0);
    let fields = [&handle[..], &[0; 8], &[0, 0, 0, 9]].concat();
    assert_eq!(ask(&mut engine, session, 5, &fields)[5..], text("22"));
    assert_eq!(request(&mut engine, session, &["OPEN", "r", "/home/ann/f"]), 3);
}

/// The rule of each ends with its session.
#[test]
fn sessions_of_different_users() {
    let mut engine = tree();
    let [ann, bob, root] = [(); 3].map(|()| client(&mut engine, "/"));
    engine.refuse(Rule::enforce_permissions(1000, 100).session(ann)).unwrap();
    let rule = engine.refuse(Rule::enforce_permissions(2000, 100).session(bob)).unwrap();
    for (session, wanted) in [(bob, 3), (root, 0), (ann, 2)] {
        assert_eq!(request(&mut engine, session, &["REMOVE", "/home/ann/f"]), wanted);
    }
    engine.close(bob).unwrap();
    assert_eq!(request(&mut engine, ann, &["STAT", "/home"]), 0);
    assert_eq!(rule.refused(), 1);
}

/// The client's root is where it begins. That itself is searched.
#[test]
fn directories_above_a_root_need_no_permission() {
    let mut engine = tree();
    let session = client(&mut engine, "/home/ann");
    engine.set_attributes("/home", &mode(0), at(0)).unwrap();
    let rule = engine.refuse(Rule::enforce_permissions(1000, 100)).unwrap();
    for (words, wanted) in
        [(&["OPEN", "r", "/f"][..], 0), (&["MKDIR", "/new"], 0), (&["REMOVE", "/"], 4)]
    {
        assert_eq!(request(&mut engine, session, words), wanted);
    }
    rule.end();
    engine.refuse(Rule::enforce_permissions(2000, 100)).unwrap();
    assert_eq!(request(&mut engine, session, &["OPEN", "r", "/f"]), 3);
}

#[test]
fn attributes_of_a_path() {
    let mut engine = Engine::from_files([("/f", "123")], at(5)).unwrap();
    let mut other = Attributes::default();
    other.gid = Some(7);
    other.mtime = Some(at(9));
    engine.set_attributes("f", &other, at(0)).unwrap();
    engine.set_attributes("/f", &mode(0o600), at(0)).unwrap();
    engine.set_attributes("/f", &Attributes::default(), at(0)).unwrap();
    let found = entry(&engine, "/f");
    assert_eq!((found.uid, found.gid, found.mode), (0, 7, 0o100600));
    assert_eq!((found.atime, found.mtime), (at(5), at(9)));
    let short = given(|given| given.size = Some(2));
    engine.set_attributes("/f", &short, at(11)).unwrap();
    let found = entry(&engine, "/f");
    assert_eq!((found.contents().as_deref(), found.mtime), (Some(&b"12"[..]), at(11)));
    for (path, wanted) in [("/none", "No such file"), ("/", "Failure")] {
        match engine.set_attributes(path, &mode(0), at(0)) {
            Err(Error::Status { message, .. }) => assert_eq!(message, wanted),
            other => panic!("{:?}", other),
        }
    }
}

#[test]
fn what_is_rejected() {
    let mut engine = Engine::from_files([("/f", "")], at(0)).unwrap();
    let rule = |uid, gid| Rule::enforce_permissions(uid, gid);
    for (fault, wanted) in [
        (
            engine.refuse(rule(u32::MAX, 0)).map(drop),
            "uid must be from 0 to 4294967294, not 4294967295",
        ),
        (engine.refuse(rule(0, u32::MAX)).map(drop), "gid must be from 0 to 4294967294"),
        (
            engine.set_attributes(
                "/f",
                &given(|given| given.mtime = Some(UNIX_EPOCH - Duration::from_secs(1))),
                at(0),
            ),
            "mtime must be from 1970",
        ),
        (engine.set_attributes("/\0", &mode(0), at(0)), "path \"/\\x00\" has a NUL byte"),
    ] {
        let text = fault.unwrap_err().to_string();
        assert!(text.contains(wanted), "{}", text);
    }
}
