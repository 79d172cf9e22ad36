//! Wrong arguments, and what the errors say: argument, value and reason.

use lucernetick::unix_time as at;
use lucernetick::{Client, Engine, Error, Faults, Kind, Races, Rule, Server, VirtualTime};
use std::io::{Read, Write};
use std::time::{Duration, Instant, UNIX_EPOCH};

const INIT: &[u8] = b"\0\0\0\x05\x01\0\0\0\x03";

/// The error of writing one file.
fn file(path: &str) -> String {
    Engine::from_files([(path, "1")], at(0)).unwrap_err().to_string()
}

fn connected(faults: Faults) -> String {
    let server = Server::new(Engine::new().unwrap(), || at(0));
    server.connect_with(faults).unwrap_err().to_string()
}

fn refused(rule: Rule) -> String {
    Engine::new().unwrap().refuse(rule).unwrap_err().to_string()
}

fn late() -> std::time::SystemTime {
    UNIX_EPOCH + Duration::from_secs((1 << 32) + 7)
}

fn in_one_thread() -> String {
    let races = Races::new(1, 2).unwrap();
    let mut stream = races.connect().unwrap();
    let wrote = stream.write_all(INIT).and_then(|()| stream.read_exact(&mut [0]));
    wrote.unwrap_err().to_string()
}

fn dropped() -> String {
    let mut engine = Engine::with_keep(1).unwrap();
    engine.write_files([("/a", ""), ("/b", "")], at(0)).unwrap();
    engine.calls().unwrap_err().to_string()
}

fn sent() -> String {
    let mut engine = Engine::new().unwrap();
    let session = engine.open().unwrap();
    engine.sent(session, 1).unwrap_err().to_string()
}

/// What makes an error, and a part of its text.
type Row = (fn() -> String, &'static str);

#[test]
fn misuse() {
    let rows: Vec<Row> = vec![
        (|| file("/a\0b"), "path \"/a\\x00b\" has a NUL byte"),
        (|| file(&"a".repeat(256)), "aaa\" has a name of 256 bytes, and at most 255 are allowed"),
        (|| file(&"/aaaaa".repeat(1000)), "path has 6000 bytes, and at most 4096 are allowed"),
        (|| file("/a/.."), "path must not be the root"),
        (|| file(""), "path is empty, and / is the root"),
        (
            || Engine::from_files([("/f", ""), ("/f/g", "")], at(0)).unwrap_err().to_string(),
            "path \"/f/g\" must not be below the file \"/f\"",
        ),
        (
            || Engine::from_files([("/f", "")], late()).unwrap_err().to_string(),
            "from 1970 to 4294967295 seconds after that, not 4294967303 seconds after 1970",
        ),
        (
            || VirtualTime::new(UNIX_EPOCH - Duration::from_secs(1)).unwrap_err().to_string(),
            "moment must be from 1970 to 4294967295 seconds after that, not 1 seconds before",
        ),
        (|| connected(Faults::default().cut_after(1 << 60)), "cut_after must be from 0 to"),
        (|| connected(Faults::default().chunk(0)), "chunk must be from 1 to"),
        (sent, "fewer bytes"),
        (|| Races::new(1, 1000).unwrap_err().to_string(), "must be from 1 to 256, not 1000"),
        (
            || Races::replay(Engine::new().unwrap(), "1 b", 2).unwrap_err().to_string(),
            "schedule must be as 1x4 2 1x2, and \"b\" is not",
        ),
        (in_one_thread, "first call connect() 2 times"),
        (
            || refused(Rule::default().kind(Kind::Mkdir).flags(2)),
            "flags needs Kind::Open, or no kind",
        ),
        (dropped, "3 calls were dropped"),
    ];
    for (number, (does, says)) in rows.into_iter().enumerate() {
        let begin = Instant::now();
        let text = does();
        assert!(text.contains(says), "row {}: wanted {:?}, got {:?}", number, says, text);
        assert!(begin.elapsed() < Duration::from_secs(20), "row {}", number);
    }
}

/// A WRITE has a handle, which was opened with a path.
#[test]
fn a_write_is_rejected_by_its_path() {
    let server = Server::new(Engine::new().unwrap(), || at(0));
    let rule = server.refuse(Rule::default().kind(Kind::Write).path("/f")).unwrap();
    let mut client = Client::new(server.connect().unwrap()).unwrap();
    let failed = client.write("/f", "1").unwrap_err();
    assert!(matches!(
        failed.get_ref().and_then(|cause| cause.downcast_ref()),
        Some(Error::Status { code: 4, .. })
    ));
    assert_eq!(rule.refused(), 1);
}
