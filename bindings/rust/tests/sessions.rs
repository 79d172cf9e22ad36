//! Sessions packet by packet, and snapshots.

use lucernetick::unix_time as at;
use lucernetick::{
    Ending, Engine, Entry, Error, Races, Refusal, Server, Session, Turn, VirtualTime,
};
use std::time::Duration;
use version::VERSION;

mod version;

const STATUS: u8 = 101;
const HANDLE: u8 = 102;
const DATA: u8 = 103;
const NAME: u8 = 104;
const ATTRS: u8 = 105;

const INIT: &[u8] = b"\0\0\0\x05\x01\0\0\0\x03";
/// INIT, and MKDIR of `/a` under the id 7.
const MAKES: &[u8] = b"\0\0\0\x05\x01\0\0\0\x03\0\0\0\x0f\x0e\0\0\0\x07\0\0\0\x02/a\0\0\0\0";
/// INIT, and STAT of `/a` under the id 8.
const LOOKS: &[u8] = b"\0\0\0\x05\x01\0\0\0\x03\0\0\0\x0b\x11\0\0\0\x08\0\0\0\x02/a";

/// A request: its type, its id, and its encoded fields.
fn request(kind: u8, id: u32, fields: &[&[u8]]) -> Vec<u8> {
    let body = [&[kind][..], &id.to_be_bytes(), &fields.concat()].concat();
    [&(body.len() as u32).to_be_bytes()[..], &body].concat()
}

fn string(bytes: &[u8]) -> Vec<u8> {
    [&(bytes.len() as u32).to_be_bytes()[..], bytes].concat()
}

/// Opens a session and reads VERSION.
fn client(engine: &mut Engine) -> Session {
    let session = engine.open().unwrap();
    engine.feed(session, INIT).unwrap();
    assert_eq!(engine.settle(session, at(0), 10), Ok(Turn::Idle));
    assert_eq!(engine.take(session).unwrap().len(), VERSION);
    session
}

/// The body of the reply to a request with this timestamp.
fn ask(engine: &mut Engine, session: Session, moment: u32, request: &[u8]) -> Vec<u8> {
    engine.feed(session, request).unwrap();
    assert_eq!(engine.settle(session, at(moment), 1000), Ok(Turn::Idle));
    let reply = engine.take(session).unwrap();
    assert_eq!(reply[..4], (reply.len() as u32 - 4).to_be_bytes());
    reply[4..].to_vec()
}

/// STATUS OK with the id 1.
fn done() -> Vec<u8> {
    [&[STATUS, 0, 0, 0, 1, 0, 0, 0, 0][..], &string(b"Success"), &string(b"")].concat()
}

/// Attributes of a file: uid and gid 0, mode 0o644, and this timestamp.
fn file(size: u64, moment: u32) -> Vec<u8> {
    let times = [moment.to_be_bytes(), moment.to_be_bytes()].concat();
    let mode = 0o100644_u32.to_be_bytes();
    [&[0, 0, 0, 15][..], &size.to_be_bytes(), &[0; 8], &mode, &times].concat()
}

#[test]
fn write_read_list_rename() {
    let mut engine = Engine::new().unwrap();
    let session = client(&mut engine);
    let open = request(3, 1, &[&string(b"/f"), &[0, 0, 0, 11], &[0; 4]]);
    let opened = ask(&mut engine, session, 100, &open);
    assert_eq!(opened[..5], [HANDLE, 0, 0, 0, 1]);
    let handle = &opened[5..];
    let write = request(6, 1, &[handle, &[0; 8], &string(b"contents")]);
    assert_eq!(ask(&mut engine, session, 100, &write), done());
    let read = request(5, 1, &[handle, &4_u64.to_be_bytes(), &100_u32.to_be_bytes()]);
    let wanted = [&[DATA, 0, 0, 0, 1][..], &string(b"ents")].concat();
    assert_eq!(ask(&mut engine, session, 100, &read), wanted);
    assert_eq!(ask(&mut engine, session, 100, &request(4, 1, &[handle])), done());
    let rename = request(18, 1, &[&string(b"/f"), &string(b"/g")]);
    assert_eq!(ask(&mut engine, session, 100, &rename), done());

    let opened = ask(&mut engine, session, 100, &request(11, 1, &[&string(b"/")]));
    let listed = ask(&mut engine, session, 100, &request(12, 1, &[&opened[5..]]));
    let line = b"-rw-r--r--   1 0        0               8          100 g";
    let one = [&[NAME, 0, 0, 0, 1, 0, 0, 0, 1][..], &string(b"g"), &string(line)].concat();
    assert_eq!(listed, [one, file(8, 100)].concat());
}

#[test]
fn two_sessions_on_one_tree() {
    let mut engine = Engine::from_files([("/f", "12345")], at(100)).unwrap();
    let (first, second) = (client(&mut engine), client(&mut engine));
    let stat = request(17, 1, &[&string(b"/f")]);
    let wanted = [vec![ATTRS, 0, 0, 0, 1], file(5, 100)].concat();
    assert_eq!(ask(&mut engine, second, 0, &stat), wanted);
    assert_eq!(ask(&mut engine, first, 0, &request(13, 1, &[&string(b"/f")])), done());
    assert_eq!(ask(&mut engine, second, 0, &stat)[..9], [STATUS, 0, 0, 0, 1, 0, 0, 0, 2]);
}

#[test]
fn times_are_those_of_turns() {
    let mut engine = Engine::new().unwrap();
    let session = client(&mut engine);
    let open = request(3, 1, &[&string(b"/f"), &[0, 0, 0, 10], &[0; 4]]);
    ask(&mut engine, session, 4_000_000_000, &open);
    let stat = request(17, 1, &[&string(b"/f")]);
    let wanted = [vec![ATTRS, 0, 0, 0, 1], file(0, 4_000_000_000)].concat();
    assert_eq!(ask(&mut engine, session, 7, &stat), wanted);
    assert_eq!(engine.snapshot().unwrap()["/"].mtime, at(4_000_000_000));
}

/// What the turns of a schedule did, and the output of its two sessions. The second one asks for
/// `/a` before the first one has made it.
fn replay() -> (Vec<Turn>, [Vec<u8>; 2]) {
    let mut engine = Engine::new().unwrap();
    let (first, second) = (engine.open().unwrap(), engine.open().unwrap());
    engine.feed(first, MAKES).unwrap();
    engine.feed(second, LOOKS).unwrap();
    let turns = [first, second, second, first, first, second, first, second, second, second, first];
    let did = turns.iter().map(|session| engine.turn(*session, at(100)).unwrap()).collect();
    (did, [engine.output(first).unwrap(), engine.output(second).unwrap()])
}

#[test]
fn a_schedule_gives_the_same_bytes_each_time() {
    let (did, sent) = replay();
    assert_eq!(replay(), (did.clone(), sent.clone()));
    use Turn::*;
    assert_eq!(
        did,
        [Wrote, Wrote, Begun, Begun, Moved, Blocked, Decided, Moved, Decided, Wrote, Wrote]
    );
    let mode = 0o40755_u32.to_be_bytes();
    let head = [0, 0, 0, 37, ATTRS, 0, 0, 0, 8, 0, 0, 0, 15];
    let looked = [&head[..], &[0; 16], &mode, &[0, 0, 0, 100, 0, 0, 0, 100]].concat();
    assert_eq!(sent[1][VERSION..], looked);
}

/// A session with a rename in progress, with the id 7.
fn begun(engine: &mut Engine, old: &[u8], new: &[u8]) -> Session {
    let session = client(engine);
    engine.feed(session, &request(18, 7, &[&string(old), &string(new)])).unwrap();
    assert_eq!(engine.turn(session, at(100)), Ok(Turn::Begun));
    session
}

/// In rounds the first rename is ahead. It is decided after five rounds, in the last of which the
/// other one acquires the root. That takes three more, since its target is gone.
#[test]
fn crossing_renames_in_rounds() {
    let mut engine = Engine::new().unwrap();
    engine.make_directories("/a/x", at(0)).unwrap();
    engine.make_directories("/b/y", at(0)).unwrap();
    let first = begun(&mut engine, b"/a/x", b"/b/y/x");
    let second = begun(&mut engine, b"/b/y", b"/a/x/y");
    assert_eq!(engine.run_all(), 8);
    assert_eq!(engine.run_all(), 0);
    for (session, code, message) in [(second, 2, "No such file"), (first, 0, "Success")] {
        assert_eq!(engine.output(session), Ok(vec![]));
        assert_eq!(engine.turn(session, at(100)), Ok(Turn::Wrote));
        let head = [STATUS, 0, 0, 0, 7, 0, 0, 0, code];
        let wanted = [&head[..], &string(message.as_bytes()), &string(b"")].concat();
        assert_eq!(engine.take(session), Ok(string(&wanted)));
    }
    let found = engine.snapshot().unwrap();
    let paths = ["/", "/a", "/b", "/b/y", "/b/y/x"];
    assert!(found.paths().eq(paths));
}

#[test]
fn no_rounds_without_a_call_under_way() {
    let mut engine = Engine::new().unwrap();
    assert_eq!(engine.run_all(), 0);
    let session = client(&mut engine);
    engine.feed(session, &LOOKS[INIT.len()..]).unwrap();
    assert_eq!(engine.run_all(), 0);
    assert_eq!(engine.turn(session, at(0)), Ok(Turn::Begun));
}

#[test]
fn how_sessions_end() {
    let mut engine = Engine::new().unwrap();
    for (bytes, ending) in [
        (LOOKS[9..].to_vec(), Ending::NotInit),
        (b"\0\0\0\x05\x01\0\0\0\x02".to_vec(), Ending::OldVersion),
        ([INIT, INIT].concat(), Ending::SecondInit),
        (vec![0; 4], Ending::ZeroLength),
        (vec![0, 4, 0, 1], Ending::TooLong),
        (vec![0, 0, 0, 1, 1], Ending::NoId),
    ] {
        let session = engine.open().unwrap();
        engine.feed(session, &bytes).unwrap();
        assert_eq!(engine.settle(session, at(0), 10), Ok(Turn::Ended(ending)));
        assert_eq!(engine.feed(session, b"more"), Err(Refusal::HasEnded));
    }
}

#[test]
fn refusals() {
    let (mut engine, mut other) = (Engine::new().unwrap(), Engine::new().unwrap());
    let unknown = other.open().unwrap();
    assert_eq!(engine.turn(unknown, at(0)), Err(Refusal::NoSuchSession.into()));
    assert_eq!(engine.output(unknown), Err(Refusal::NoSuchSession));
    let session = client(&mut engine);
    assert_eq!(engine.sent(session, 1), Err(Refusal::NotSent));
    for number in 2..=256 {
        assert_eq!(engine.open().map(Session::number), Ok(number));
    }
    assert_eq!(engine.open(), Err(Refusal::TooManySessions));
    engine.close(session).unwrap();
    assert_eq!(engine.open().map(Session::number), Ok(257));
}

#[test]
fn files_at_the_start() {
    let long = vec![b'x'; 300000];
    let files = [("/a/b", &b"one"[..]), ("c", b""), ("/a/deep/er", &long)];
    let mut engine = Engine::from_files(files, at(77)).unwrap();
    engine.make_directories("/e", at(77)).unwrap();
    let found = engine.snapshot().unwrap();
    let paths = ["/", "/a", "/a/b", "/a/deep", "/a/deep/er", "/c", "/e"];
    assert!(found.paths().eq(paths));
    assert!(found.values().all(|entry| entry.mtime == at(77)));
    assert_eq!(found["/a/b"].contents().as_deref(), Some(&b"one"[..]));
    assert_eq!(found["/a/deep/er"].contents().as_deref(), Some(&long[..]));
    assert_eq!(found["/c"].contents().as_deref(), Some(&[][..]));
    assert!(found["/e"].is_directory() && found["/e"].contents().is_none());
    assert_eq!((found["/e"].permissions(), found["/c"].mode), (0o755, 0o100644));
}

#[test]
fn more_names_than_one_listing_has() {
    let files: Vec<_> = (0..100).map(|k| (format!("/d/{}", k), k.to_string())).collect();
    let engine = Engine::from_files(files.clone(), at(0)).unwrap();
    let found = engine.snapshot().unwrap();
    assert_eq!(found.len(), 102);
    for (path, contents) in files {
        assert_eq!(found[&path].contents().as_deref(), Some(contents.as_bytes()));
    }
}

#[test]
fn what_trees_refuse() {
    let mut engine = Engine::from_files([("/f", "")], at(0)).unwrap();
    let failed = engine.write_files([("/f/g", "")], at(0)).unwrap_err();
    assert!(matches!(failed, Error::Status { code: 4, .. }));
    // It makes missing parents, and there is a file.
    assert_eq!(failed.to_string(), "mkdir \"/f\": Failure");
    let held = engine.open().unwrap();
    engine.feed(held, MAKES).unwrap();
    for wanted in [Turn::Wrote, Turn::Begun, Turn::Moved] {
        assert_eq!(engine.turn(held, at(0)), Ok(wanted));
    }
    assert_eq!(engine.write_files([("/g", "")], at(0)), Err(Error::Blocked));
}

#[test]
fn an_engine_goes_to_another_thread() {
    let engine = Engine::from_files([("/f", "1")], at(0)).unwrap();
    let found = std::thread::spawn(move || engine.snapshot().unwrap().len()).join().unwrap();
    assert_eq!(found, 2);
}

/// Sets a file's size by a SETSTAT.
fn set_size(engine: &mut Engine, path: &str, size: u64) {
    let session = client(engine);
    let fields = [&string(path.as_bytes())[..], &[0, 0, 0, 1], &size.to_be_bytes()];
    assert_eq!(ask(engine, session, 0, &request(9, 1, &fields)), done());
    engine.close(session).unwrap();
}

/// Its holes are reported and not read.
#[test]
fn a_sparse_file() {
    let mut engine = Engine::from_files([("/d/f", "one")], at(0)).unwrap();
    set_size(&mut engine, "/d/f", 1 << 40);
    let session = client(&mut engine);
    let open = request(3, 1, &[&string(b"/d/f"), &[0, 0, 0, 2, 0, 0, 0, 0]]);
    let opened = ask(&mut engine, session, 0, &open);
    let offset = ((1_u64 << 39) + 5).to_be_bytes();
    let write = request(6, 1, &[&string(&opened[opened.len() - 8..]), &offset, &string(b"two")]);
    assert_eq!(ask(&mut engine, session, 0, &write), done());
    let found = &engine.snapshot().unwrap()["/d/f"];
    assert_eq!(found.size, 1 << 40);
    let places = found.pieces.iter().map(|piece| (piece.offset, piece.bytes.len()));
    assert!(places.eq([(0, 32768), (1 << 39, 32768)]));
    assert_eq!(found.pieces[0].bytes[..5], *b"one\0\0");
    assert_eq!(found.pieces[1].bytes[4..9], *b"\0two\0");
}

/// Written zeros are like a hole.
#[test]
fn a_gap_is_zeros() {
    let mut long = vec![0; 100_000];
    long[0] = b'1';
    let files = [("/f", long.clone()), ("/g", vec![b'1'])];
    let mut engine = Engine::from_files(files, at(0)).unwrap();
    set_size(&mut engine, "/g", 100_000);
    let found = engine.snapshot().unwrap();
    assert_eq!(found["/f"].contents().as_deref(), Some(&long[..]));
    assert_eq!(found["/g"].pieces, found["/f"].pieces);
}

/// A snapshot opens no session, so it works when all 256 are open. It records no call, and does not
/// change.
#[test]
fn a_snapshot_asks_for_nothing() {
    let long = vec![b'1'; 40_000];
    let mut engine = Engine::from_files([("/f", long.clone())], at(0)).unwrap();
    let before = engine.calls().unwrap();
    let first = engine.open().unwrap();
    let found = engine.snapshot().unwrap();
    assert_eq!(engine.calls().unwrap(), before);
    for count in 1..=255 {
        assert_eq!(engine.open().map(Session::number), Ok(first.number() + count));
    }
    assert_eq!(engine.snapshot().as_ref(), Ok(&found));
    drop(engine);
    assert_eq!(found["/f"].contents().as_deref(), Some(&long[..]));
}

/// It has the effects of earlier calls.
#[test]
fn a_snapshot_while_a_call_stands_half_way() {
    let mut engine = Engine::new().unwrap();
    let held = engine.open().unwrap();
    engine.feed(held, MAKES).unwrap();
    for wanted in [Turn::Wrote, Turn::Begun, Turn::Moved] {
        assert_eq!(engine.turn(held, at(0)), Ok(wanted));
        assert!(engine.snapshot().unwrap().paths().eq(["/"]));
    }
    assert_eq!(engine.turn(held, at(0)), Ok(Turn::Decided));
    assert!(engine.snapshot().unwrap().paths().eq(["/", "/a"]));
}

#[test]
fn who_wants_bytes() {
    let (mut engine, mut other) = (Engine::new().unwrap(), Engine::new().unwrap());
    let session = engine.open().unwrap();
    let unknown = [other.open().unwrap(), other.open().unwrap()][1];
    assert!(engine.wants_bytes(session));
    engine.feed(session, &MAKES[..5]).unwrap();
    assert!(engine.wants_bytes(session));
    engine.feed(session, &MAKES[5..]).unwrap();
    for wanted in [Turn::Wrote, Turn::Begun, Turn::Moved, Turn::Decided, Turn::Wrote] {
        assert!(!engine.wants_bytes(session));
        assert_eq!(engine.turn(session, at(0)), Ok(wanted));
    }
    assert!(engine.wants_bytes(session));
    engine.close(session).unwrap();
    assert!(!engine.wants_bytes(session) && !engine.wants_bytes(unknown));
}

#[test]
fn a_path_is_asked_for_as_text_or_as_bytes() {
    let engine = Engine::from_files([(&b"/a/\xff"[..], "1"), (b"/b", "2")], at(0)).unwrap();
    let found = engine.snapshot().unwrap();
    let name = String::from("/b");
    assert_eq!(
        (&found["/b"], &found[&name], &found[b"/b"]),
        (&found[name.as_bytes()], &found[&b"/b".to_vec()], &found["/b"])
    );
    assert_eq!(found[b"/a/\xff"].contents().as_deref(), Some(&b"1"[..]));
    assert_eq!(found.get("/a").map(Entry::is_directory), Some(true));
    assert_eq!((found.get("/c"), found.contains(b"/a"), found.len()), (None, true, 4));
    assert!(found.paths().eq(["/", "/a", "/a/\u{fffd}", "/b"]));
    assert!(found.keys().eq([&b"/"[..], b"/a", b"/a/\xff", b"/b"]));
    assert!(found.iter().map(|(path, _)| path).eq(found.keys()));
    assert!((&found).into_iter().map(|(_, entry)| entry).eq(found.values()));
}

#[test]
#[should_panic(expected = "nothing has the path /c")]
fn a_path_that_is_not_there() {
    let _ = &Engine::new().unwrap().snapshot().unwrap()["/c"];
}

/// What a failed test prints.
#[test]
fn engines_and_servers_are_printed() {
    let engine = Engine::new().unwrap();
    assert_eq!(format!("{:?}", engine), "Engine { .. }");
    let server = Server::new(engine, || at(0));
    let _line = server.connect().unwrap();
    assert_eq!(format!("{:?}", server), "Server { sessions: 1, .. }");
}

/// What is out of range is an error with the argument's name, and changes nothing.
#[test]
fn arguments_that_are_wrong() {
    let mut engine = Engine::new().unwrap();
    let session = engine.open().unwrap();
    let late = at(u32::MAX) + Duration::from_secs(1);
    let early = at(0) - Duration::from_secs(1);
    let long = "/a".repeat(2049);
    let name = "a".repeat(256);
    for (found, wanted) in [
        (engine.turn(session, late).err(), "moment"),
        (engine.settle(session, early, 1).err(), "moment"),
        (engine.write_files([("/f", "")], late).err(), "moment"),
        (engine.write_files([("/a\0b", "")], at(0)).err(), "path \"/a\\x00b\" has a NUL byte"),
        (engine.make_directories(&long, at(0)).err(), "path has 4098 bytes, and at most 4096"),
        (engine.make_directories(&name, at(0)).err(), "path \"aaa"),
        (engine.hard_link("\0", "/f", at(0)).err(), "old \"\\x00\" has a NUL byte"),
        (VirtualTime::new(early).err(), "moment"),
        (VirtualTime::default().advance(Duration::MAX).err(), "by"),
        (Races::new(0, 0).err(), "clients must be from 1 to 256, not 0"),
        (Races::new(0, 257).err(), "clients must be from 1 to 256, not 257"),
        (Races::replay(Engine::new().unwrap(), "1x", 2).err(), "schedule"),
    ] {
        match found {
            Some(Error::Argument(why)) => assert!(why.starts_with(wanted), "{}", why),
            other => panic!("{:?} for {}", other, wanted),
        }
    }
    assert!(engine.snapshot().unwrap().paths().eq(["/"]));
}
