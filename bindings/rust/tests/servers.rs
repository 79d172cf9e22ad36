//! Connections of a server in this process.

use lucernetick::unix_time as at;
use lucernetick::{Call, Client, Connection, Engine, Error, Kind, OnCall, Refusal, Rule, Server};
use lucernetick::{Faults, Session, Turn};
use std::collections::BTreeSet;
use std::io::{ErrorKind, Read, Write};
use std::os::unix::net::UnixStream;
use std::process;
use std::sync::Arc;
use std::thread;
use std::time::Duration;
use version::VERSION;

mod version;

const INIT: &[u8] = b"\0\0\0\x05\x01\0\0\0\x03";
/// INIT, and MKDIR of `/a` under the id 7.
const MAKES: &[u8] = b"\0\0\0\x05\x01\0\0\0\x03\0\0\0\x0f\x0e\0\0\0\x07\0\0\0\x02/a\0\0\0\0";
/// INIT, and STAT of `/a` under the id 8.
const LOOKS: &[u8] = b"\0\0\0\x05\x01\0\0\0\x03\0\0\0\x0b\x11\0\0\0\x08\0\0\0\x02/a";
/// STAT of `/a/f` under the id 8.
const LOOKS_BELOW: &[u8] = b"\0\0\0\x0d\x11\0\0\0\x08\0\0\0\x04/a/f";
/// A timeout for events that are immediate on an idle machine.
const LIMIT: Duration = Duration::from_secs(120);

/// Fifty concurrent sessions, each of which makes `/dNN` and reads its attributes.
#[test]
fn fifty_sessions_at_once() {
    let server = Server::new(Engine::new().unwrap(), || at(7));
    thread::scope(|scope| {
        for number in 0..50 {
            let mut line = server.connect().unwrap();
            scope.spawn(move || {
                let path = format!("/d{:02}", number);
                let mkdir =
                    [b"\0\0\0\x11\x0e\0\0\0\x01\0\0\0\x04", path.as_bytes(), &[0; 4]].concat();
                let stat = [b"\0\0\0\x0d\x11\0\0\0\x02\0\0\0\x04", path.as_bytes()].concat();
                line.write_all(&[INIT, &mkdir, &stat].concat()).unwrap();
                let replies = take(&mut line, VERSION + 28 + 41);
                assert_eq!(
                    (replies[VERSION + 12], &replies[VERSION + 28 + 37..]),
                    (0, &[0, 0, 0, 7][..])
                );
            });
        }
    });
    assert_eq!(server.snapshot().unwrap().len(), 1 + 50);
    let made = server.calls().unwrap().into_iter().filter(|call| call.kind == Kind::Mkdir);
    assert_eq!(made.map(|call| call.session).collect::<BTreeSet<_>>().len(), 50);
}

/// A session controlled by the test, fed with these bytes.
fn fed(server: &Server, bytes: &[u8]) -> Session {
    server.with_engine(|engine| {
        let session = engine.open().unwrap();
        engine.feed(session, bytes).unwrap();
        session
    })
}

/// Runs this number of turns with the timestamp 100; the session's call is then in progress.
fn hold(server: &Server, session: Session, turns: u64) {
    let turn = |_| server.with_engine(|engine| engine.turn(session, at(100)).unwrap());
    let did: Vec<Turn> = (0..turns).map(turn).collect();
    assert_eq!(did.last(), Some(&Turn::Moved));
}

/// Runs turns with the timestamp 100.
fn settle(server: &Server, session: Session, most: u64) -> Turn {
    server.with_engine(|engine| engine.settle(session, at(100), most).unwrap())
}

/// Reads this number of bytes, which arrive soon.
fn take(line: &mut UnixStream, count: usize) -> Vec<u8> {
    line.set_read_timeout(Some(LIMIT)).unwrap();
    let mut bytes = vec![0; count];
    line.read_exact(&mut bytes).unwrap();
    bytes
}

#[test]
fn a_connection_waits_for_a_call_that_is_held() {
    let server = Server::new(Engine::new().unwrap(), || at(0));
    let held = fed(&server, MAKES);
    // VERSION, the beginning of the call, and the root acquired.
    hold(&server, held, 3);

    let mut line = server.connect().unwrap();
    line.write_all(LOOKS).unwrap();
    take(&mut line, VERSION);
    line.set_read_timeout(Some(Duration::from_millis(300))).unwrap();
    let nothing = line.read(&mut [0]).unwrap_err();
    assert_eq!(nothing.kind(), ErrorKind::WouldBlock);

    assert_eq!(settle(&server, held, 1000), Turn::Idle);
    let reply = take(&mut line, 41);
    assert_eq!((reply[4], &reply[37..]), (105, &[0, 0, 0, 100][..]));
}

/// A client that a paused session blocks continues after `run_all` has completed both calls.
#[test]
fn rounds_carry_out_the_calls_of_connections() {
    let server = Server::new(Engine::new().unwrap(), || at(0));
    let held = fed(&server, MAKES);
    hold(&server, held, 3);

    let mut line = server.connect().unwrap();
    line.write_all(LOOKS).unwrap();
    take(&mut line, VERSION);
    line.set_read_timeout(Some(Duration::from_millis(300))).unwrap();
    let nothing = line.read(&mut [0]).unwrap_err();
    assert_eq!(nothing.kind(), ErrorKind::WouldBlock);

    assert!(server.with_engine(Engine::run_all) > 0);
    let reply = take(&mut line, 41);
    assert_eq!((reply[4], &reply[37..]), (105, &[0, 0, 0, 100][..]));
}

/// Whether a call holds the root: the probe looks up a missing name there.
fn root_is_held(server: &Server, probe: Session) -> bool {
    let looks = b"\0\0\0\x0b\x11\0\0\0\x08\0\0\0\x02/z";
    server.with_engine(|engine| engine.feed(probe, looks).unwrap());
    settle(server, probe, 1000) == Turn::Blocked
}

/// A call paused in `/a` blocks one that needs `/a` and holds the root, which blocks all others.
/// When the first one continues, all others do, in whatever order their threads wake up.
#[test]
fn blocked_connections_go_on_one_after_the_other() {
    for _ in 0..20 {
        let server = Server::new(Engine::from_files([("/a/f", "1")], at(0)).unwrap(), || at(0));
        let probe = fed(&server, INIT);
        let held = fed(&server, &[INIT, LOOKS_BELOW].concat());
        hold(&server, held, 4);
        assert!(!root_is_held(&server, probe));
        let mut lines = vec![server.connect().unwrap()];
        lines[0].write_all(&[INIT, LOOKS_BELOW].concat()).unwrap();
        while !root_is_held(&server, probe) {
            thread::sleep(Duration::from_millis(1));
        }
        lines.extend((0..6).map(|_| server.connect().unwrap()));
        for line in &mut lines[1..] {
            line.write_all(LOOKS).unwrap();
            take(line, VERSION);
        }
        thread::sleep(Duration::from_millis(5));
        assert_eq!(settle(&server, held, 1000), Turn::Idle);
        take(&mut lines[0], VERSION);
        assert!(lines.iter_mut().all(|line| take(line, 41)[4] == 105));
    }
}

#[test]
fn a_call_is_carried_out_though_its_client_has_gone() {
    let server = Server::new(Engine::new().unwrap(), || at(5));
    let held = fed(&server, LOOKS);
    hold(&server, held, 3);

    let mut line = server.connect().unwrap();
    line.write_all(MAKES).unwrap();
    take(&mut line, VERSION);
    drop(line);
    assert_eq!(settle(&server, held, 1000), Turn::Idle);
    let made = (0..1000).any(|_| {
        thread::sleep(Duration::from_millis(10));
        server.snapshot().map_or(false, |found| found.contains("/a"))
    });
    assert!(made);
}

#[test]
fn clients_that_go_free_their_sessions() {
    let server = Server::new(Engine::new().unwrap(), || at(0));
    for number in 1..=600 {
        let mut line = server.connect().unwrap();
        line.write_all(INIT).unwrap();
        assert_eq!(take(&mut line, VERSION)[4], 2, "session {}", number);
        line.shutdown(std::net::Shutdown::Write).unwrap();
        assert_eq!(line.read(&mut [0]).unwrap(), 0);
    }
}

/// The next packet.
fn reply(line: &mut UnixStream) -> Vec<u8> {
    let length = take(line, 4);
    let count = u32::from_be_bytes([length[0], length[1], length[2], length[3]]);
    take(line, count as usize)
}

#[test]
fn a_client_may_send_much_before_it_reads() {
    let contents: Vec<u8> = (0..32768_u32).map(|k| (k % 251) as u8).collect();
    let engine = Engine::from_files([("/f", contents.clone())], at(0)).unwrap();
    let server = Server::new(engine, || at(0));
    let mut line = server.connect().unwrap();
    line.set_write_timeout(Some(LIMIT)).unwrap();
    line.write_all(INIT).unwrap();
    reply(&mut line);
    // OPEN of `/f` for reading.
    line.write_all(b"\0\0\0\x13\x03\0\0\0\0\0\0\0\x02/f\0\0\0\x01\0\0\0\0").unwrap();
    let opened = reply(&mut line);
    let asks = |number: u32| {
        // READ of its first 32768 bytes.
        let head = [b"\0\0\0\x1d\x05".as_slice(), &number.to_be_bytes()].concat();
        [&head, &opened[5..], &[0; 8], b"\0\0\x80\0".as_slice()].concat()
    };
    line.write_all(&(0..10_000).flat_map(asks).collect::<Vec<u8>>()).unwrap();
    for number in 0..10_000_u32 {
        let got = reply(&mut line);
        assert_eq!((got[0], &got[1..5]), (103, &number.to_be_bytes()[..]));
        assert!(got[9..] == contents[..]);
    }
    line.shutdown(std::net::Shutdown::Write).unwrap();
    assert_eq!(line.read(&mut [0]).unwrap(), 0);
}

#[test]
fn a_session_that_ends_closes_its_connection() {
    let server = Server::new(Engine::new().unwrap(), || at(0));
    let mut line = server.connect().unwrap();
    line.write_all(&[0; 4]).unwrap();
    line.set_read_timeout(Some(LIMIT)).unwrap();
    assert_eq!(line.read(&mut [0]).unwrap(), 0);
}

/// Waits for the end of a connection.
fn has_ended(line: &mut Connection) -> bool {
    line.set_read_timeout(Some(LIMIT)).unwrap();
    matches!(line.read(&mut [0; 1000]), Ok(0))
}

/// A thread that dies ends all connections, and no client waits for ever. The error has the panic.
fn stops(server: Server, wanted: &str) {
    let mut idle = server.connect().unwrap();
    let mut unlucky = server.connect().unwrap();
    unlucky.write_all(MAKES).unwrap();
    assert!(has_ended(&mut idle));
    let fault = server.snapshot().unwrap_err();
    assert!(matches!(&fault, Error::Stopped(why) if why.contains(wanted)), "{:?}", fault);
    assert_eq!(server.connect().unwrap_err().kind(), ErrorKind::BrokenPipe);
    assert_eq!(server.calls().unwrap_err(), fault);
    assert_eq!(server.wait_for("/a", LIMIT).unwrap_err(), fault);
    assert_eq!(server.close(), Err(fault));
}

#[test]
fn a_clock_that_panics_stops_the_server() {
    stops(Server::new(Engine::new().unwrap(), || panic!("an unlucky time")), "an unlucky time");
}

#[test]
fn a_clock_out_of_range_stops_the_server() {
    let late = at(u32::MAX) + Duration::from_secs(1);
    stops(Server::new(Engine::new().unwrap(), move || late), "the clock's result must be from");
}

#[test]
fn a_rule_that_panics_stops_the_server() {
    let server = Server::new(Engine::new().unwrap(), || at(0));
    server.refuse(Rule::default().when(|_| panic!("a broken rule"))).unwrap();
    stops(server, "a broken rule");
}

/// It would wait for itself.
#[test]
fn a_callback_that_uses_its_server_stops_it() {
    let server = Arc::new(Server::new(Engine::new().unwrap(), || at(0)));
    let same = Arc::downgrade(&server);
    let callback = move |_: &mut Engine, _: &Call| drop(same.upgrade().unwrap().snapshot());
    server.on_call(OnCall::default().after(callback)).unwrap();
    let mut client = Client::new(server.connect().unwrap()).unwrap();
    assert!(client.make_directory("/a").is_err());
    let fault = server.snapshot().unwrap_err();
    assert!(fault.to_string().contains("this thread would wait for itself"), "{}", fault);
}

/// As above, without a callback.
#[test]
#[should_panic(expected = "this thread would wait for itself")]
fn an_engine_that_is_lent_twice() {
    let server = Server::new(Engine::new().unwrap(), || at(0));
    server.with_engine(|_| server.snapshot().is_ok());
}

#[test]
fn a_server_without_faults_is_closed() {
    let server = Server::new(Engine::new().unwrap(), || at(0));
    let mut client = Client::new(server.connect().unwrap()).unwrap();
    client.make_directory("/a").unwrap();
    assert_eq!(server.close(), Ok(()));
    assert!(client.make_directory("/b").is_err());
}

/// The small client of this crate, with more than one packet for each request.
#[test]
fn the_small_client() {
    let files = [("/d/a", "1"), ("/d/b", "2")];
    let engine = Engine::from_files(files, at(100)).unwrap();
    let server = Server::new(engine, || at(7));
    let mut client = Client::new(server.connect().unwrap()).unwrap();
    let contents: Vec<u8> = (0..100_000_u32).map(|k| (k % 251) as u8).collect();
    client.write("/f", &contents).unwrap();
    assert!(client.read("/f").unwrap() == contents);
    assert_eq!(client.list("/d").unwrap(), [b"a", b"b"]);
    assert_eq!(client.modified("/d/a").unwrap(), at(100));
    assert_eq!(client.modified("/f").unwrap(), at(7));
    assert_eq!(client.rename("/d/a", "/d/b").unwrap_err().kind(), ErrorKind::Other);
    client.posix_rename("/d/a", "/d/b").unwrap();
    assert_eq!(client.read("/d/b").unwrap(), b"1");
    client.make_directory("/e").unwrap();
    client.remove_directory("/e").unwrap();
    client.remove("/f").unwrap();
    let missing = client.read("/f").unwrap_err();
    assert_eq!(missing.kind(), ErrorKind::NotFound);
    assert_eq!(missing.to_string(), "open \"/f\": No such file");
    assert!(server.snapshot().unwrap().paths().eq(["/", "/d", "/d/b"]));
}

#[test]
fn files_with_the_time_of_the_clock() {
    let server = Server::new(Engine::new().unwrap(), || at(7));
    server.write_files([("/a", "1")]).unwrap();
    assert_eq!(server.snapshot().unwrap()["/a"].mtime, at(7));
}

#[test]
fn a_257th_client_is_refused() {
    let server = Server::new(Engine::new().unwrap(), || at(0));
    let lines: Vec<Connection> = (0..256).map(|_| server.connect().unwrap()).collect();
    let refused = server.connect().unwrap_err();
    assert_eq!(refused.to_string(), "256 sessions are open");
    assert_eq!(server.with_engine(Engine::open), Err(Refusal::TooManySessions));
    assert_eq!(lines.len(), 256);
}

/// One client waits for replies, one has a blocked call, and one does not read its large
/// replies.
#[test]
fn a_server_that_is_dropped_ends_its_connections() {
    let mut server = Server::new(Engine::from_files([("/f", "1")], at(0)).unwrap(), || at(0));
    let socket = std::env::temp_dir().join(format!("lucernetick-{}-dropped", process::id()));
    server.listen(&socket).unwrap();
    let mut waits = UnixStream::connect(&socket).unwrap();
    waits.write_all(INIT).unwrap();
    take(&mut waits, VERSION);
    let mut reads_none = server.connect().unwrap();
    reads_none.set_write_timeout(Some(Duration::from_millis(300))).unwrap();
    reads_none.write_all(INIT).unwrap();
    while reads_none.write_all(&LOOKS[INIT.len()..]).is_ok() {}
    let held = fed(&server, MAKES);
    hold(&server, held, 3);
    let mut blocked = server.connect().unwrap();
    blocked.write_all(LOOKS).unwrap();
    take(&mut blocked, VERSION);
    drop(server);
    assert!(UnixStream::connect(&socket).is_err() && !socket.exists());
    assert_eq!(waits.read(&mut [0]).unwrap(), 0);
    assert_eq!(blocked.read(&mut [0]).unwrap(), 0);
}

/// Clients with a root each, which they can neither leave nor remove.
#[test]
fn clients_with_roots() {
    let files = [("/ann/f", "1"), ("/bob/g", "2")];
    let server = Server::new(Engine::from_files(files, at(100)).unwrap(), || at(7));
    let connect =
        |root: &str| Client::new(server.connect_at(root, Faults::default()).unwrap()).unwrap();
    let (mut ann, mut bob) = (connect("/ann"), connect("/bob/"));
    assert_eq!(ann.list("/").unwrap(), [b"f"]);
    assert_eq!(ann.read("/../bob/g").unwrap_err().kind(), ErrorKind::NotFound);
    ann.rename("/f", "h").unwrap();
    ann.posix_rename("h", "/d/../i").unwrap();
    bob.remove("/g").unwrap();
    assert!(bob.remove_directory("/").is_err());
    assert!(ann.rename("/", "/x").is_err());
    assert!(server.snapshot().unwrap().paths().eq(["/", "/ann", "/ann/i", "/bob"]));
    let rule = server.refuse(Rule::default().path("/bob/n")).unwrap();
    assert!(bob.write("/n", "1").is_err() && ann.write("/n", "1").is_ok());
    assert_eq!(rule.refused(), 1);
}

/// The output of a test that panics has the last calls.
#[test]
fn a_test_that_panics() {
    let words = ["--exact", "it_panics", "--ignored", "--nocapture"];
    let run = process::Command::new(std::env::current_exe().unwrap()).args(words).output();
    let text = String::from_utf8_lossy(&run.unwrap().stderr).into_owned();
    let line = "\n  session 1 call 1 at 7: mkdir \"/a\" -> Success";
    assert!(text.contains("a failed assertion") && text.contains(line), "{}", text);
}

/// Run by `a_test_that_panics` in another process.
#[test]
#[ignore]
fn it_panics() {
    let server = Server::new(Engine::new().unwrap(), || at(7));
    Client::new(server.connect().unwrap()).unwrap().make_directory("/a").unwrap();
    panic!("a failed assertion");
}
