//! Records of calls, callbacks, and waiting for calls.

use lucernetick::unix_time as at;
use lucernetick::{Answer, Client, Engine, Error, Faults, Kind, OnCall, Rule, Server, Session};
use std::sync::mpsc;
use std::thread;
use std::time::{Duration, Instant};

/// INIT for version 3, MKDIR of `/a`, and STAT of `/a`.
const ASKS: &[u8] = b"\0\0\0\x05\x01\0\0\0\x03\
    \0\0\0\x0f\x0e\0\0\0\x07\0\0\0\x02/a\0\0\0\0\
    \0\0\0\x0b\x11\0\0\0\x08\0\0\0\x02/a";

/// RENAME of `/a` to `/b`, OPENDIR of `/`, and READDIR by its handle.
const RENAMES: &[u8] = b"\0\0\0\x11\x12\0\0\0\x09\0\0\0\x02/a\0\0\0\x02/b\
    \0\0\0\x0a\x0b\0\0\0\x0a\0\0\0\x01/\
    \0\0\0\x11\x0c\0\0\0\x0b\0\0\0\x08\0\0\0\0\0\0\0\x04";
/// A timeout for events that are immediate on an idle machine.
const LIMIT: Duration = Duration::from_secs(120);
/// A timeout for what does not happen.
const SHORT: Duration = Duration::from_millis(100);

/// A session that has sent these requests, with the timestamp 7.
fn asked(engine: &mut Engine, bytes: &[u8]) -> Session {
    let session = engine.open().unwrap();
    engine.feed(session, bytes).unwrap();
    engine.settle(session, at(7), 100).unwrap();
    session
}

fn empty_server() -> Server {
    Server::new(Engine::new().unwrap(), || at(7))
}

#[test]
fn what_a_client_asked_and_was_answered() {
    let mut engine = Engine::new().unwrap();
    asked(&mut engine, &[ASKS, RENAMES].concat());
    let calls = engine.calls().unwrap();
    let kinds = [Kind::Mkdir, Kind::Stat, Kind::Rename, Kind::Opendir, Kind::Readdir];
    assert_eq!(calls.iter().map(|call| call.kind).collect::<Vec<_>>(), kinds);
    assert!(calls.iter().all(|call| (call.session, call.moment) == (1, at(7))));
    assert!(calls.iter().all(|call| call.answer.is_ok()));
    assert_eq!((calls[0].path.as_slice(), &calls[0].answer), (&b"/a"[..], &Answer::Status(0)));
    match &calls[1].answer {
        Answer::Attributes(found) => {
            assert_eq!((found.permissions, found.mtime), (Some(0o40755), Some(at(7))));
        }
        other => panic!("answered {:?}", other),
    }
    assert_eq!((calls[2].path.as_slice(), calls[2].new_path.as_slice()), (&b"/a"[..], &b"/b"[..]));
    assert_eq!((&calls[3].answer, calls[4].handle), (&Answer::Handle(4), 4));
    assert_eq!(calls[4].answer, Answer::Names(vec![b"b".to_vec()]));
    let lines = [
        "session 1 call 1 at 7: mkdir \"/a\" -> Success",
        "session 1 call 2 at 7: stat \"/a\" -> attributes",
        "session 1 call 3 at 7: rename \"/a\" \"/b\" -> Success",
        "session 1 call 4 at 7: opendir \"/\" -> handle 4",
        "session 1 call 5 at 7: readdir handle 4 -> names 1",
    ];
    assert!(calls.iter().map(ToString::to_string).eq(lines));
}

/// By default all calls are kept, so that what is not among them did not happen.
#[test]
fn all_calls_are_kept() {
    let server = empty_server();
    let mut client = Client::new(server.connect().unwrap()).unwrap();
    client.list("/").unwrap();
    client.write("/f", vec![1; 300 * 32768]).unwrap();
    let calls = server.calls().unwrap();
    let count = |kind| calls.iter().filter(|call| call.kind == kind).count();
    assert_eq!([Kind::Opendir, Kind::Open, Kind::Write].map(count), [1, 1, 300]);
    assert_eq!(server.dropped(), 0);
}

/// `calls` never lacks a call without an error.
#[test]
fn dropped_calls_are_an_error() {
    let mut engine = Engine::with_keep(2).unwrap();
    let session = asked(&mut engine, ASKS);
    assert_eq!((engine.calls().unwrap().len(), engine.dropped()), (2, 0));
    engine.feed(session, RENAMES).unwrap();
    engine.settle(session, at(7), 100).unwrap();
    let numbers = |engine: &mut Engine| -> Vec<u64> {
        engine.last_calls().unwrap().iter().map(|call| call.number).collect()
    };
    assert_eq!(numbers(&mut engine), [4, 5]);
    assert_eq!((engine.calls(), engine.dropped()), (Err(Error::Dropped(3)), 3));
    // The end of a session is no call.
    engine.close(session).unwrap();
    assert_eq!(numbers(&mut engine), [4, 5]);
}

/// A file takes more WRITEs than the library keeps, since a packet has at most 262144 bytes.
#[test]
fn dropped_calls_are_counted() {
    let mut engine = Engine::with_keep(3).unwrap();
    engine.write_files([("/f", vec![1; 600 << 18])], at(0)).unwrap();
    let calls = engine.last_calls().unwrap();
    assert_eq!((calls.len(), calls[2].kind), (3, Kind::Close));
    let last = calls[2].number;
    assert!(last > 600);
    assert_eq!(engine.dropped(), last - 3);
    // Its calls are OPEN, WRITE and CLOSE.
    engine.write_files([("/g", "1")], at(0)).unwrap();
    assert_eq!(engine.calls(), Err(Error::Dropped(last)));
}

#[test]
fn callbacks_before_and_after() {
    let server = empty_server();
    let (notes, seen) = mpsc::channel();
    let after = notes.clone();
    let hook = server
        .on_call(
            OnCall::default()
                .before(move |engine, request| {
                    let paths = engine.snapshot().unwrap().len();
                    notes.send(format!("{} {}", request.kind, paths)).unwrap();
                })
                .after(move |engine, call| {
                    let paths = engine.snapshot().unwrap().len();
                    after.send(format!("{} {}", call, paths)).unwrap();
                }),
        )
        .unwrap();
    let mut client = Client::new(server.connect().unwrap()).unwrap();
    client.make_directory("/a").unwrap();
    client.write("/a/f", "1").unwrap();
    hook.end();
    client.make_directory("/b").unwrap();
    let wanted = [
        "mkdir 1",
        "session 1 call 1 at 7: mkdir \"/a\" -> Success 2",
        "open 2",
        "session 1 call 2 at 7: open \"/a/f\" -> handle 2 3",
        "write 3",
        "session 1 call 3 at 7: write handle 2 offset 0 length 1 -> Success 3",
        "close 3",
        "session 1 call 4 at 7: close handle 2 -> Success 3",
    ];
    assert!(seen.try_iter().eq(wanted));
}

/// A callback may add a rule: here after the first file nothing can be made.
#[test]
fn a_callback_that_gives_a_rule() {
    let server = empty_server();
    let after = |engine: &mut Engine, _: &_| {
        engine.refuse(Rule::read_only()).unwrap();
    };
    server.on_call(OnCall::default().after(after)).unwrap();
    let mut client = Client::new(server.connect().unwrap()).unwrap();
    client.make_directory("/a").unwrap();
    assert!(client.make_directory("/b").is_err());
}

/// The entry is there when the file is complete, not when it is opened.
#[test]
fn waiting_for_a_file() {
    let server = empty_server();
    let slow = Faults::default().delay(Duration::from_millis(20));
    let connection = server.connect_with(slow).unwrap();
    thread::scope(|scope| {
        scope.spawn(|| {
            let mut client = Client::new(connection).unwrap();
            client.make_directory("/out").unwrap();
            client.write("/out/f", vec![1; 100_000]).unwrap();
        });
        let found = server.wait_for("/x/../out//f", LIMIT).unwrap();
        assert_eq!(found.size, 100_000);
        assert!(server.wait_for("/out", SHORT).unwrap().is_directory());
    });
}

#[test]
fn waiting_in_vain() {
    let server = empty_server();
    let mut client = Client::new(server.connect().unwrap()).unwrap();
    let begin = Instant::now();
    let late = server.wait_for("/a", SHORT).unwrap_err();
    assert!(begin.elapsed() >= SHORT);
    let wanted = "no complete file at /a within 100ms; no client made a call";
    assert_eq!(late, Error::TimedOut(wanted.to_string()));
    client.make_directory("/b").unwrap();
    let late = server.wait_for_call(|call| call.path == b"/a", SHORT).unwrap_err();
    let wanted = "no such call within 100ms; the last calls:\n  \
                  session 1 call 1 at 7: mkdir \"/b\" -> Success";
    assert_eq!(late, Error::TimedOut(wanted.to_string()));
}

/// Earlier calls count, and later ones wake the thread that waits.
#[test]
fn waiting_for_a_call() {
    let server = empty_server();
    let mut client = Client::new(server.connect().unwrap()).unwrap();
    client.make_directory("/a").unwrap();
    let made = server.wait_for_call(|call| call.kind == Kind::Mkdir, SHORT).unwrap();
    assert_eq!(made.path, b"/a");
    thread::scope(|scope| {
        scope.spawn(|| {
            thread::sleep(SHORT);
            client.remove_directory("/a").unwrap();
        });
        let removed = server.wait_for_call(|call| call.kind == Kind::Rmdir, LIMIT).unwrap();
        assert_eq!((removed.path, removed.number), (b"/a".to_vec(), 2));
    });
}
