//! Injected errors.

use lucernetick::unix_time as at;
use lucernetick::{escape, Connection, Session, Status, Turn};
use lucernetick::{wall_clock, Client, Engine, Error, GivenRule, Kind, OpenFlag, Rule, Server};
use std::io::{self, ErrorKind, Read, Write};
use version::VERSION;

mod version;

const INIT: &[u8] = b"\0\0\0\x05\x01\0\0\0\x03";

/// MKDIR of a path of two bytes, with this id.
fn mkdir(id: u8, path: &[u8; 2]) -> Vec<u8> {
    [&[0, 0, 0, 15, 14, 0, 0, 0, id, 0, 0, 0, 2][..], path, &[0; 4]].concat()
}

/// Opens a session and reads VERSION.
fn client(engine: &mut Engine) -> Session {
    let session = engine.open().unwrap();
    engine.feed(session, INIT).unwrap();
    assert_eq!(engine.settle(session, at(100), 10), Ok(Turn::Idle));
    assert_eq!(engine.take(session).unwrap().len(), VERSION);
    session
}

/// The status codes of the replies to these requests.
fn codes(engine: &mut Engine, session: Session, requests: &[Vec<u8>]) -> Vec<u8> {
    engine.feed(session, &requests.concat()).unwrap();
    assert_eq!(engine.settle(session, at(100), 1000), Ok(Turn::Idle));
    codes_in(&engine.take(session).unwrap())
}

fn codes_in(mut replies: &[u8]) -> Vec<u8> {
    let mut codes = Vec::new();
    while !replies.is_empty() {
        codes.push(replies[12]);
        replies = &replies[4 + usize::from(replies[3])..];
    }
    codes
}

fn four() -> Vec<Vec<u8>> {
    vec![mkdir(1, b"/a"), mkdir(2, b"/b"), mkdir(3, b"/c"), mkdir(4, b"/d")]
}

#[test]
fn the_next_request() {
    let mut engine = Engine::new().unwrap();
    let session = client(&mut engine);
    let rule = engine.refuse(Rule::default()).unwrap();
    assert_eq!(rule.refused(), 0);
    assert_eq!(codes(&mut engine, session, &four()), [4, 0, 0, 0]);
    assert_eq!(rule.refused(), 1);
    assert!(engine.snapshot().unwrap().paths().eq(["/", "/b", "/c", "/d"]));
    assert_eq!(engine.calls().unwrap().len(), 3);
}

#[test]
fn some_requests() {
    let mut engine = Engine::new().unwrap();
    let session = client(&mut engine);
    let any = Rule::default().always();
    let other = engine.open().unwrap();
    for (rule, wanted) in [
        (any.clone().kind(Kind::Mkdir).after(1).times(2), [0, 4, 4, 0]),
        (any.clone().path("/x/../c/").status(Status::BadMessage), [4, 0, 5, 4]),
        (any.clone().session(other).status(Status::Eof), [4, 4, 5, 4]),
        (any.clone().kind(Kind::Lstat), [4, 4, 5, 4]),
        (any.session(session).status(Status::OpUnsupported), [8, 8, 5, 8]),
    ] {
        engine.refuse(rule).unwrap();
        assert_eq!(codes(&mut engine, session, &four()), wanted);
    }
}

#[test]
fn each_status() {
    for status in [
        Status::Ok,
        Status::Eof,
        Status::NoSuchFile,
        Status::PermissionDenied,
        Status::Failure,
        Status::BadMessage,
        Status::OpUnsupported,
    ] {
        let mut engine = Engine::new().unwrap();
        let session = client(&mut engine);
        engine.refuse(Rule::default().status(status)).unwrap();
        let wanted = u8::try_from(status.code()).unwrap();
        assert_eq!(codes(&mut engine, session, &[mkdir(1, b"/a")]), [wanted]);
    }
}

#[test]
fn what_no_rule_can_be() {
    let mut engine = Engine::new().unwrap();
    let rule = Rule::default;
    for (rule, wanted) in [
        (rule().path("/a\0"), "path \"/a\\x00\" has a NUL byte"),
        (rule().path("/a".repeat(3000)), "path has 6000 bytes, and at most 4096 are allowed"),
        (rule().path(""), "path is empty, and / is the root"),
        (rule().kind(Kind::Other(2)), "kind must be a request, not Other(2)"),
        (rule().kind(Kind::Read).flags(1), "flags needs Kind::Open, or no kind"),
        (rule().flags(0), "flags must be from 1 to 4294967295, not 0"),
        (rule().kind(Kind::Mkdir).after_bytes(9), "after_bytes needs Kind::Write, or no kind"),
    ] {
        let refused = engine.refuse(rule).unwrap_err();
        assert_eq!(refused, Error::Argument(wanted.to_string()));
    }
}

/// The output ends at the last injected reply, and `take` takes all.
#[test]
fn output_up_to_a_refusal() {
    let mut engine = Engine::new().unwrap();
    let session = client(&mut engine);
    engine.refuse(Rule::default().after(1)).unwrap();
    engine.feed(session, &four().concat()).unwrap();
    assert_eq!(engine.settle(session, at(100), 1000), Ok(Turn::Idle));
    let first = engine.output(session).unwrap();
    assert_eq!(codes_in(&first), [0, 4]);
    engine.sent(session, first.len()).unwrap();
    assert_eq!(codes_in(&engine.output(session).unwrap()), [0, 0]);
}

/// A request that no turn has read yet is rejected, though its bytes came before the rule.
#[test]
fn requests_that_are_buffered() {
    let mut engine = Engine::new().unwrap();
    let session = client(&mut engine);
    engine.feed(session, &four().concat()).unwrap();
    assert_eq!(engine.turn(session, at(0)), Ok(Turn::Begun));
    engine.refuse(Rule::default().always()).unwrap();
    assert_eq!(engine.settle(session, at(0), 1000), Ok(Turn::Idle));
    assert_eq!(codes_in(&engine.take(session).unwrap()), [0, 4, 4, 4]);
}

#[test]
fn a_connection() {
    let server = Server::new(Engine::new().unwrap(), wall_clock);
    let rule = server.refuse(Rule::default().kind(Kind::Mkdir).times(2)).unwrap();
    let mut line = server.connect().unwrap();
    line.write_all(&[INIT, &four().concat()].concat()).unwrap();
    let mut replies = Vec::new();
    line.shutdown(std::net::Shutdown::Write).unwrap();
    line.read_to_end(&mut replies).unwrap();
    assert_eq!(codes_in(&replies[VERSION..]), [4, 4, 0, 0]);
    assert_eq!(rule.refused(), 2);
}

/// A server with these files, a client, and a rule.
fn with_rule(rule: Rule) -> (Server, Client<Connection>, GivenRule) {
    let files = [("/in/a", "1"), ("/in/b", "2"), ("/out/a.part", "3")];
    let server = Server::new(Engine::from_files(files, at(100)).unwrap(), wall_clock);
    let client = Client::new(server.connect().unwrap()).unwrap();
    let rule = server.refuse(rule).unwrap();
    (server, client, rule)
}

fn is_refused(done: io::Result<()>) -> bool {
    match done {
        Ok(()) => false,
        Err(fault) => {
            assert!(fault.to_string().ends_with(": Failure"), "{}", fault);
            true
        }
    }
}

/// By the path that the handle was opened with, also if the file has another one since.
#[test]
fn writes_to_a_path() {
    let rule = Rule::default().kind(Kind::Write).path("/out/f").always();
    let (server, mut client, rule) = with_rule(rule);
    client.write("/in/a", "new").unwrap();
    assert!(is_refused(client.write("/out/f", "new")));
    client.write("/out/g", "new").unwrap();
    assert_eq!(rule.refused(), 1);
    assert_eq!(server.snapshot().unwrap()["/out/f"].size, 0);
}

/// Another session's handle has no path here, since the server rejects it.
#[test]
fn handles_of_a_session() {
    let (server, mut client, rule) = with_rule(Rule::default().path("/in/a").after(1).always());
    let mut other = Client::new(server.connect().unwrap()).unwrap();
    assert!(client.read("/in/a").is_err());
    assert_eq!(other.read("/in/b").unwrap(), b"2");
    assert_eq!(rule.refused(), 1);
}

#[test]
fn patterns_of_paths() {
    let (server, mut client, rule) = with_rule(Rule::default().path("/**/*.part").always());
    assert!(is_refused(client.write("/out/b.part", "1")));
    assert!(is_refused(client.rename("/in/a", "/in/x.part")));
    assert!(is_refused(client.posix_rename("/out/a.part", "/out/a")));
    client.write("/out/b", "1").unwrap();
    assert_eq!(rule.refused(), 3);
    assert!(!server.snapshot().unwrap().contains("/out/b.part"));
    server.refuse(Rule::default().path(escape("/in/[a]")).always()).unwrap();
    client.read("/in/a").unwrap();
}

/// In a request the empty path is the root.
#[test]
fn the_empty_path() {
    for asked in ["/", "", "."] {
        let (_server, mut client, rule) = with_rule(Rule::default().path("/").always());
        client.list("/in").unwrap();
        assert!(client.list(asked).is_err());
        assert_eq!(rule.refused(), 1);
    }
}

#[test]
fn opens_by_their_flags() {
    let flags = OpenFlag::WRITE | OpenFlag::CREATE;
    let (_server, mut client, rule) = with_rule(Rule::default().flags(flags).always());
    assert!(is_refused(client.write("/in/a", "1")));
    assert_eq!(client.read("/in/a").unwrap(), b"1");
    assert_eq!(rule.refused(), 1);
}

#[test]
fn requests_by_a_predicate() {
    let long = |request: &lucernetick::Request| request.length > 3;
    let (server, mut client, _rule) = with_rule(Rule::default().kind(Kind::Write).when(long));
    client.write("/a", "123").unwrap();
    assert!(is_refused(client.write("/b", "1234")));
    client.write("/b", "1234").unwrap();
    assert_eq!(server.snapshot().unwrap()["/b"].size, 4);
}

/// Requests of one of two kinds.
#[test]
fn several_kinds() {
    let rule = Rule::default().kind(Kind::Remove).kind(Kind::Rename).always();
    let (_server, mut client, rule) = with_rule(rule);
    assert!(is_refused(client.remove("/in/a")));
    assert!(is_refused(client.rename("/in/a", "/x")));
    client.make_directory("/d").unwrap();
    assert_eq!(rule.refused(), 2);
}

/// 32768 bytes fit, the second WRITE does not, and after the end of the rule all do.
#[test]
fn a_disk_that_is_full_and_freed() {
    let (server, mut client, full) = with_rule(Rule::disk_full(40_000));
    assert!(is_refused(client.write("/f", vec![1; 50_000])));
    assert_eq!(server.snapshot().unwrap()["/f"].size, 32768);
    assert!(is_refused(client.write("/g", vec![1; 10_000])));
    assert_eq!(full.refused(), 2);
    full.end();
    client.write("/f", vec![1; 50_000]).unwrap();
    assert_eq!(server.snapshot().unwrap()["/f"].size, 50_000);
    assert_eq!(full.refused(), 2);
}

#[test]
fn a_tree_that_is_read_only() {
    let (server, mut client, rule) = with_rule(Rule::read_only().path("/in/**"));
    let denied = |done: io::Result<()>| {
        assert_eq!(done.unwrap_err().kind(), ErrorKind::PermissionDenied);
    };
    denied(client.write("/in/a", "new"));
    denied(client.remove("/in/a"));
    denied(client.rename("/out/a.part", "/in/x"));
    denied(client.posix_rename("/in/a", "/out/x"));
    denied(client.make_directory("/in/d"));
    denied(client.remove_directory("/in"));
    assert_eq!(client.read("/in/a").unwrap(), b"1");
    assert_eq!(client.list("/in").unwrap().len(), 2);
    client.write("/out/b", "1").unwrap();
    rule.end();
    client.write("/in/a", "new").unwrap();
    assert_eq!(server.snapshot().unwrap()["/in/a"].size, 3);
}

/// A connection knows its session.
#[test]
fn requests_of_a_connection() {
    let (server, mut client, _rule) = with_rule(Rule::default().times(0));
    let connection = server.connect().unwrap();
    let rule = Rule::default().session(connection.session()).after(1);
    server.refuse(rule).unwrap();
    let mut other = Client::new(connection).unwrap();
    client.make_directory("/a").unwrap();
    other.make_directory("/b").unwrap();
    client.make_directory("/c").unwrap();
    assert!(is_refused(other.make_directory("/d")));
}

/// The oldest rule that rejects a request counts it.
#[test]
fn two_rules_for_one_request() {
    let (server, mut client, first) = with_rule(Rule::default());
    let second = server.refuse(Rule::default()).unwrap();
    assert!(is_refused(client.make_directory("/a")));
    assert_eq!((first.refused(), second.refused()), (1, 0));
    assert!(is_refused(client.make_directory("/a")));
    assert_eq!((first.refused(), second.refused()), (1, 1));
    client.make_directory("/a").unwrap();
}
