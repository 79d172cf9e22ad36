//! Bad connections.

use lucernetick::unix_time as at;
use lucernetick::{Client, Connection, Engine, Error, Faults, Kind, Server};
use std::io::{Read, Write};
use std::net::Shutdown;
use std::time::{Duration, Instant};
use version::VERSION;

mod version;

const INIT: &[u8] = b"\0\0\0\x05\x01\0\0\0\x03";
/// STAT of `/`, and the length of its reply.
const STAT: &[u8] = b"\0\0\0\x0a\x11\0\0\0\x08\0\0\0\x01/";
const ATTRS: usize = 41;
const STATUS: usize = 28;

fn server() -> Server {
    Server::new(Engine::from_files([("/f", "1")], at(100)).unwrap(), || at(7))
}

fn connect(server: &Server, faults: Faults) -> Connection {
    let connection = server.connect_with(faults).unwrap();
    connection.set_read_timeout(Some(Duration::from_secs(120))).unwrap();
    connection
}

fn receive(connection: &mut Connection, count: usize) -> Vec<u8> {
    let mut bytes = vec![0; count];
    connection.read_exact(&mut bytes).unwrap();
    bytes
}

/// MKDIR of `/a` with each number of bytes received before the cut: it takes effect if it is
/// complete.
#[test]
fn requests_are_cut() {
    let mkdir = b"\0\0\0\x0f\x0e\0\0\0\x07\0\0\0\x02/a\0\0\0\0";
    let sent = [INIT, mkdir, STAT].concat();
    for count in 0..=sent.len() {
        let server = server();
        let mut connection = connect(&server, Faults::default().cut_after(count as u64));
        // It fails if the connection is cut already.
        let _ = connection.write_all(&sent);
        let mut received = Vec::new();
        connection.read_to_end(&mut received).unwrap();
        assert!(received.len() <= count);
        let is_made = count >= INIT.len() + mkdir.len();
        assert_eq!(server.snapshot().unwrap().contains("/a"), is_made, "cut after {}", count);
        let calls = server.calls().unwrap();
        assert_eq!(calls.iter().any(|call| call.kind == Kind::Mkdir), is_made);
    }
}

/// MKDIR of `/a`, `/b` and so on.
fn mkdirs(count: u8) -> Vec<u8> {
    let mkdir = |at| [b"\0\0\0\x0f\x0e\0\0\0\x07\0\0\0\x02/", &[b'a' + at][..], &[0; 4]].concat();
    (0..count).flat_map(mkdir).collect()
}

/// The replies are cut at each byte. The requests, which are shorter and received before that, take
/// effect.
#[test]
fn replies_are_cut() {
    let sent = [INIT, &mkdirs(3)].concat();
    for count in sent.len() + 1..VERSION + 3 * STATUS {
        let server = server();
        let mut connection = connect(&server, Faults::default().cut_after(count as u64));
        connection.write_all(&sent).unwrap();
        let mut received = Vec::new();
        connection.read_to_end(&mut received).unwrap();
        assert_eq!(received.len(), count);
        assert!(server.snapshot().unwrap().paths().eq(["/", "/a", "/b", "/c", "/f"]));
        assert!(connection.is_cut());
    }
}

/// The requests of a client that closes its connection without reading take effect.
#[test]
fn a_client_that_reads_nothing() {
    for faults in [Faults::default(), Faults::default().delay(Duration::from_secs(3600))] {
        let server = server();
        let mut connection = connect(&server, faults);
        connection
            .write_all(&[INIT, &mkdirs(5), &STAT.repeat(1000), &mkdirs(26)].concat())
            .unwrap();
        drop(connection);
        server.wait_for("/z", Duration::from_secs(120)).unwrap();
    }
}

/// The client of an upload that is cut gets an error, and what it had sent completely is there.
#[test]
fn an_upload_that_is_cut() {
    let server = server();
    let connection = connect(&server, Faults::default().cut_after(100_000));
    let mut client = Client::new(connection).unwrap();
    assert!(!client.get_ref().is_cut());
    assert!(client.write("/g", vec![1; 1_000_000]).is_err());
    assert!(client.get_ref().is_cut());
    assert_eq!(server.snapshot().unwrap()["/g"].size, 3 * 32768);
}

/// Forty requests in a row take one latency, not forty.
#[test]
fn latencies_overlap() {
    let server = server();
    let delay = Duration::from_millis(500);
    let mut connection = connect(&server, Faults::default().delay(delay));
    let begin = Instant::now();
    connection.write_all(&[INIT, &STAT.repeat(40)].concat()).unwrap();
    receive(&mut connection, VERSION + 40 * ATTRS);
    let taken = begin.elapsed();
    assert!(delay <= taken && taken < 20 * delay, "{:?}", taken);
}

/// A client that waits for each reply waits for each latency.
#[test]
fn latencies_of_single_requests() {
    let server = server();
    let delay = Duration::from_millis(20);
    let begin = Instant::now();
    let mut client = Client::new(connect(&server, Faults::default().delay(delay))).unwrap();
    for _ in 0..9 {
        client.modified("/f").unwrap();
    }
    assert!(begin.elapsed() >= 10 * delay);
}

/// Late replies are sent before the connection ends.
#[test]
fn late_replies_before_the_end() {
    let server = server();
    let mut connection = connect(&server, Faults::default().delay(Duration::from_millis(200)));
    connection.write_all(&[INIT, STAT].concat()).unwrap();
    connection.shutdown(Shutdown::Write).unwrap();
    let mut received = Vec::new();
    connection.read_to_end(&mut received).unwrap();
    assert_eq!(received.len(), VERSION + ATTRS);
}

/// The requests of a client that has gone take effect, though its replies are late.
#[test]
fn a_client_that_goes_before_its_replies() {
    let server = server();
    let mut connection = connect(&server, Faults::default().delay(Duration::from_secs(3600)));
    connection.write_all(&[INIT, STAT].concat()).unwrap();
    drop(connection);
    server.wait_for_call(|call| call.kind == Kind::Stat, Duration::from_secs(120)).unwrap();
}

/// A server that is dropped does not wait for late replies.
#[test]
fn a_server_that_is_dropped() {
    let server = server();
    let mut connection = connect(&server, Faults::default().delay(Duration::from_secs(3600)));
    connection.write_all(INIT).unwrap();
    drop(server);
    assert_eq!(connection.read(&mut [0; 1]).unwrap(), 0);
}

/// 100000 bytes at 200000 bytes per second take half a second, in each direction.
#[test]
fn bandwidths() {
    let server = server();
    let mut client = Client::new(connect(&server, Faults::default().bandwidth(200_000))).unwrap();
    let half = Duration::from_millis(500);
    let begin = Instant::now();
    client.write("/g", vec![1; 100_000]).unwrap();
    assert!(begin.elapsed() >= half);
    let begin = Instant::now();
    assert_eq!(client.read("/g").unwrap().len(), 100_000);
    assert!(begin.elapsed() >= half);
}

/// Whatever the client asks for, it receives at most this many bytes at a time.
#[test]
fn chunks() {
    let server = server();
    for chunk in [1, 7, 1000] {
        let mut connection = connect(&server, Faults::default().chunk(chunk as u64));
        connection.write_all(&[INIT, &STAT.repeat(10)].concat()).unwrap();
        let mut received = 0;
        while received < VERSION + 10 * ATTRS {
            let count = connection.read(&mut [0; 4096]).unwrap();
            assert!(0 < count && count <= chunk);
            received += count;
        }
        assert_eq!(received, VERSION + 10 * ATTRS);
    }
}

/// A client that sends much before it reads is served, whatever the faults.
#[test]
fn a_client_that_sends_before_it_reads() {
    let server = server();
    let plain = Faults::default();
    for faults in
        [plain.chunk(5000), plain.delay(Duration::from_millis(1)), plain.bandwidth(1 << 40)]
    {
        let mut connection = connect(&server, faults);
        connection.set_write_timeout(Some(Duration::from_secs(120))).unwrap();
        connection.write_all(&[INIT, &STAT.repeat(20_000)].concat()).unwrap();
        receive(&mut connection, VERSION + 20_000 * ATTRS);
    }
}

#[test]
fn a_socket_with_faults() {
    let path = std::env::temp_dir().join(format!("lucernetick-{}-faults", std::process::id()));
    let mut server = server();
    server.listen_with(&path, Faults::default().cut_after(5)).unwrap();
    let mut client = std::os::unix::net::UnixStream::connect(&path).unwrap();
    client.write_all(INIT).unwrap();
    assert_eq!(client.read(&mut [0; 100]).unwrap(), 0);
}

#[test]
fn faults_out_of_range() {
    let server = server();
    let plain = Faults::default();
    for (faults, wanted) in [
        (plain.chunk(0), "chunk must be from 1 to 9007199254740992, not 0"),
        (plain.bandwidth(0), "bandwidth must be from 1 to 9007199254740992, not 0"),
        (plain.delay(Duration::MAX), "delay in seconds must be from 0 to 2147483648, not "),
    ] {
        let refused = server.connect_with(faults).unwrap_err().into_inner().unwrap();
        match refused.downcast_ref::<Error>() {
            Some(Error::Argument(why)) => assert!(why.starts_with(wanted), "{}", why),
            other => panic!("{:?}", other),
        }
    }
}
