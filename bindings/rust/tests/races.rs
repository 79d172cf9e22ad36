//! Concurrent clients under a seeded scheduler.

use lucernetick::unix_time as at;
use lucernetick::{Client, Engine, Error, Kind, OnCall, RaceStream, Races, Rule, Turn};
use std::borrow::Cow;
use std::collections::{BTreeMap, BTreeSet};
use std::io::{self, ErrorKind, Read, Write};
use std::sync::mpsc;
use std::thread;
use std::time::{Duration, Instant};
use version::VERSION;

mod version;

const INIT: &[u8] = b"\0\0\0\x05\x01\0\0\0\x03";
/// INIT, and MKDIR of `/a` under the id 7.
const MAKES: &[u8] = b"\0\0\0\x05\x01\0\0\0\x03\0\0\0\x0f\x0e\0\0\0\x07\0\0\0\x02/a\0\0\0\0";
/// INIT, and STAT of `/a` under the id 8.
const LOOKS: &[u8] = b"\0\0\0\x05\x01\0\0\0\x03\0\0\0\x0b\x11\0\0\0\x08\0\0\0\x02/a";
/// The lengths of the reply OK, and of one with attributes.
const OK: usize = 28;
const ATTRS: usize = 41;

/// The streams of all clients.
fn streams(races: &Races, clients: usize) -> Vec<RaceStream> {
    (0..clients).map(|_| races.connect().unwrap()).collect()
}

/// Reads this number of bytes.
fn take(stream: &mut RaceStream, count: usize) -> Vec<u8> {
    let mut bytes = vec![0; count];
    stream.read_exact(&mut bytes).unwrap();
    bytes
}

/// The first five numbers of this seed are odd, so client 2 has five turns. They send VERSION, then
/// read its MKDIR, acquire the root, decide it and write the reply. Client 1 continues after client
/// 2 has disconnected.
#[test]
fn the_turns_of_a_seed() {
    let races = Races::new(1234567, 2).unwrap();
    let mut streams = streams(&races, 2);
    streams[0].write_all(LOOKS).unwrap();
    assert_eq!(races.schedule(), "");
    streams[1].write_all(MAKES).unwrap();
    assert_eq!(races.schedule(), "2x5");
    let did = [Turn::Wrote, Turn::Begun, Turn::Moved, Turn::Decided, Turn::Wrote];
    assert_eq!(races.turns(), did.map(|turn| (2, turn)));
    streams.pop();
    assert_eq!(races.schedule(), "2x5 1x5");
    take(&mut streams[0], VERSION);
    let reply = take(&mut streams[0], ATTRS);
    // The timestamp of its MKDIR.
    assert_eq!((reply[4], &reply[37..]), (105, &1_000_000_000_u32.to_be_bytes()[..]));
    assert_eq!(races.stray(), None);
}

/// The numbers of this seed are odd, even, odd, even and odd.
#[test]
fn the_turns_of_another_seed() {
    let races = Races::new(0, 2).unwrap();
    let mut streams = streams(&races, 2);
    streams[0].write_all(LOOKS).unwrap();
    streams[1].write_all(MAKES).unwrap();
    assert!(races.schedule().starts_with("2 1 2 1 2"));
}

/// Makes `/out`, writes a file there, and renames the directory. Returns whether it made it, and
/// whether it renamed it with the file.
fn upload(stream: RaceStream, name: &str) -> (bool, bool) {
    let mut client = Client::new(stream).unwrap();
    let made = client.make_directory("/out").is_ok();
    let written = client.write(format!("/out/{}", name), name).is_ok();
    (made, written && client.rename("/out", format!("/done-{}", name)).is_ok())
}

/// The result of a race: what each client received, the turns, and the files.
type Run = (Vec<(bool, bool)>, String, BTreeMap<String, Option<Vec<u8>>>);

/// Runs two uploaders.
fn race(races: &Races) -> Run {
    let streams = streams(races, 2);
    let outcomes = thread::scope(|scope| {
        let uploads: Vec<_> = streams
            .into_iter()
            .zip(["a", "b"])
            .map(|(stream, name)| scope.spawn(move || upload(stream, name)))
            .collect();
        uploads.into_iter().map(|upload| upload.join().unwrap()).collect()
    });
    assert_eq!(races.stray(), None);
    let tree = races.snapshot().unwrap().into_iter();
    let tree = tree.map(|(path, entry)| {
        (String::from_utf8(path).unwrap(), entry.contents().map(Cow::into_owned))
    });
    (outcomes, races.schedule(), tree.collect())
}

#[test]
fn the_same_each_time() {
    let runs: Vec<Run> = (0..1000).map(|seed| race(&Races::new(seed, 2).unwrap())).collect();
    for (seed, run) in runs.iter().enumerate() {
        assert_eq!(&race(&Races::new(seed as u64, 2).unwrap()), run, "seed {}", seed);
    }
    let schedules: BTreeSet<_> = runs.iter().map(|(_, schedule, _)| schedule).collect();
    assert!(schedules.len() > 500, "{} schedules", schedules.len());
    // Who made it, and who renamed it.
    let outcomes: BTreeSet<_> =
        runs[..200].iter().map(|(outcome, _, _)| outcome.as_slice()).collect();
    let (made, renamed) = ((true, false), (false, true));
    let (both, neither) = ((true, true), (false, false));
    let all = [[neither, both], [renamed, made], [made, renamed], [both, neither]];
    assert!(outcomes.into_iter().eq(all.iter().map(|outcome| &outcome[..])));
}

#[test]
fn a_schedule_is_given_back() {
    for seed in 0..50 {
        let run = race(&Races::new(seed, 2).unwrap());
        assert_eq!(race(&Races::replay(Engine::new().unwrap(), &run.1, 2).unwrap()), run);
    }
}

/// The schedule of another race: missing turns, and turns of a client that does not wait, are
/// reported.
#[test]
fn schedules_that_do_not_fit() {
    for (schedule, turn) in [("", 1), ("2x4", 5), ("2x5 1 2 1x3", 7), ("3 2", 1)] {
        let races = Races::replay(Engine::new().unwrap(), schedule, 2).unwrap();
        let mut streams = streams(&races, 2);
        streams[0].write_all(LOOKS).unwrap();
        streams[1].write_all(MAKES).unwrap();
        thread::scope(|scope| {
            for mut stream in streams {
                scope.spawn(move || take(&mut stream, VERSION + OK));
            }
        });
        assert_eq!(races.turns().len(), 10);
        let why = "the schedule has no turn of a client that waits";
        assert_eq!(races.stray(), Some(format!("before turn {}: {}", turn, why)));
    }
}

/// Client 1 waits for the reply of client 2, not for the server.
#[test]
fn a_client_that_waits_for_another() {
    let races = Races::new(0, 2).unwrap();
    races.set_patience(Duration::from_millis(50));
    let mut streams = streams(&races, 2);
    let mut second = streams.pop().unwrap();
    let mut first = streams.pop().unwrap();
    let (ready, is_ready) = mpsc::channel();
    thread::scope(|scope| {
        scope.spawn(move || {
            is_ready.recv().unwrap();
            first.write_all(LOOKS).unwrap();
            take(&mut first, VERSION + ATTRS);
        });
        second.write_all(MAKES).unwrap();
        assert_eq!(races.stray(), None);
        take(&mut second, VERSION + OK);
        let why = "before turn 1: client 1 neither sent nor left for 50ms";
        assert_eq!(races.stray().as_deref(), Some(why));
        ready.send(()).unwrap();
        drop(second);
    });
    assert_eq!(races.schedule(), "2x5 1x5");
}

/// A thread that uses a client before it has connected all would wait for itself.
#[test]
fn a_client_that_is_used_too_early() {
    let races = Races::new(0, 2).unwrap();
    let wanted = "client 1 is used, and 1 of 2 clients are connected: first \
                  call connect() 2 times, then use each stream in its own thread";
    assert_eq!(Client::new(races.connect().unwrap()).unwrap_err().to_string(), wanted);
    let mut other = races.connect().unwrap();
    other.write_all(INIT).unwrap();
    take(&mut other, VERSION);
    let refused = races.connect().unwrap_err();
    assert_eq!(refused.to_string(), "all 2 clients of the race are connected");
}

/// A thread that uses both clients waits for itself: this is an error long before the patience
/// ends.
#[test]
fn two_clients_in_one_thread() {
    let races = Races::new(0, 2).unwrap();
    let mut streams = streams(&races, 2);
    for stream in &mut streams {
        stream.write_all(INIT).unwrap();
    }
    // The first number of this seed is odd, so client 2 has its reply, and the race waits for it.
    let begin = Instant::now();
    let refused = streams[0].read(&mut [0]).unwrap_err();
    let wanted = "client 1 waits for client 2, which the same thread uses: \
                  use each stream in its own thread";
    assert_eq!(refused.to_string(), wanted);
    assert!(begin.elapsed() < Duration::from_secs(25));
}

/// A panic in a turn ends all streams, and no client waits for ever.
#[test]
fn a_rule_that_panics() {
    let races = Races::new(0, 2).unwrap();
    races.refuse(Rule::default().when(|_| panic!("a broken rule"))).unwrap();
    let ends = |stream: RaceStream| {
        let mut client = Client::new(stream).unwrap();
        let fault = client.make_directory("/a").unwrap_err();
        assert_eq!(fault.kind(), ErrorKind::BrokenPipe);
        assert!(fault.to_string().ends_with("a broken rule"), "{}", fault);
    };
    let streams = streams(&races, 2);
    thread::scope(|scope| {
        for stream in streams {
            scope.spawn(move || ends(stream));
        }
    });
    let fault = races.snapshot().unwrap_err();
    assert!(matches!(&fault, Error::Stopped(why) if why.ends_with("a broken rule")));
    assert_eq!(races.close(), Err(fault));
}

/// Rules and callbacks work as in an engine.
#[test]
fn a_race_with_a_rule() {
    let races = Races::new(3, 2).unwrap();
    let rule = races.refuse(Rule::default().kind(Kind::Write).path("/out/*")).unwrap();
    let (notes, seen) = mpsc::channel();
    let note = move |_: &mut Engine, call: &lucernetick::Call| notes.send(call.number).unwrap();
    races.with_engine(|engine| engine.on_call(OnCall::default().after(note)));
    let (outcomes, _, tree) = race(&races);
    assert_eq!(rule.refused(), 1);
    assert!(outcomes.iter().any(|(_, renamed)| !renamed));
    assert!(tree.len() > 1);
    let calls = races.calls().unwrap();
    assert!(seen.try_iter().eq(calls.iter().map(|call| call.number)));
    assert_eq!(races.close(), Ok(()));
}

/// The requests of a client take effect, although it reads no reply.
#[test]
fn a_client_that_goes_early() {
    let races = Races::new(0, 2).unwrap();
    let mut streams = streams(&races, 2);
    streams[1].write_all(&[MAKES, &LOOKS[INIT.len()..]].concat()).unwrap();
    streams.pop();
    assert_eq!(races.schedule(), "");
    streams.pop();
    // VERSION, and four turns for each call.
    assert_eq!(races.schedule(), "2x9");
    assert!(races.snapshot().unwrap().contains("/a"));
    assert_eq!(races.stray(), None);
}

#[test]
fn sessions_that_end_themselves() {
    let races = Races::new(0, 2).unwrap();
    let mut streams = streams(&races, 2);
    streams[0].write_all(&[0; 4]).unwrap();
    streams[1].write_all(&LOOKS[INIT.len()..]).unwrap();
    for stream in &mut streams {
        assert_eq!(stream.read_to_end(&mut Vec::new()).unwrap(), 0);
        assert_eq!(stream.write(LOOKS).unwrap_err().kind(), ErrorKind::BrokenPipe);
    }
    assert_eq!(races.turns().len(), 2);
}

/// A waiting client gets an error when the race is dropped.
#[test]
fn races_that_are_dropped() {
    let races = Races::new(0, 2).unwrap();
    let mut streams = streams(&races, 2);
    let mut waits = streams.pop().unwrap();
    let reads =
        thread::spawn(move || waits.read(&mut [0; 1]).map_err(|fault: io::Error| fault.kind()));
    thread::sleep(Duration::from_millis(20));
    drop(races);
    assert_eq!(reads.join().unwrap(), Ok(0));
    assert_eq!(streams[0].write(LOOKS).unwrap_err().kind(), ErrorKind::BrokenPipe);
}

/// The race has its own clock, and may start with files.
#[test]
fn a_tree_that_is_there_before() {
    let engine = Engine::from_files([("/out/x", "1")], at(5)).unwrap();
    let races = Races::over(engine, 7, 1).unwrap();
    races.time().set(at(1_700_000_000)).unwrap();
    assert_eq!(upload(races.connect().unwrap(), "a"), (false, true));
    let found = races.snapshot().unwrap();
    let times = ["/done-a/x", "/done-a/a"].map(|path| found[path].mtime);
    assert_eq!(times, [at(5), at(1_700_000_000)]);
    assert!(races.turns().iter().all(|(client, _)| *client == 1));
}

/// One thread reads the replies to requests of another one.
#[test]
fn a_stream_is_shared() {
    let races = Races::new(0, 1).unwrap();
    let stream = races.connect().unwrap();
    thread::scope(|scope| {
        let reads = scope.spawn(|| {
            let mut bytes = [0; VERSION + OK];
            (&stream).read_exact(&mut bytes).map(|()| bytes[VERSION + 4])
        });
        (&stream).write_all(MAKES).unwrap();
        assert_eq!(reads.join().unwrap().unwrap(), 101);
    });
}

/// The data of a race's timeline.
fn timeline(races: &Races, test: &str) -> String {
    let name = format!("lucernetick-{}-{}.html", std::process::id(), test);
    let path = std::env::temp_dir().join(name);
    races.timeline(&path).unwrap();
    let page = std::fs::read_to_string(&path).unwrap();
    std::fs::remove_file(&path).unwrap();
    let begin = page.find("application/json\">").unwrap();
    let end = page[begin..].find("</script>").unwrap();
    page[begin..begin + end].to_string()
}

/// A call has the turns in which its request was read, it took effect and its reply was written.
#[test]
fn the_turns_of_a_timeline() {
    let schedule = "1 2x2 1x2 2 1 2x3 1";
    let races = Races::replay(Engine::new().unwrap(), schedule, 2).unwrap();
    let mut streams = streams(&races, 2);
    streams[0].write_all(MAKES).unwrap();
    streams[1].write_all(LOOKS).unwrap();
    drop(streams);
    let found = timeline(&races, "turns");
    let call = |kind: &str, turns: &str| {
        let head = format!("\"kind\":\"{}\",\"paths\":[\"/a\"],\"failed\":false,", kind);
        format!("{}{},\"helper\":0}}", head, turns)
    };
    let [head, blocked] = [
        "\"title\":\"Race by a schedule\",\"clients\":2,\"schedule\":\"1 2x2 1x2 2 1 2x3 1\"",
        "{\"client\":2,\"did\":\"BLOCKED\"}",
    ]
    .map(String::from);
    let made = call("mkdir", "\"request\":4,\"point\":7,\"reply\":11");
    let looked = call("stat", "\"request\":3,\"point\":9,\"reply\":10");
    for part in [head, blocked, made, looked] {
        assert_eq!(found.matches(&part).count(), 1, "{}", part);
    }
}

/// A STAT is on its way below `/a` when `/a` is renamed. The rename completes it.
#[test]
fn a_helped_call_of_a_timeline() {
    let engine = Engine::from_files([("/a/f", "1")], at(0)).unwrap();
    let races = Races::replay(engine, "1x4 2x9", 2).unwrap();
    let mut streams = streams(&races, 2);
    streams[0].write_all(&[INIT, b"\0\0\0\x0d\x11\0\0\0\x08\0\0\0\x04/a/f"].concat()).unwrap();
    let rename = b"\0\0\0\x11\x12\0\0\0\x07\0\0\0\x02/a\0\0\0\x02/b";
    streams[1].write_all(&[INIT, &rename[..]].concat()).unwrap();
    drop(streams);
    let calls = races.calls().unwrap();
    let renamed = calls.iter().find(|call| call.kind == Kind::Rename).unwrap().number;
    let found = timeline(&races, "helped");
    let (_, stat) = found.split_once("\"kind\":\"stat\"").unwrap();
    let (stat, _) = stat.split_once('}').unwrap();
    assert!(stat.ends_with(&format!("\"helper\":{}", renamed)), "{}", stat);
}
