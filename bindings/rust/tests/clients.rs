//! OpenSSH's `sftp` on a server. `socat` connects it to the server's socket.

use lucernetick::unix_time as at;
use lucernetick::{Engine, Server, VirtualTime};
use std::fs::{self, Permissions};
use std::io::{BufRead, BufReader, Write};
use std::os::unix::fs::PermissionsExt;
use std::path::PathBuf;
use std::process::{self, Child, ChildStdin, ChildStdout, Command, Stdio};
use std::thread;
use std::time::{Duration, UNIX_EPOCH};

/// A server that listens in its own folder.
struct Listening {
    server: Server,
    time: VirtualTime,
    folder: PathBuf,
}

impl Listening {
    /// The folder has the test's name, which is unique.
    fn new(test: &str, engine: Engine) -> Self {
        let folder = std::env::temp_dir().join(format!("lucernetick-{}-{}", process::id(), test));
        fs::create_dir(&folder).unwrap();
        let time = VirtualTime::new(at(1_000_000_000)).unwrap();
        let mut server = Server::new(engine, time.clock());
        server.listen(folder.join("socket")).unwrap();
        Self { server, time, folder }
    }

    fn empty(test: &str) -> Self {
        Self::new(test, Engine::new().unwrap())
    }

    fn client(&self) -> Client {
        Client::new(self)
    }

    /// Makes a local file with the permissions 0o640, which `put` requests.
    fn write(&self, name: &str, contents: &[u8]) {
        let path = self.folder.join(name);
        fs::write(&path, contents).unwrap();
        fs::set_permissions(&path, Permissions::from_mode(0o640)).unwrap();
    }

    /// The contents of a local file.
    fn read(&self, name: &str) -> Vec<u8> {
        fs::read(self.folder.join(name)).unwrap()
    }

    /// The contents of a file of the tree.
    fn contents(&self, path: &str) -> Vec<u8> {
        self.server.snapshot().unwrap()[path].contents().unwrap().into_owned()
    }

    fn paths(&self) -> Vec<String> {
        let found = self.server.snapshot().unwrap();
        found.paths().map(Into::into).collect()
    }
}

impl Drop for Listening {
    fn drop(&mut self) {
        fs::remove_dir_all(&self.folder).unwrap();
    }
}

/// A running `sftp` in its server's folder.
struct Client {
    child: Child,
    commands: ChildStdin,
    printed: BufReader<ChildStdout>,
}

impl Client {
    fn new(server: &Listening) -> Self {
        let bridge = format!("socat - UNIX-CONNECT:{}", server.folder.join("socket").display());
        let mut child = Command::new("timeout")
            .args(["300", "sftp", "-q", "-b", "-", "-D", &bridge])
            .current_dir(&server.folder)
            .envs([("TZ", "UTC"), ("LC_ALL", "C")])
            .stdin(Stdio::piped())
            .stdout(Stdio::piped())
            .spawn()
            .unwrap();
        let commands = child.stdin.take().unwrap();
        let printed = BufReader::new(child.stdout.take().unwrap());
        Self { child, commands, printed }
    }

    /// Returns what the client prints for a command, which must succeed, without the echoed
    /// commands.
    fn run(&mut self, command: &str) -> Vec<String> {
        writeln!(self.commands, "{}\npwd", command).unwrap();
        let mut lines = Vec::new();
        loop {
            let mut line = String::new();
            assert_ne!(self.printed.read_line(&mut line).unwrap(), 0, "{} failed", command);
            match line.trim_end() {
                "Remote working directory: /" => return lines,
                echo if echo.starts_with("sftp> ") => {}
                printed => lines.push(printed.to_string()),
            }
        }
    }

    /// Ends the client's input; it must succeed.
    fn end(mut self) {
        drop(self.commands);
        assert!(self.child.wait().unwrap().success());
    }
}

#[test]
fn write_and_read() {
    let server = Listening::empty("write_and_read");
    let contents: Vec<u8> = (0..1_000_000_u32).map(|k| (k % 251) as u8).collect();
    server.write("sent", &contents);
    let mut client = server.client();
    client.run("put sent /kept");
    assert!(server.contents("/kept") == contents);
    client.run("get /kept got");
    client.end();
    assert!(server.read("got") == contents);
}

#[test]
fn list() {
    let server = Listening::empty("list");
    server.write("five", b"12345");
    server.write("none", b"");
    let mut client = server.client();
    client.run("mkdir /d");
    client.run("mkdir /d/b");
    server.time.set(at(1_700_000_000)).unwrap();
    client.run("put five /d/a");
    client.run("put none /d/c");
    client.run("chmod 600 /d/c");
    assert_eq!(client.run("ls -1 /d"), ["/d/a", "/d/b", "/d/c"]);
    // The client's `mkdir` requests 0o777.
    let wanted = [
        "-rw-r-----   1 0        0               5   1700000000 a",
        "drwxrwxrwx   1 0        0               0   1000000000 b",
        "-rw-------   1 0        0               0   1700000000 c",
    ];
    assert_eq!(client.run("ls -l /d"), wanted);
    client.end();
}

#[test]
fn rename() {
    let files = [("/f", "1"), ("/g", "2"), ("/d/h", "3")];
    let server = Listening::new("rename", Engine::from_files(files, at(0)).unwrap());
    let mut client = server.client();
    client.run("rename -l /f /d/f");
    assert_eq!(server.paths(), ["/", "/d", "/d/f", "/d/h", "/g"]);
    client.run("rename /d /e");
    client.run("rename /g /e/h");
    assert_eq!(client.run("ls -1 /e"), ["/e/f", "/e/h"]);
    client.end();
    assert_eq!(server.paths(), ["/", "/e", "/e/f", "/e/h"]);
    assert_eq!((server.contents("/e/f"), server.contents("/e/h")), (b"1".to_vec(), b"2".to_vec()));
}

#[test]
fn link() {
    let engine = Engine::from_files([("/f", "1"), ("/g", "1")], at(100)).unwrap();
    let server = Listening::new("link", engine);
    let mut client = server.client();
    client.run("mkdir /d");
    client.run("ln /f /d/f");
    let line = ["-rw-r--r--   2 0        0               1          100 f"];
    assert_eq!(client.run("ls -l /d"), line);
    client.end();
    let found = server.server.snapshot().unwrap();
    let file = |path: &str| found[path].file;
    assert_eq!([file("/f"), file("/g"), file("/d/f")], [Some(1), Some(2), Some(1)]);
    assert_eq!(server.contents("/d/f"), b"1");
}

#[test]
fn two_sessions_on_one_tree() {
    let server = Listening::empty("two_sessions");
    server.write("sent", b"from the first");
    let (mut first, mut second) = (server.client(), server.client());
    assert!(second.run("ls -1 /").is_empty());
    first.run("put sent /f");
    second.run("get /f got");
    assert_eq!(server.read("got"), b"from the first");
    second.run("rename /f /g");
    assert_eq!(first.run("ls -1 /"), ["/g"]);
    first.run("rm /g");
    assert!(second.run("ls -1 /").is_empty());
    first.end();
    second.end();
}

#[test]
fn times_are_virtual() {
    let server = Listening::empty("times");
    server.write("sent", b"123456");
    let mut client = server.client();
    server.time.set(at(1_700_000_000)).unwrap();
    client.run("put sent /f");
    server.time.set(at(7)).unwrap();
    client.run("mkdir /d");
    // By names and their own lines: 14 November 2023, 22:13:20; and the seventh second of 1970.
    let listed = client.run("ls -ln /");
    let words: Vec<Vec<&str>> =
        listed.iter().map(|line| line.split_whitespace().collect()).collect();
    let directory = ["drwxrwxrwx", "?", "0", "0", "0", "Jan", "1", "1970", "/d"];
    let file = ["-rw-r-----", "?", "0", "0", "6", "Nov", "14", "2023", "/f"];
    assert_eq!(words, [directory, file]);
    // By STAT: `get -p` sets the times of the local file.
    client.run("get -p /f got");
    client.end();
    let found = fs::metadata(server.folder.join("got")).unwrap();
    let moment = UNIX_EPOCH + Duration::from_secs(1_700_000_000);
    assert_eq!((found.accessed().unwrap(), found.modified().unwrap()), (moment, moment));
    assert_eq!(server.server.snapshot().unwrap()["/d"].mtime, at(7));
}

#[test]
fn a_tree_that_was_there() {
    let engine = Engine::from_files([("/a/b", "1234")], at(3)).unwrap();
    let server = Listening::new("tree", engine);
    let mut client = server.client();
    let wanted = ["-rw-r--r--   1 0        0               4            3 b"];
    assert_eq!(client.run("ls -l /a"), wanted);
    client.run("get /a/b got");
    client.end();
    assert_eq!(server.read("got"), b"1234");
}

#[test]
fn many_clients_at_once() {
    let server = Listening::empty("many");
    server.write("sent", b"contents");
    thread::scope(|scope| {
        for name in ["/a", "/b", "/c", "/d", "/e", "/f"] {
            let mut client = server.client();
            scope.spawn(move || {
                client.run(&format!("mkdir {}", name));
                for number in 0..20 {
                    client.run(&format!("put sent {}/{}", name, number));
                }
                client.end();
            });
        }
    });
    let found = server.server.snapshot().unwrap();
    assert_eq!(found.len(), 1 + 6 + 120);
    let files = found.values().filter(|entry| !entry.is_directory());
    assert_eq!(files.filter(|file| file.contents().as_deref() == Some(b"contents")).count(), 120);
}
