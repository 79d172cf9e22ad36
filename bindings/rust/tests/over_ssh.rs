//! OpenSSH's `sftp` over SSH.

use lucernetick::unix_time as at;
use lucernetick::{Engine, Faults, Kind, Races, Server, SshOptions, SshServer, User};
use std::env;
use std::fs::{self, File};
use std::io::{BufRead, BufReader, ErrorKind, Read, Write};
use std::net::TcpStream;
use std::path::{Path, PathBuf};
use std::process::{self, Child, ChildStdin, ChildStdout, Command, Stdio};
use std::thread;
use std::time::{Duration, Instant};

/// A timeout for events without a request.
const LIMIT: Duration = Duration::from_secs(120);
const LARGE: usize = 100_000_000;
/// More bytes than a client stores before its connection is dropped.
const ENDLESS: u64 = 1 << 33;
const MANY: usize = 64;
/// The maximum number of sessions of an engine.
const ROOM: usize = 256;

/// A server behind SSH, and a folder of the test.
struct OverSsh {
    server: Server,
    ssh: SshServer,
    folder: PathBuf,
}

impl OverSsh {
    /// The folder has the test's name, which is unique.
    fn new(test: &str) -> Self {
        let folder = env::temp_dir().join(format!("lucernetick-{}-{}", process::id(), test));
        fs::create_dir(&folder).unwrap();
        let server = Server::new(Engine::new().unwrap(), || at(0));
        let ssh = SshServer::new(&server).unwrap();
        Self { server, ssh, folder }
    }

    /// Makes a local file.
    fn write(&self, name: &str, contents: &[u8]) {
        fs::write(self.folder.join(name), contents).unwrap();
    }

    fn client(&self) -> Client {
        Client::new(&self.folder, &self.ssh.ssh_config())
    }

    /// Waits until no session is open, so that the maximum number can be opened.
    fn has_no_session(&self) {
        wait_for(|| {
            self.server.with_engine(|engine| {
                let opened: Vec<_> = (0..ROOM).map_while(|_| engine.open().ok()).collect();
                opened.iter().for_each(|session| engine.close(*session).unwrap());
                opened.len() == ROOM
            })
        });
    }
}

impl Drop for OverSsh {
    fn drop(&mut self) {
        fs::remove_dir_all(&self.folder).unwrap();
    }
}

fn wait_for(is_so: impl Fn() -> bool) {
    let begin = Instant::now();
    while !is_so() {
        assert!(begin.elapsed() < LIMIT);
        thread::sleep(Duration::from_millis(20));
    }
}

/// A running `sftp` in its own process group.
struct Client {
    child: Child,
    commands: ChildStdin,
    printed: BufReader<ChildStdout>,
}

impl Client {
    fn new(folder: &Path, config: &Path) -> Self {
        Self::start(
            Command::new("setsid").args(["sftp", "-q", "-b", "-", "-F"]).arg(config),
            folder,
        )
    }

    /// By the key of all users.
    fn of_user(folder: &Path, config: &Path, user: &str) -> Self {
        let mut sftp = Command::new("setsid");
        sftp.args(["sftp", "-q", "-b", "-", "-o"]).arg(format!("User={}", user));
        Self::start(sftp.arg("-F").arg(config), folder)
    }

    /// Without the key.
    fn by_password(folder: &Path, config: &Path, user: &str, password: &str) -> Self {
        let program =
            "test -e ask || { echo 'echo \"$PASSWORD\"' >new && mv new ask; }; chmod +x ask";
        assert!(Command::new("sh")
            .args(["-c", program])
            .current_dir(folder)
            .status()
            .unwrap()
            .success());
        let mut sftp = Command::new("setsid");
        sftp.env("SSH_ASKPASS", folder.join("ask")).env("SSH_ASKPASS_REQUIRE", "force");
        sftp.env("PASSWORD", password).args(["sftp", "-q", "-o", "BatchMode=no", "-b", "-"]);
        sftp.args(["-o", "PubkeyAuthentication=no", "-o"]).arg(format!("User={}", user));
        Self::start(sftp.arg("-F").arg(config), folder)
    }

    fn start(sftp: &mut Command, folder: &Path) -> Self {
        let mut child = sftp
            .arg("tree")
            .current_dir(folder)
            .stdin(Stdio::piped())
            .stdout(Stdio::piped())
            .spawn()
            .unwrap();
        let commands = child.stdin.take().unwrap();
        let printed = BufReader::new(child.stdout.take().unwrap());
        Self { child, commands, printed }
    }

    fn asks(&mut self, commands: &str) {
        self.commands.write_all(commands.as_bytes()).unwrap();
    }

    /// Sends `pwd`, and waits for its output, which follows all earlier output.
    fn is_done(&mut self) {
        self.asks("pwd\n");
        let is_last = |line: String| line == "Remote working directory: /";
        assert!(self.printed.by_ref().lines().map(Result::unwrap).any(is_last));
    }

    /// Whether all its commands succeeded.
    fn ends(mut self) -> bool {
        drop(self.commands);
        self.child.wait().unwrap().success()
    }

    /// Drops its connection without closing it properly.
    fn kill(mut self) {
        let group = format!("-{}", self.child.id());
        assert!(Command::new("kill").args(["-KILL", "--", &group]).status().unwrap().success());
        assert!(!self.child.wait().unwrap().success());
    }
}

/// Bytes that are different for each number.
fn contents(number: usize, count: usize) -> Vec<u8> {
    (0..count).map(|at| (at / 7 + at % (number + 11)) as u8).collect()
}

#[test]
fn put_and_get_100_mb() {
    let over = OverSsh::new("large");
    let large = contents(0, LARGE / 100).repeat(100);
    over.write("sent", &large);
    let mut client = over.client();
    client.asks("put sent /f\nget /f got\n");
    assert!(client.ends());
    assert!(fs::read(over.folder.join("got")).unwrap() == large);
    let tree = over.server.snapshot().unwrap();
    assert!(tree["/f"].contents().as_deref() == Some(&large[..]));
}

/// Each client stores a file, and then reads the file of the next one.
#[test]
fn many_connections_at_once() {
    let over = OverSsh::new("many");
    let file = |number: usize| contents(number, 100_000 + number);
    let mut clients: Vec<_> = (0..MANY).map(|_| over.client()).collect();
    for (number, client) in clients.iter_mut().enumerate() {
        over.write(&number.to_string(), &file(number));
        client.asks(&format!("put {} /{}\n", number, number));
    }
    clients.iter_mut().for_each(Client::is_done);
    for (number, client) in clients.iter_mut().enumerate() {
        client.asks(&format!("get /{} got{}\n", (number + 1) % MANY, number));
    }
    assert!(clients.into_iter().all(Client::ends));
    for number in 0..MANY {
        let got = fs::read(over.folder.join(format!("got{}", number))).unwrap();
        assert!(got == file((number + 1) % MANY), "client {}", number);
    }
    over.has_no_session();
}

#[test]
fn a_wrong_key() {
    let over = OverSsh::new("wrong_key");
    let other_key = over.folder.join("other_key");
    let words = ["-q", "-t", "ed25519", "-N", "", "-f"];
    let made = Command::new("ssh-keygen").args(words).arg(&other_key).status();
    assert!(made.unwrap().success());
    let config = fs::read_to_string(over.ssh.ssh_config()).unwrap();
    let [key, other] = [over.ssh.client_key(), other_key].map(|key| key.display().to_string());
    assert!(config.contains(&key));
    let other_config = over.folder.join("other_config");
    fs::write(&other_config, config.replace(&key, &other)).unwrap();
    assert!(!Client::new(&over.folder, &other_config).ends());
    assert!(over.server.calls().unwrap().is_empty());
    assert!(over.client().ends());
    let options = SshOptions::default().public_keys([over.folder.join("other_key.pub")]);
    let ssh = SshServer::with_options(&over.server, options).unwrap();
    let config = fs::read_to_string(ssh.ssh_config()).unwrap();
    let key = ssh.client_key().display().to_string();
    fs::write(&other_config, config.replace(&key, &other)).unwrap();
    assert!(Client::new(&over.folder, &other_config).ends());
    assert!(Client::new(&over.folder, &ssh.ssh_config()).ends());
    let options = SshOptions::default().public_keys([over.folder.join("none")]);
    let refused = SshServer::with_options(&over.server, options).unwrap_err().to_string();
    assert!(refused.contains("public_keys: ") && refused.contains("none"), "{}", refused);
}

/// The data received so far stays, and other clients continue.
#[test]
fn a_connection_that_is_cut_in_the_middle() {
    let over = OverSsh::new("cut");
    File::create(over.folder.join("endless")).unwrap().set_len(ENDLESS).unwrap();
    let (mut stays, mut goes) = (over.client(), over.client());
    stays.is_done();
    goes.asks("put endless /f\n");
    let writes = |call: lucernetick::Call| call.kind == Kind::Write;
    wait_for(|| over.server.calls().unwrap().into_iter().any(writes));
    goes.kill();
    stays.asks("mkdir /d\n");
    assert!(stays.ends());
    over.has_no_session();
    let tree = over.server.snapshot().unwrap();
    let cut = tree["/f"].contents().unwrap().len();
    assert!(tree.contains("/d") && 0 < cut && (cut as u64) < ENDLESS);
}

/// Another client than OpenSSH's takes the port, the key and `known_hosts`.
#[test]
fn the_parts_of_the_address() {
    let over = OverSsh::new("parts");
    let mut client = Command::new("sftp")
        .args(["-q", "-F", "none", "-b", "-", "-o", "IdentitiesOnly=yes", "-i"])
        .arg(over.ssh.client_key())
        .arg("-o")
        .arg(format!("UserKnownHostsFile={}", over.ssh.known_hosts().display()))
        .args(["-P", &over.ssh.port().to_string()])
        .arg(format!("{}@{}", over.ssh.user(), over.ssh.host()))
        .stdin(Stdio::piped())
        .spawn()
        .unwrap();
    client.stdin.take().unwrap().write_all(b"mkdir /a\n").unwrap();
    assert!(client.wait().unwrap().success());
    assert!(over.server.snapshot().unwrap().contains("/a"));
    let mut sftp = over.ssh.sftp_command(&["-b", "-"]).stdin(Stdio::piped()).spawn().unwrap();
    sftp.stdin.take().unwrap().write_all(b"rmdir /a\n").unwrap();
    assert!(sftp.wait().unwrap().success());
    assert!(!over.server.snapshot().unwrap().contains("/a"));
}

/// The connection of a client that makes its own is cut.
#[test]
fn a_fault_over_ssh() {
    let over = OverSsh::new("fault");
    over.write("sent", &[1; 1_000_000]);
    over.ssh.set_faults(Faults::default().cut_after(400_000)).unwrap();
    let mut client = over.client();
    client.asks("put sent /f\n");
    assert!(!client.ends());
    over.has_no_session();
    let size = over.server.snapshot().unwrap()["/f"].size;
    assert!(0 < size && size < 400_000, "{}", size);
    over.ssh.set_faults(Faults::default()).unwrap();
    let mut client = over.client();
    client.asks("put sent /f\n");
    assert!(client.ends());
}

/// Several of them, with a root and a host key each, in front of one server.
#[test]
fn roots_and_host_keys() {
    let over = OverSsh::new("roots");
    let host_key = over.folder.join("host_key");
    let words = ["-q", "-t", "ed25519", "-N", "", "-f"];
    assert!(Command::new("ssh-keygen").args(words).arg(&host_key).status().unwrap().success());
    let options = || SshOptions::default().host_key(&host_key);
    let ann = SshServer::with_options(&over.server, options().root("/homes/ann")).unwrap();
    let bob = SshServer::with_options(&over.server, options().root("/homes/bob")).unwrap();
    for (ssh, name) in [(&ann, "a"), (&bob, "b")] {
        let mut client = Client::new(&over.folder, &ssh.ssh_config());
        client.asks(&format!("mkdir /{}\n", name));
        assert!(client.ends());
    }
    let paths = ["/", "/homes", "/homes/ann", "/homes/ann/a", "/homes/bob", "/homes/bob/b"];
    assert!(over.server.snapshot().unwrap().paths().eq(paths));
    let public = fs::read_to_string(over.folder.join("host_key.pub")).unwrap();
    let public: Vec<&str> = public.split(' ').take(2).collect();
    for ssh in [&ann, &bob] {
        assert!(fs::read_to_string(ssh.known_hosts()).unwrap().contains(&public.join(" ")));
    }
    let missing = over.folder.join("none");
    let refused = SshServer::with_options(&over.server, SshOptions::default().host_key(&missing));
    let why = refused.unwrap_err().to_string();
    assert!(why.contains("host_key: ") && why.contains("none"), "{}", why);
}

/// They log in by the password or by the key.
#[test]
fn users_with_passwords() {
    let over = OverSsh::new("passwords");
    let ann = User::new("ann", "se:cr/et").root("/home/ann");
    let bob = User::new("bob.2", "\u{e9} \"'$x").root("/home/bob").uid(1000).gid(100);
    let options = SshOptions::default().users([ann, bob]);
    let ssh = SshServer::with_options(&over.server, options).unwrap();
    assert_eq!((ssh.user(), ssh.password()), ("ann", Some("se:cr/et")));
    for (name, password, commands, is_well) in [
        ("ann", "se:cr/et", "mkdir /a\n", true),
        ("bob.2", "\u{e9} \"'$x", "mkdir /b\n", true),
        ("bob.2", "\u{e9} \"'$x", "mkdir /..\n", false),
        ("ann", "se", "", false),
        ("ann", "\u{e9} \"'$x", "", false),
        ("bob.2", "", "", false),
        ("carl", "se:cr/et", "", false),
        (over.ssh.user(), "se:cr/et", "", false),
    ] {
        let mut client = Client::by_password(&over.folder, &ssh.ssh_config(), name, password);
        let _ = client.commands.write_all(commands.as_bytes());
        assert_eq!(client.ends(), is_well, "{} {}", name, password);
    }
    for (name, is_well) in [("ann", true), ("bob.2", true), (over.ssh.user(), false)] {
        assert_eq!(Client::of_user(&over.folder, &ssh.ssh_config(), name).ends(), is_well);
    }
    let tree = over.server.snapshot().unwrap();
    let paths = ["/", "/home", "/home/ann", "/home/ann/a", "/home/bob", "/home/bob/b"];
    assert!(tree.paths().eq(paths));
    let uids = ["/home/ann/a", "/home/bob", "/home/bob/b"].map(|path| tree[path].uid);
    assert_eq!(uids, [0, 1000, 1000]);
}

/// Clients of four users, each with a root, by the key or the password.
#[test]
fn many_users_at_once() {
    let over = OverSsh::new("users");
    let names = ["a", "b", "c", "d"];
    let users = names.map(|name| User::new(name, name).root(format!("/home/{}", name)));
    let options = SshOptions::default().users(users);
    let ssh = SshServer::with_options(&over.server, options).unwrap();
    let (folder, config) = (&over.folder, ssh.ssh_config());
    over.write("sent", &contents(0, 100_000));
    let mut clients: Vec<_> = (0..MANY)
        .map(|number| match (names[number % 4], number % 3) {
            (name, 0) => Client::by_password(folder, &config, name, name),
            (name, _) => Client::of_user(folder, &config, name),
        })
        .collect();
    for (number, client) in clients.iter_mut().enumerate() {
        client.asks(&format!("put sent /{}\n", number));
    }
    clients.iter_mut().for_each(Client::is_done);
    assert!(clients.into_iter().all(Client::ends));
    let tree = over.server.snapshot().unwrap();
    for number in 0..MANY {
        let path = format!("/home/{}/{}", names[number % 4], number);
        assert_eq!(tree[&path].size, 100_000);
    }
    over.has_no_session();
}

/// The first of two clients that make one directory, by turns that the seed draws.
#[test]
fn clients_that_race() {
    let over = OverSsh::new("races");
    let first_of = |seed| {
        let races = Races::new(seed, 2).unwrap();
        let users = ["ann", "bob"].map(|name| User::new(name, name));
        let ssh = SshServer::for_races(&races, SshOptions::default().users(users)).unwrap();
        let clients = ["ann", "bob"].map(|name| {
            let mut client = Client::of_user(&over.folder, &ssh.ssh_config(), name);
            client.asks("mkdir /a\n");
            thread::spawn(|| client.ends())
        });
        let are_well = clients.map(|client| client.join().unwrap());
        assert_eq!(races.stray(), None);
        assert!(races.snapshot().unwrap().contains("/a"));
        assert!(ssh.set_faults(Faults::default()).is_err());
        are_well
    };
    let found: Vec<_> = (0..8).map(first_of).collect();
    assert!(found.contains(&[true, false]) && found.contains(&[false, true]), "{:?}", found);
    assert_eq!(found[..2], [first_of(0), first_of(1)]);
}

/// A client of a race that never connects leaves with the server, and one that connects twice is
/// served once.
#[test]
fn a_client_of_a_race_that_is_missing() {
    let over = OverSsh::new("missing");
    let races = Races::new(0, 1).unwrap();
    let ssh = SshServer::for_races(&races, SshOptions::default()).unwrap();
    let mut client = Client::new(&over.folder, &ssh.ssh_config());
    client.is_done();
    assert!(!Client::new(&over.folder, &ssh.ssh_config()).ends());
    client.asks("mkdir /a\n");
    assert!(client.ends());
    assert!(races.snapshot().unwrap().contains("/a"));
    let two = Races::new(0, 2).unwrap();
    let users = ["ann", "bob"].map(|name| User::new(name, name));
    let options = SshOptions::default().users(users);
    let ssh = SshServer::for_races(&two, options.clone()).unwrap();
    let mut client = Client::new(&over.folder, &ssh.ssh_config());
    client.asks("mkdir /b\n");
    drop(ssh);
    assert!(!client.ends());
    let three = Races::new(0, 3).unwrap();
    for (races, options, wanted) in [
        (&three, options.clone(), "the races have more clients than the 2 users"),
        (&races, options, "all 1 clients of the race are connected"),
        (&races, SshOptions::default().root("/a"), "users of races have no root, no uid and no"),
        (&races, SshOptions::default().faults(Faults::default().cut_after(1)), "and no faults"),
    ] {
        let refused = SshServer::for_races(races, options).unwrap_err().to_string();
        assert!(refused.contains(wanted), "{}", refused);
    }
}

#[test]
fn users_that_are_rejected() {
    let server = Server::new(Engine::new().unwrap(), || at(0));
    let name = "a user's name must begin with a letter, and have letters, digits, '.', '_' and '-'";
    let password = "the password of ann must be one line of 1 to 1024 bytes";
    for (user, wanted) in [
        (User::new("", "1"), name),
        (User::new("1a", "1"), name),
        (User::new("a b", "1"), name),
        (User::new("a:b", "1"), name),
        (User::new("*", "1"), name),
        (User::new("ann", ""), password),
        (User::new("ann", "1\nbob:2"), password),
        (User::new("ann", "1".repeat(1025)), password),
        (User::new("bob", "1"), "bob is a user already"),
        (User::new("ann", "1").root("/a\0b"), "root \"/a\\x00b\" has a NUL byte"),
    ] {
        let options = SshOptions::default().users([User::new("bob", "1"), user]);
        let refused = SshServer::with_options(&server, options).unwrap_err().to_string();
        assert!(refused.contains(wanted), "{}", refused);
    }
    let options = SshOptions::default().users([User::new("bob", "1")]).root("/a");
    let refused = SshServer::with_options(&server, options).unwrap_err().to_string();
    assert!(refused.contains("root, uid and gid are those of a User"), "{}", refused);
    assert!(server.snapshot().unwrap().paths().eq(["/"]));
}

/// Ann owns the root that is made for her. Others see her files by their modes.
#[test]
fn users_with_permissions() {
    let over = OverSsh::new("permissions");
    over.write("f", b"1");
    let user = |uid| SshOptions::default().uid(uid).gid(100);
    let ann = SshServer::with_options(&over.server, user(1000).root("/home/ann")).unwrap();
    let bob = SshServer::with_options(&over.server, user(2000)).unwrap();
    for (ssh, commands, is_well) in [
        (&ann, "put f /f\nchmod 600 /f\n", true),
        (&bob, "get /home/ann/f got\n", false),
        (&bob, "mkdir /new\n", false),
        (&ann, "chmod 640 /f\n", true),
        (&bob, "get /home/ann/f got\n", true),
    ] {
        let mut client = Client::new(&over.folder, &ssh.ssh_config());
        client.asks(commands);
        assert_eq!(client.ends(), is_well, "{}", commands);
    }
    let tree = over.server.snapshot().unwrap();
    let uids = ["/home", "/home/ann", "/home/ann/f"].map(|path| tree[path].uid);
    assert_eq!(uids, [0, 1000, 1000]);
}

/// Nothing of it is left when it is dropped: no process, no folder, no connection.
#[test]
fn a_server_that_is_dropped() {
    let over = OverSsh::new("dropped");
    let mut client = over.client();
    client.is_done();
    let (port, config) = (over.ssh.port(), over.ssh.ssh_config());
    let second = SshServer::new(&over.server).unwrap();
    assert_ne!((second.port(), second.ssh_config()), (port, config));
    let (second_port, second_config) = (second.port(), second.ssh_config());
    drop(second);
    assert!(!second_config.parent().unwrap().parent().unwrap().exists());
    assert!(TcpStream::connect(("127.0.0.1", second_port)).is_err());
    client.is_done();
    assert!(client.ends());
}

/// It says what is missing.
#[test]
fn a_script_that_is_missing() {
    let missing = env::temp_dir().join(format!("lucernetick-{}-none", process::id()));
    let ends = |name: &str, value: &Path, wanted: &str| {
        let run = Command::new(env::current_exe().unwrap())
            .args(["--exact", "is_started_without", "--ignored", "--nocapture"])
            .env(name, value)
            .output()
            .unwrap();
        let text = String::from_utf8_lossy(&run.stdout).into_owned();
        assert!(text.contains(wanted), "{}", text);
    };
    ends("SFTPD_OVER_SSH", &missing, "SFTPD_OVER_SSH is");
    ends("SFTPD", &missing, "there is no program");
}

/// Run by `a_script_that_is_missing` in another process.
#[test]
#[ignore]
fn is_started_without() {
    let server = Server::new(Engine::new().unwrap(), || at(0));
    let fault = SshServer::new(&server).unwrap_err();
    println!("{:?} {}", fault.kind(), fault);
    assert!(matches!(fault.kind(), ErrorKind::NotFound | ErrorKind::Other));
}
