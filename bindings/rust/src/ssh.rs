//! A server behind SSH.

use crate::served::{Listener, Terms};
use crate::{linux, Error, Faults, Races, Server, SshOptions, User};
use std::env;
use std::fmt::{self, Write as _};
use std::fs::{self, DirBuilder, File, OpenOptions};
use std::io::{self, BufRead, BufReader, ErrorKind, Read, Write};
use std::os::raw::c_int;
use std::os::unix::fs::{DirBuilderExt, OpenOptionsExt};
use std::path::{Path, PathBuf};
use std::process::{self, Child, Command, Stdio};
use std::sync::atomic::{AtomicU64, Ordering};
use std::sync::Arc;

const SCRIPT: &str = "sftpd-over-ssh";
/// Where the script is in the archive and in the repository, beside the crate.
const PLACES: [&str; 2] = ["../../bin/sftpd-over-ssh", "../../scripts/sftpd-over-ssh"];
const HOST: &str = "127.0.0.1";

/// An SSH server at a free port of 127.0.0.1, for clients that make their own connection. Its
/// subsystem `sftp` is a session of a `Server`. There is nothing else: no shell, no command, no
/// forwarding.
///
/// It is OpenSSH's `sshd`, which the script `sftpd-over-ssh` starts without root. It needs Debian's
/// openssh-server and openssh-client. The script is the file `SFTPD_OVER_SSH`, or that of the
/// release archive or the repository, or in PATH.
///
/// By default it has one user, this process's, and one key. `SshOptions::users` are others, with
/// passwords and root directories. For these it needs Debian's libnss-wrapper too.
///
/// Dropping it ends its connections.
///
/// ```no_run
/// use lucernetick::{wall_clock, Engine, Server, SshServer};
///
/// let server = Server::new(Engine::new()?, wall_clock);
/// let ssh = SshServer::new(&server)?;
/// assert!(ssh.sftp_command(&["-b", "batch"]).status()?.success());
/// # Ok::<(), std::io::Error>(())
/// ```
pub struct SshServer {
    // They are dropped in this order.
    _script: Script,
    _listeners: Vec<Listener>,
    folder: Folder,
    port: u16,
    user: String,
    password: Option<String>,
    terms: Vec<Arc<Terms>>,
}

impl SshServer {
    /// Starts an SSH server in front of this server. It makes new keys.
    pub fn new(server: &Server) -> io::Result<Self> {
        Self::with_faults(server, Faults::default())
    }

    /// As `new`. Each session has these faults.
    pub fn with_faults(server: &Server, faults: Faults) -> io::Result<Self> {
        Self::with_options(server, SshOptions::default().faults(faults))
    }

    /// As `new`, with these options.
    pub fn with_options(server: &Server, options: SshOptions) -> io::Result<Self> {
        options.check()?;
        let folder = Folder::new()?;
        let (mut listeners, mut terms) = (Vec::new(), Vec::new());
        for (number, user) in options.everybody().iter().enumerate() {
            let view = user.view();
            server.make_root(&view.root, view.owner)?;
            terms.push(Terms::new(view, options.faults));
            listeners.push(server.listener(&folder.socket(number), Arc::clone(&terms[number]))?);
        }
        Self::start(folder, listeners, terms, &options)
    }

    /// An SSH server for clients that race: each user is one of them, in their order, and opens one
    /// session. Users see the whole tree, without faults.
    pub fn for_races(races: &Races, options: SshOptions) -> io::Result<Self> {
        options.check()?;
        let users = options.everybody();
        if options.faults != Faults::default() || users.iter().any(|user| !user.view().is_whole()) {
            let why = "users of races have no root, no uid and no faults";
            return Err(Error::Argument(why.to_string()).into());
        }
        let folder = Folder::new()?;
        let streams = users.iter().map(|_| races.connect()).collect::<io::Result<Vec<_>>>()?;
        if races.connect().is_ok() {
            let why = format!("the races have more clients than the {} users", users.len());
            return Err(Error::Argument(why).into());
        }
        let streams = streams.into_iter().enumerate();
        let listen = streams.map(|(number, one)| Listener::of_racer(&folder.socket(number), one));
        let listeners = listen.collect::<io::Result<Vec<_>>>()?;
        Self::start(folder, listeners, Vec::new(), &options)
    }

    /// Starts `sshd` in front of these listeners, one for each user.
    fn start(
        folder: Folder,
        listeners: Vec<Listener>,
        terms: Vec<Arc<Terms>>,
        options: &SshOptions,
    ) -> io::Result<Self> {
        let program = find_script()?;
        let keys = folder.keys();
        DirBuilder::new().mode(0o700).create(&keys)?;
        if let Some(host_key) = &options.host_key {
            copy_key(host_key, &keys)?;
        }
        let mut authorized = create(&keys.join("authorized_keys"))?;
        for path in &options.public_keys {
            authorized.write_all(&read("public_keys", path)?)?;
            authorized.write_all(b"\n")?;
        }
        let mut command = Command::new(program);
        let users = options.with_passwords();
        if !users.is_empty() {
            command.arg("--password-file").arg(write_users(users, &folder)?);
        }
        let script = Script::start(command.arg(folder.socket(0)).arg("0").arg(&keys))?;
        let config = fs::read_to_string(keys.join("ssh_config"))?;
        let port = option(&config, "Port")?.parse().map_err(|_| malformed(&config))?;
        let user = option(&config, "User")?.to_string();
        let password = users.first().map(|user| user.password.clone());
        Ok(Self { _script: script, _listeners: listeners, folder, port, user, password, terms })
    }

    pub fn host(&self) -> &str {
        HOST
    }

    pub fn port(&self) -> u16 {
        self.port
    }

    /// The first user who may log in: that of this process, unless there are others.
    pub fn user(&self) -> &str {
        &self.user
    }

    /// The password of that user. None for the user of this process, who needs `client_key`.
    pub fn password(&self) -> Option<&str> {
        self.password.as_deref()
    }

    /// The path of the private key by which every user may log in. It is removed with the server.
    pub fn client_key(&self) -> PathBuf {
        self.folder.keys().join("client_key")
    }

    /// The path of a file with the host's public key, in the format of OpenSSH's `known_hosts`.
    pub fn known_hosts(&self) -> PathBuf {
        self.folder.keys().join("known_hosts")
    }

    /// The path of a configuration for OpenSSH's clients, in which the host is named `tree`, and
    /// the user is the first one.
    pub fn ssh_config(&self) -> PathBuf {
        self.folder.keys().join("ssh_config")
    }

    /// The command that connects OpenSSH's `sftp`, with further options.
    pub fn sftp_command(&self, options: &[&str]) -> Command {
        let mut sftp = Command::new("sftp");
        sftp.arg("-F").arg(self.ssh_config()).args(options).arg("tree");
        sftp
    }

    /// Sets the faults of the sessions that open from now on. Those of races have none.
    pub fn set_faults(&self, faults: Faults) -> io::Result<()> {
        faults.check()?;
        if self.terms.is_empty() {
            return Err(Error::Argument("clients of races have no faults".to_string()).into());
        }
        self.terms.iter().for_each(|terms| *terms.faults() = faults);
        Ok(())
    }
}

impl fmt::Debug for SshServer {
    fn fmt(&self, f: &mut fmt::Formatter<'_>) -> fmt::Result {
        f.debug_struct("SshServer").field("port", &self.port).finish_non_exhaustive()
    }
}

/// A new folder that only its owner can read. It is removed when this is dropped.
struct Folder(PathBuf);

impl Folder {
    fn new() -> io::Result<Self> {
        static COUNT: AtomicU64 = AtomicU64::new(0);
        loop {
            let number = COUNT.fetch_add(1, Ordering::SeqCst);
            let name = format!("lucernetick-{}-{}", process::id(), number);
            let folder = env::temp_dir().join(name);
            match DirBuilder::new().mode(0o700).create(&folder) {
                Ok(()) => return Ok(Self(folder)),
                Err(fault) if fault.kind() == ErrorKind::AlreadyExists => {}
                Err(fault) => return Err(fault),
            }
        }
    }

    /// The folder of the script.
    fn keys(&self) -> PathBuf {
        self.0.join("keys")
    }

    /// The socket of a user.
    fn socket(&self, number: usize) -> PathBuf {
        self.0.join(number.to_string())
    }
}

impl Drop for Folder {
    fn drop(&mut self) {
        let _ = fs::remove_dir_all(&self.0);
    }
}

/// Writes the users for the script, one in each line, with their sockets. Returns the file's path.
fn write_users(users: &[User], folder: &Folder) -> io::Result<PathBuf> {
    let mut lines = String::new();
    for (number, user) in users.iter().enumerate() {
        let socket = folder.socket(number);
        match socket.to_str().filter(|text| !text.contains([':', '\n'])) {
            // This cannot fail.
            Some(text) => _ = writeln!(lines, "{}:{}:{}", user.name, user.password, text),
            None => {
                let why = format!("{}: its path has a colon, or is not UTF-8", socket.display());
                return Err(io::Error::new(ErrorKind::InvalidInput, why));
            }
        }
    }
    let path = folder.0.join("users");
    create(&path)?.write_all(lines.as_bytes())?;
    Ok(path)
}

/// A new file that only its owner can read.
fn create(path: &Path) -> io::Result<File> {
    OpenOptions::new().write(true).create_new(true).mode(0o600).open(path)
}

/// Reads a file that an option names.
fn read(option: &str, path: &Path) -> io::Result<Vec<u8>> {
    fs::read(path).map_err(|fault| {
        io::Error::new(fault.kind(), format!("{}: {}: {}", option, path.display(), fault))
    })
}

/// Copies the host's key to where the script looks for it, with the public key beside it.
fn copy_key(from: &Path, keys: &Path) -> io::Result<()> {
    let to = keys.join("host_key");
    create(&to)?.write_all(&read("host_key", from)?)?;
    let public = Command::new("ssh-keygen").args(["-y", "-P", "", "-f"]).arg(&to).output()?;
    if !public.status.success() {
        let why = String::from_utf8_lossy(&public.stderr).trim_end().to_string();
        return Err(io::Error::new(ErrorKind::InvalidInput, format!("host_key: {}", why)));
    }
    create(&keys.join("host_key.pub"))?.write_all(&public.stdout)
}

/// The running script. When this is dropped, the script ends its connections.
struct Script(Child);

impl Script {
    /// Starts it, and waits until it listens. If it ends instead, the error is what it printed.
    fn start(command: &mut Command) -> io::Result<Self> {
        let (output, errors) = (Stdio::piped(), Stdio::piped());
        let child = command.stdin(Stdio::null()).stdout(output).stderr(errors).spawn();
        let failed = |fault: io::Error| {
            let program = Path::new(command.get_program()).display();
            io::Error::new(fault.kind(), format!("{}: {}", program, fault))
        };
        let mut script = Self(child.map_err(failed)?);
        let mut line = String::new();
        if let Some(output) = script.0.stdout.take() {
            BufReader::new(output).read_line(&mut line)?;
        }
        match &mut script.0.stderr {
            Some(errors) if line.is_empty() => {
                let mut text = String::new();
                errors.read_to_string(&mut text)?;
                Err(io::Error::new(ErrorKind::Other, text.trim_end().to_string()))
            }
            _ => Ok(script),
        }
    }
}

impl Drop for Script {
    fn drop(&mut self) {
        // SAFETY: it has numbers as arguments, and the process was not waited for.
        unsafe { linux::kill(self.0.id() as c_int, linux::SIGTERM) };
        let _ = self.0.wait();
    }
}

/// The script, or an error with the places that were searched.
fn find_script() -> io::Result<PathBuf> {
    if let Some(named) = env::var_os("SFTPD_OVER_SSH").map(PathBuf::from) {
        if named.is_file() {
            return Ok(named);
        }
        return Err(missing(&format!("SFTPD_OVER_SSH is {}, which is no file", named.display())));
    }
    let places = places();
    match places.iter().find(|place| place.is_file()) {
        Some(place) => Ok(place.clone()),
        None => {
            let shown: Vec<_> = places.iter().map(|place| place.display().to_string()).collect();
            Err(missing(&format!(
                "{} is not there: searched {}. Set SFTPD_OVER_SSH to its path",
                SCRIPT,
                shown.join(", ")
            )))
        }
    }
}

fn places() -> Vec<PathBuf> {
    let beside = option_env!("CARGO_MANIFEST_DIR").map(Path::new);
    let beside = beside.into_iter().flat_map(|top| PLACES.map(|place| top.join(place)));
    let path = env::var_os("PATH").unwrap_or_default();
    beside.chain(env::split_paths(&path).map(|folder| folder.join(SCRIPT))).collect()
}

fn missing(why: &str) -> io::Error {
    io::Error::new(ErrorKind::NotFound, why)
}

fn malformed(config: &str) -> io::Error {
    io::Error::new(ErrorKind::InvalidData, format!("unexpected ssh_config: {}", config))
}

/// The value of an option of `ssh_config`.
fn option<'c>(config: &'c str, name: &str) -> io::Result<&'c str> {
    let words = config.lines().filter_map(|line| line.trim().split_once(' '));
    words
        .filter(|(found, _)| *found == name)
        .map(|(_, value)| value)
        .next()
        .ok_or_else(|| malformed(config))
}
