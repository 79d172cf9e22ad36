//! The users and other options of a server behind SSH.

use crate::permissions::Owner;
use crate::served::View;
use crate::{Error, Faults};
use std::path::PathBuf;

/// The longest password that `sshd` accepts.
const LONGEST: usize = 1024;

/// A user who may log in with this password, or with the server's `client_key`.
///
/// ```
/// use lucernetick::User;
///
/// let ann = User::new("ann", "secret").root("/home/ann").uid(1000).gid(100);
/// # let _ = ann;
/// ```
#[derive(Clone, Debug, PartialEq, Eq)]
#[must_use]
pub struct User {
    pub(crate) name: String,
    pub(crate) password: String,
    root: Vec<u8>,
    uid: u32,
    gid: u32,
}

impl User {
    /// A user who sees the whole tree. A name has letters, digits, `.`, `_` and `-`.
    pub fn new(name: impl Into<String>, password: impl Into<String>) -> Self {
        let (name, password) = (name.into(), password.into());
        Self { name, password, root: b"/".to_vec(), uid: 0, gid: 0 }
    }

    /// The directory of the tree that the user sees as `/`. It is made if it is missing, and then
    /// belongs to the user.
    pub fn root(self, root: impl AsRef<[u8]>) -> Self {
        Self { root: root.as_ref().to_vec(), ..self }
    }

    /// The user's number. Unless it is 0, permissions are enforced, as by
    /// `Rule::enforce_permissions`.
    pub fn uid(self, uid: u32) -> Self {
        Self { uid, ..self }
    }

    /// The group of the user.
    pub fn gid(self, gid: u32) -> Self {
        Self { gid, ..self }
    }

    pub(crate) fn view(&self) -> View {
        let owner = Owner { uid: self.uid, gid: self.gid };
        View { root: self.root.clone(), owner: Some(owner).filter(|owner| owner.uid != 0) }
    }

    /// Whether the name and the password are those of `sftpd-over-ssh`.
    fn check(&self) -> Result<(), Error> {
        let is_letter = |letter: char| letter.is_ascii_alphabetic() || letter == '_';
        let is_inner = |letter: char| is_letter(letter) || "0123456789.-".contains(letter);
        if !self.name.starts_with(is_letter) || !self.name.chars().all(is_inner) {
            let why = "must begin with a letter, and have letters, digits, '.', '_' and '-' only";
            return Err(Error::Argument(format!("a user's name {}, not {:?}", why, self.name)));
        }
        if !(1..=LONGEST).contains(&self.password.len()) || self.password.contains(['\n', '\0']) {
            let why = format!("the password of {} must be one line of 1 to 1024 bytes", self.name);
            return Err(Error::Argument(why));
        }
        Ok(())
    }
}

/// The options of an `SshServer`.
///
/// ```no_run
/// use lucernetick::{wall_clock, Engine, Faults, Server, SshOptions, SshServer, User};
///
/// let server = Server::new(Engine::new()?, wall_clock);
/// let users = [User::new("ann", "secret").root("/ann"), User::new("bob", "1234")];
/// let options = SshOptions::default().users(users).faults(Faults::default().cut_after(1000));
/// let ssh = SshServer::with_options(&server, options)?;
/// # Ok::<(), std::io::Error>(())
/// ```
#[derive(Clone, Debug)]
#[must_use]
pub struct SshOptions {
    /// The user of this process, who has no password.
    only: User,
    users: Vec<User>,
    pub(crate) host_key: Option<PathBuf>,
    pub(crate) public_keys: Vec<PathBuf>,
    pub(crate) faults: Faults,
}

impl Default for SshOptions {
    fn default() -> Self {
        let (only, faults) = (User::new("", ""), Faults::default());
        let (users, public_keys) = (Vec::new(), Vec::new());
        Self { only, users, host_key: None, public_keys, faults }
    }
}

impl SshOptions {
    /// The users who may log in; by default only the user of this process, and without a password.
    /// They need Debian's libnss-wrapper.
    pub fn users(self, users: impl IntoIterator<Item = User>) -> Self {
        Self { users: users.into_iter().collect(), ..self }
    }

    /// The directory of the tree that clients see as `/`. It is made if it is missing. If there are
    /// `users`, each has one.
    pub fn root(self, root: impl AsRef<[u8]>) -> Self {
        Self { only: self.only.root(root), ..self }
    }

    /// The user that clients are. Unless it is 0, permissions are enforced, as by
    /// `Rule::enforce_permissions`. A root that is made belongs to the user.
    pub fn uid(self, uid: u32) -> Self {
        Self { only: self.only.uid(uid), ..self }
    }

    /// The group of that user.
    pub fn gid(self, gid: u32) -> Self {
        Self { only: self.only.gid(gid), ..self }
    }

    /// A file with the server's private key, without a passphrase; by default a new one.
    pub fn host_key(self, path: impl Into<PathBuf>) -> Self {
        Self { host_key: Some(path.into()), ..self }
    }

    /// Files with further keys by which every user may log in, in OpenSSH's format.
    pub fn public_keys<P: Into<PathBuf>>(self, paths: impl IntoIterator<Item = P>) -> Self {
        Self { public_keys: paths.into_iter().map(P::into).collect(), ..self }
    }

    /// The faults of each session.
    pub fn faults(self, faults: Faults) -> Self {
        Self { faults, ..self }
    }

    /// Who may log in.
    pub(crate) fn everybody(&self) -> &[User] {
        match self.users.as_slice() {
            [] => std::slice::from_ref(&self.only),
            users => users,
        }
    }

    /// Those of them who have passwords.
    pub(crate) fn with_passwords(&self) -> &[User] {
        &self.users
    }

    pub(crate) fn check(&self) -> Result<(), Error> {
        self.faults.check()?;
        if !self.users.is_empty() && self.only != User::new("", "") {
            let why = "root, uid and gid are those of a User if there are users";
            return Err(Error::Argument(why.to_string()));
        }
        self.users.iter().try_for_each(User::check)
    }
}
