//! Copies from folders of the system, and to them.

use lucernetick::unix_time as at;
use lucernetick::{Engine, FolderOptions, Rule, Session};
use std::collections::BTreeSet;
use std::fs;
use std::io::ErrorKind;
use std::os::unix::fs::{symlink, MetadataExt, PermissionsExt};
use std::os::unix::net::UnixListener;
use std::path::{Path, PathBuf};
use std::process::{self, Command};
use std::sync::atomic::{AtomicBool, Ordering};
use std::thread;
use std::time::{Duration, Instant};

/// A folder that is removed when this is dropped.
struct Folder(PathBuf);

impl Folder {
    fn new(test: &str) -> Self {
        let path = std::env::temp_dir().join(format!("lucernetick-{}-{}", process::id(), test));
        fs::create_dir(&path).unwrap();
        Self(path)
    }
}

impl Drop for Folder {
    fn drop(&mut self) {
        fs::remove_dir_all(&self.0).unwrap();
    }
}

/// Sets attributes, encoded with their flags.
fn set(engine: &mut Engine, session: Session, path: &str, attributes: &[u8]) {
    let body = [&[9, 0, 0, 0, 1, 0, 0, 0, path.len() as u8], path.as_bytes(), attributes].concat();
    engine.feed(session, &[&(body.len() as u32).to_be_bytes()[..], &body].concat()).unwrap();
    engine.settle(session, at(0), 100).unwrap();
    assert_eq!(engine.take(session).unwrap()[4..13], [101, 0, 0, 0, 1, 0, 0, 0, 0]);
}

#[test]
fn a_snapshot_is_saved_and_taken_back() {
    let files = [("/a/b", "one"), ("/a-b", "two"), ("/none", ""), ("/d/e/f", "three")];
    let mut engine = Engine::from_files(files, at(77)).unwrap();
    engine.make_directories("/empty", at(77)).unwrap();
    engine.hard_link("/a/b", "/x/b", at(77)).unwrap();
    let session = engine.open().unwrap();
    engine.feed(session, b"\0\0\0\x05\x01\0\0\0\x03").unwrap();
    engine.settle(session, at(0), 1).unwrap();
    engine.take(session).unwrap();
    // Permissions 0o6750; atime 5, mtime 9; and of /d none at all.
    set(&mut engine, session, "/a-b", b"\0\0\0\x04\0\0\x0d\xe8");
    set(&mut engine, session, "/a-b", b"\0\0\0\x08\0\0\0\x05\0\0\0\x09");
    set(&mut engine, session, "/d", b"\0\0\0\x04\0\0\0\0");
    let tree = engine.snapshot().unwrap();

    let folder = Folder::new("saved");
    let top = folder.0.join("new/folder");
    tree.save(&top).unwrap();
    let found = fs::metadata(top.join("a-b")).unwrap();
    assert_eq!((found.mode(), found.atime(), found.mtime()), (0o100750, 5, 9));
    let found = fs::metadata(top.join("a")).unwrap();
    assert_eq!((found.mode(), found.mtime()), (0o40755, 77));
    assert_eq!(fs::metadata(top.join("d")).unwrap().mode(), 0o40000);
    let inode = |name: &str| fs::metadata(top.join(name)).unwrap().ino();
    assert_eq!(inode("a/b"), inode("x/b"));
    assert_eq!(tree.save(&top).unwrap_err().kind(), ErrorKind::AlreadyExists);

    fs::set_permissions(top.join("d"), fs::Permissions::from_mode(0o700)).unwrap();
    let again = Engine::from_folder(&top, at(3)).unwrap().snapshot().unwrap();
    assert!(again.paths().eq(tree.paths()));
    for (found, entry) in again.values().zip(tree.values()) {
        assert_eq!((found.contents(), found.file), (entry.contents(), entry.file));
        assert_eq!(found.mtime, at(3));
    }
}

#[test]
fn folders_that_are_refused() {
    let folder = Folder::new("refused");
    fs::write(folder.0.join("f"), "1").unwrap();
    symlink("f", folder.0.join("g")).unwrap();
    let refused = Engine::from_folder(&folder.0, at(0)).unwrap_err();
    assert!(refused.to_string().ends_with("/g is neither a file nor a directory"), "{}", refused);
    let refused = Engine::from_folder(folder.0.join("none"), at(0)).unwrap_err();
    assert_eq!(refused.kind(), ErrorKind::NotFound);
}

/// As the option `--tree` of the programs: permissions, owners and times are copied, and what is
/// neither a file nor a directory is skipped. No rule applies.
#[test]
fn a_folder_with_its_attributes() {
    let folder = Folder::new("attributes");
    let at_path = |name: &str| folder.0.join(name);
    fs::create_dir(at_path("d")).unwrap();
    fs::write(at_path("d/f"), "1").unwrap();
    fs::hard_link(at_path("d/f"), at_path("g")).unwrap();
    symlink("f", at_path("d/s")).unwrap();
    fs::set_permissions(at_path("d/f"), fs::Permissions::from_mode(0o4640)).unwrap();
    fs::set_permissions(at_path("d"), fs::Permissions::from_mode(0o1750)).unwrap();
    for (name, moment) in [("d/f", "@-7"), ("d", "@1700000000")] {
        let touched = Command::new("touch").args(["-d", moment]).arg(at_path(name)).status();
        assert!(touched.unwrap().success());
    }
    let mut engine = Engine::new().unwrap();
    engine.refuse(Rule::default().always()).unwrap();
    let mut skipped = Vec::new();
    let skip = |path: &Path, kind: &str| skipped.push((path.to_path_buf(), kind.to_string()));
    engine.write_folder(&folder.0, FolderOptions::default().attributes().skip(skip)).unwrap();
    assert_eq!(skipped, [(at_path("d/s"), "a symbolic link".to_string())]);
    let tree = engine.snapshot().unwrap();
    assert_eq!((tree["/d"].mode, tree["/d/f"].mode), (0o41750, 0o104640));
    // A time before 1970 is 1970.
    assert_eq!((tree["/d"].mtime, tree["/d/f"].mtime), (at(1_700_000_000), at(0)));
    let found = fs::metadata(at_path("g")).unwrap();
    assert_eq!((tree["/g"].uid, tree["/g"].gid), (found.uid(), found.gid()));
    assert_eq!(tree["/g"].file, tree["/d/f"].file);
}

/// What is swapped while a folder is read is a file, a link to a secret, or a FIFO.
#[test]
fn a_name_that_becomes_a_link() {
    let top = Folder::new("swapped");
    let (folder, secret, new) = (top.0.join("folder"), top.0.join("secret"), top.0.join("new"));
    fs::create_dir(&folder).unwrap();
    fs::write(&secret, "secret").unwrap();
    let ends = AtomicBool::new(false);
    let mut found = BTreeSet::new();
    let swap = || {
        for kind in (0..3).cycle().take_while(|_| !ends.load(Ordering::SeqCst)) {
            match kind {
                0 => symlink(&secret, &new).unwrap(),
                1 => assert!(Command::new("mkfifo").arg(&new).status().unwrap().success()),
                _ => fs::write(&new, "fine").unwrap(),
            }
            fs::rename(&new, folder.join("f")).unwrap();
        }
    };
    thread::scope(|scope| {
        scope.spawn(swap);
        let begin = Instant::now();
        let fine = Some(b"fine".to_vec());
        // On a busy machine the file is seldom the same one for two calls.
        while begin.elapsed() < Duration::from_secs(if found.contains(&fine) { 3 } else { 60 }) {
            let mut engine = Engine::new().unwrap();
            let options = FolderOptions::default().skip(|_, _| ());
            if engine.write_folder(&folder, options).is_ok() {
                let tree = engine.snapshot().unwrap();
                found.insert(tree.get("/f").and_then(|entry| Some(entry.contents()?.into_owned())));
            }
        }
        ends.store(true, Ordering::SeqCst);
    });
    assert!(found.contains(&Some(b"fine".to_vec())) && !found.contains(&Some(b"secret".to_vec())));
}

/// A file is read while it shrinks or grows, until that is noticed.
#[test]
fn a_file_that_changes_its_size() {
    const SIZE: u64 = 20_000_000;
    let folder = Folder::new("changing");
    let path = folder.0.join("f");
    let begin = Instant::now();
    for (size, wanted) in [(10, "f shrank while it was read"), (2 * SIZE, "f grew while it was")] {
        let fault = loop {
            assert!(begin.elapsed() < Duration::from_secs(120));
            let file = fs::File::create(&path).unwrap();
            file.set_len(SIZE).unwrap();
            let change = thread::spawn(move || {
                thread::sleep(Duration::from_millis(1));
                file.set_len(size).unwrap();
            });
            let read = Engine::from_folder(&folder.0, at(0));
            change.join().unwrap();
            if let Err(fault) = read {
                break fault.to_string();
            }
        };
        assert!(fault.contains(wanted), "{}", fault);
    }
}

/// Its directories are opened one by one.
#[test]
fn a_deep_folder() {
    let folder = Folder::new("deep");
    let make = "for i in $(seq 200); do mkdir d && cd d || exit 1; done; printf 1 >f";
    let made = Command::new("sh").args(["-c", make]).current_dir(&folder.0).status().unwrap();
    assert!(made.success());
    let tree = Engine::from_folder(&folder.0, at(0)).unwrap().snapshot().unwrap();
    assert_eq!(tree[&format!("{}/f", "/d".repeat(200))].contents().as_deref(), Some(&b"1"[..]));
}

/// What is skipped is neither opened nor waited for.
#[test]
fn a_folder_with_a_fifo_and_a_socket() {
    let folder = Folder::new("skipped");
    let pipe = folder.0.join("pipe");
    assert!(Command::new("mkfifo").arg(&pipe).status().unwrap().success());
    let _listening = UnixListener::bind(folder.0.join("socket")).unwrap();
    let mut skipped = Vec::new();
    let skip = |path: &Path, kind: &str| {
        skipped.push(format!("{} is {}", path.file_name().unwrap().to_string_lossy(), kind));
    };
    let mut engine = Engine::new().unwrap();
    engine.write_folder(&folder.0, FolderOptions::default().skip(skip)).unwrap();
    assert_eq!(skipped, ["pipe is a FIFO", "socket is a socket"]);
    let refused = Engine::from_folder(&pipe, at(0)).unwrap_err().to_string();
    assert!(refused.contains("pipe: Not a directory"), "{}", refused);
}

#[test]
fn a_tree_that_is_saved_in_part() {
    let files = [("/a/b", "1"), ("/a/c", "2"), ("/d", "3")];
    let tree = Engine::from_files(files, at(77)).unwrap().snapshot().unwrap();
    let folder = Folder::new("in_part");
    assert!(tree.save_all(&folder.0).unwrap().is_empty());
    fs::remove_file(folder.0.join("a/c")).unwrap();
    let failed = tree.save_all(&folder.0).unwrap();
    let paths: Vec<&[u8]> = failed.iter().map(|(path, _)| path.as_slice()).collect();
    assert_eq!(paths, [&b"/a"[..], b"/a/b", b"/d"]);
    assert!(failed.iter().all(|(_, fault)| fault.kind() == ErrorKind::AlreadyExists));
    assert_eq!(fs::read(folder.0.join("a/c")).unwrap(), b"2");
}
