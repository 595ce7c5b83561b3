//! `panel --folder DIR --read-only`, over a Unix socket and pipes; folders that are no archive; and what leads out of a folder.
mod common;
use common::archives::{made, put, text, TIME, V2};
use common::program::{folder, names, told, PANEL};
use common::with;
use std::fs;
use std::io::{Read, Write};
use std::os::unix::fs::{symlink, MetadataExt};
use std::path::Path;
use std::process::{Child, Command, Stdio};
use std::thread;
use std::time::Duration;
use yuglasno::panel::{Panel, Unserved};
use yuglasno::DATA_MOST;

fn from(dir: &Path, words: &[&str]) -> (i32, String, String) {
    told(&[&["--folder", text(dir)], words].concat())
}

/// The program on a socket, which is there when this returns.
fn on_socket(dir: &Path, socket: &Path) -> Child {
    let words = ["--folder", text(dir), "--read-only", "--unix", text(socket)];
    let child = Command::new(PANEL).args(words).stderr(Stdio::null()).spawn().unwrap();
    while !socket.exists() {
        thread::sleep(Duration::from_millis(5));
    }
    child
}

#[test]
fn over_a_socket_and_pipes() {
    let (served, dir) = made("socket of an archive");
    let socket = served.join("socket");
    let mut panel = on_socket(&dir, &socket);
    let exec = ["--exec", PANEL, "--folder", text(&dir), "--read-only", "--cut", "3", "--"];
    for words in [&["ls", "/"][..], &["stat", "/a"], &["pull", "/sub/c", "-"], &["ls", "/none"], &["push", PANEL, "/x"]]
    {
        let plain = from(&dir, words);
        for place in [&["--unix", text(&socket)][..], &exec] {
            let (status, said, error) = told(&[place, &["--features", V2], words].concat());
            assert_eq!((status, &said), (plain.0, &plain.1), "{words:?}: {error}");
        }
    }
    panel.kill().unwrap();
    panel.wait().unwrap();
    assert_eq!(fs::read_to_string(dir.join("a")).unwrap(), "the job a");
}

#[test]
fn a_panel_that_can_not_be_served() {
    let (_, dir) = made("unserved");
    fs::write(dir.join("SHA256SUMS"), "no line\nno line\n").unwrap();
    let ended = |words: &[&str]| {
        let output = Command::new(PANEL).args(words).stdin(Stdio::null()).output().unwrap();
        (output.status.code(), String::from_utf8(output.stderr).unwrap())
    };
    let (status, error) = ended(&["--folder", "/nonexistent", "--read-only"]);
    assert_eq!((status, error.as_str()), (Some(69), "panel: /nonexistent: No such file or directory (os error 2)\n"));
    assert_eq!(ended(&["--read-only"]).0, Some(64), "without a folder");
    assert_eq!(
        ended(&["--folder", text(&dir), "--read-only"]).0,
        Some(0),
        "lines at the end that are none: a torn list"
    );
    fs::write(dir.join("SHA256SUMS"), [&b"no line\n"[..], &[b'a'; 64], b"  a\n"].concat()).unwrap();
    let (status, error) = ended(&["--folder", text(&dir), "--read-only"]);
    assert!(status == Some(66) && error.ends_with("SHA256SUMS: line 1 is none of an archive's\n"), "{error}");
    assert!(matches!(Panel::read_only(&dir), Err(Unserved::List(..))));
    assert!(matches!(Panel::read_only(dir.join("a")), Err(Unserved::Folder(..))));
}

/// A folder of files: their own numbers, and every name, lists of sums too.
#[test]
fn a_folder_that_is_no_archive() {
    let dir = folder("plain");
    fs::create_dir(dir.join("sub")).unwrap();
    for name in ["a", "SHA256SUMS", "sub/c"] {
        put(&dir, name, TIME, format!("the file {name}"));
    }
    let about = fs::metadata(dir.join("a")).unwrap();
    let (status, said, _) = from(&dir, &["stat", "/a"]);
    let (times, owner) = ((about.atime(), about.ctime()), (about.uid(), about.gid()));
    let expected = format!(
        "mode  {:o}\nsize  10\nmtime {TIME}\natime {}\nctime {}\ndev   {}\nino   {}\nnlink 1\nuid   {}\ngid   {}\n",
        about.mode(),
        times.0,
        times.1,
        about.dev(),
        about.ino(),
        owner.0,
        owner.1
    );
    assert_eq!((status, said), (0, expected));
    let (_, said, _) = from(&dir, &["ls", "/"]);
    let listed: Vec<_> = said.lines().map(|line| line.rsplit(' ').next().unwrap()).collect();
    assert_eq!(listed, [".", "..", "SHA256SUMS", "a", "sub"]);
    assert_eq!(from(&dir, &["pull", "sub/c", "-"]).1, "the file sub/c");
    let (status, _, error) = from(&dir, &["pull", "sub", "-"]);
    assert!(status == 14 && error.contains("read failed: Is a directory"), "{error}");
}

/// The numbers of a file over 32 bits: all of them in v2, the low 32 bits in v1.
#[test]
fn a_file_of_five_gib() {
    let dir = folder("sparse");
    let size = (5 << 30) + 7;
    fs::File::create(dir.join("big")).unwrap().set_len(size).unwrap();
    for (features, expected) in [(V2, size), ("", size & u64::from(u32::MAX))] {
        let (_, said, _) = from(&dir, &["--features", features, "stat", "/big"]);
        assert!(said.contains(&format!("\nsize  {expected}\n")), "{said}");
        let (_, said, _) = from(&dir, &["--features", features, "ls", "/"]);
        assert!(said.contains(&format!(" {expected} ")), "{said}");
    }
    let (mut panel, mut first) = (Panel::read_only(&dir).unwrap(), vec![0; 8 + DATA_MOST + 8]);
    panel.write_all(&with(b"RECV", b"/big")).unwrap();
    panel.read_exact(&mut first).unwrap();
    assert!(
        first == [with(b"DATA", &[0; DATA_MOST]), b"DATA\0\0\x01\0".to_vec()].concat(),
        "chunks, long before all is read"
    );
    fs::remove_file(dir.join("big")).unwrap();
}

/// What a panel says to a pull of this path.
fn pulled(panel: &mut Panel, path: &str) -> Vec<u8> {
    panel.write_all(&with(b"RECV", path.as_bytes())).unwrap();
    let mut said = Vec::new();
    panel.read_to_end(&mut said).unwrap();
    said
}

/// Links and `..` lead nowhere, a pipe is not opened.
#[test]
fn nothing_outside_is_reached() {
    let (outside, dir) = (folder("outside"), folder("inside"));
    put(&outside, "secret", TIME, "secret");
    put(&dir, "own", TIME, "own");
    let root = dir.parent().unwrap();
    for (link, to) in [
        ("file", outside.join("secret")),
        ("out", outside.clone()),
        ("up", "..".into()),
        ("loop", "loop".into()),
        ("in", "own".into()),
    ] {
        symlink(to, dir.join(link)).unwrap();
    }
    assert!(Command::new("mkfifo").arg(dir.join("pipe")).status().unwrap().success());
    for path in
        ["/file", "/out/secret", "/up/outside/secret", "/in", "/loop", "/../outside/secret", "..", "/pipe", "/own/x"]
    {
        let said = pulled(&mut Panel::read_only(&dir).unwrap(), path);
        assert!(said.starts_with(b"FAIL") && !said.ends_with(b"secret"), "{path}: {}", said.escape_ascii());
    }
    for (path, expected) in
        [("/../outside/secret", 2), ("/..", 2), ("/up/outside/secret", 20), ("/out/secret", 20), ("/none", 2)]
    {
        let (status, _, error) = from(&dir, &["stat", path]);
        assert!(status == 16 && error.contains(&format!("errno {expected}:")), "{path}: {error}");
    }
    for path in ["/file", "/pipe"] {
        let (status, bytes, error) = from(&dir, &["pull", path, "-"]);
        assert!(status == 65 && bytes.is_empty() && error.contains("it is no regular file"), "{path}: {error}");
    }
    let (_, said, _) = from(&dir, &["ls", "/"]);
    assert_eq!(
        said.lines().filter(|line| line.starts_with("120777 ")).count(),
        5,
        "links by their own numbers: {said}"
    );
    assert_eq!(from(&dir, &["ls", "/out"]).0, 67);
    assert!(names(root).contains(&"inside".to_string()));
}

/// Below DIR an archive's folder that became a link is not followed either.
#[test]
fn a_linked_folder_in_an_archive() {
    let (served, dir) = made("linked archive");
    fs::rename(dir.join("sub"), served.join("elsewhere")).unwrap();
    symlink(served.join("elsewhere"), dir.join("sub")).unwrap();
    let (status, _, error) = from(&dir, &["stat", "/sub/c"]);
    assert!(status == 16 && error.contains("errno 5"), "{error}");
    let said = pulled(&mut Panel::read_only(&dir).unwrap(), "/sub/c");
    let why = "open failed: the archive no longer has what the panel said: sub is there and no folder";
    assert_eq!(said, with(b"FAIL", why.as_bytes()));
}
