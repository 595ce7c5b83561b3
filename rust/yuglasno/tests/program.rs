//! The program `transfer`: what it says, what it leaves, and its exit status, with panels in it, on pipes and on sockets.
mod common;
use common::program::*;
use std::fs;
use std::io::Read;
use std::os::unix::net::UnixListener;
use std::process::{Command, Stdio};
use std::thread;
use yuglasno::panel::Panel;
use yuglasno::PATH_MOST;

fn toric() -> Vec<u8> {
    Panel::with_jobs().file("/jobs/1998-toric.job").unwrap()
}

#[test]
fn stat_and_ls() {
    let (status, said, _) = told(&["--panel", "--features", "", "stat", "/jobs/1998-toric.job"]);
    assert_eq!((status, said.as_str()), (0, "mode  100660\nsize  160019\nmtime 892000000\n"));
    let (status, said, _) = told(&["--panel", "stat", "/jobs/1998-toric.job"]);
    assert_eq!((status, said.lines().count()), (0, 10));
    for features in ["", "ls_v2"] {
        let (status, said, _) = told(&["--panel", "--features", features, "--cut", "5", "ls", "/jobs"]);
        assert_eq!(status, 0);
        let lines: Vec<&str> = said.lines().collect();
        assert_eq!(lines[..2], [" 40771       4096          0 .", " 40771       4096          0 .."]);
        assert_eq!(lines[2], "100660     160019  892000000 1998-toric.job");
        assert!(said.contains(" odd\\tname\\xff.job\n"), "{said}");
    }
}

#[test]
fn pull_to_a_file() {
    let folder = folder("pull");
    let file = folder.join("out.job");
    let name = file.to_str().unwrap();
    let wheres: [&[&str]; 3] = [
        &["--panel", "--cut", "1000"],
        &["--exec", PANEL, "--cut", "777", "--"],
        &["--exec", PANEL, "--", "--features", "sendrecv_v2"],
    ];
    for place in wheres {
        let (status, said, _) = told(&[place, &["pull", "/jobs/1998-toric.job", name]].concat());
        assert_eq!(status, 0);
        assert_eq!(said, format!("/jobs/1998-toric.job: 160019 bytes pulled to {name}\n"));
        assert!(fs::read(&file).unwrap() == toric());
        assert_eq!(names(&folder), ["out.job"]);
        fs::remove_file(&file).unwrap();
    }
}

#[test]
fn a_failed_pull_leaves_the_file_as_it_was() {
    let folder = folder("failed");
    let file = folder.join("out.job");
    let name = file.to_str().unwrap();
    fs::write(&file, "the job of last week").unwrap();
    for (words, expected) in [
        (&["--panel", "pull", "/jobs/none", name][..], 16),
        (&["--panel", "--features", "", "pull", "/jobs/none", name], 67),
        (&["--panel", "pull", "/jobs", name], 14),
        (&["--panel", "--capacity", "65543", "pull", "/jobs/1998-toric.job", name], 17),
        (&["--exec", "true", "--", "pull", "/jobs/none", name], 12),
        (&["--exec", "cat", "--", "pull", "/jobs/none", name], 65),
    ] {
        let (status, said, error) = told(words);
        assert_eq!((status, said.as_str()), (expected, ""), "{words:?}: {error}");
        assert!(error.starts_with(&format!("transfer: {expected}: ")), "{words:?}: {error}");
        assert_eq!(fs::read(&file).unwrap(), b"the job of last week");
        assert_eq!(names(&folder), ["out.job"], "{words:?}");
    }
}

#[test]
fn push_to_a_folder() {
    let root = folder("push");
    let (source, served) = (root.join("in.job"), root.join("served"));
    fs::create_dir(&served).unwrap();
    fs::write(&source, toric()).unwrap();
    let (source, folder) = (source.to_str().unwrap(), served.to_str().unwrap());
    for (features, mode) in [("", &[][..]), ("sendrecv_v2", &["600"])] {
        let place = ["--exec", PANEL, "--folder", folder, "--cut", "3", "--", "--features", features];
        let (status, said, error) = told(&[&place[..], &["push", source, "/new/a,b.job"], mode].concat());
        assert_eq!((status, error.as_str()), (0, ""));
        assert_eq!(said, format!("{source}: 160019 bytes pushed to /new/a,b.job\n"));
        assert!(fs::read(served.join("new/a,b.job")).unwrap() == toric());
        fs::remove_dir_all(served.join("new")).unwrap();
    }
}

#[test]
fn over_a_unix_socket() {
    let path = folder("unix").join("panel");
    let name = path.to_str().unwrap();
    let mut panel = Command::new(PANEL).args(["--unix", name, "--once", "--cut", "2"]).spawn().unwrap();
    while !path.exists() {
        thread::yield_now();
    }
    let (status, said, _) = told(&["--unix", name, "--features", "stat_v2", "stat", "/jobs/empty.job"]);
    assert_eq!((status, said.lines().nth(1)), (0, Some("size  0")));
    assert!(panel.wait().unwrap().success());
    assert_eq!(told(&["--unix", name, "stat", "/"]).0, 69);
}

#[test]
fn over_standard_input_and_output() {
    let path = folder("stdio").join("panel");
    let listener = UnixListener::bind(&path).unwrap();
    let near = std::os::unix::net::UnixStream::connect(&path).unwrap();
    let (far, _) = listener.accept().unwrap();
    let served = thread::spawn(move || Panel::with_jobs().cut(3).serve(&mut &far, &mut &far));
    let mut child = Command::new(TRANSFER)
        .args(["--stdio", "ls", "/jobs"])
        .stdin(Stdio::from(std::os::fd::OwnedFd::from(near.try_clone().unwrap())))
        .stdout(Stdio::from(std::os::fd::OwnedFd::from(near)))
        .stderr(Stdio::piped())
        .spawn()
        .unwrap();
    let mut said = String::new();
    child.stderr.take().unwrap().read_to_string(&mut said).unwrap();
    assert!(child.wait().unwrap().success());
    assert_eq!(said.lines().count(), 7);
    served.join().unwrap().unwrap();
}

#[test]
fn exit_statuses() {
    let absent = folder("absent").join("none").join("file");
    let absent = absent.to_str().unwrap();
    let long = "p".repeat(PATH_MOST + 1);
    let cases: &[(&[&str], i32)] = &[
        (&["--help"], 0),
        (&[], 64),
        (&["wash"], 64),
        (&["--wash", "ls", "/"], 64),
        (&["ls"], 64),
        (&["ls", "/", "/"], 64),
        (&["--panel", "--stdio", "ls", "/"], 64),
        (&["--unix", "x", "--cut", "3", "ls", "/"], 64),
        (&["--panel", "--serial", "x", "ls", "/"], 64),
        (&["--capacity", "many", "ls", "/"], 64),
        (&["--exec", "--", "ls", "/"], 64),
        (&["--panel", "push", "Cargo.toml", "/a", "689"], 64),
        (&["--panel", "push", absent, "/a"], 66),
        (&["--panel", "push", "/", "/a"], 66),
        (&["--exec", absent, "--", "ls", "/"], 69),
        (&["--server", "127.0.0.1:1", "ls", "/"], 69),
        (&["--panel", "pull", "/jobs/empty.job", absent], 73),
        (&["--panel", "--capacity", "7", "ls", "/"], 1),
        (&["--panel", "stat", &long], 7),
        (&["--exec", "true", "--", "stat", "/"], 12),
        (&["--exec", "true", "--", "push", "Cargo.toml", "/a"], 12),
        (&["--panel", "push", "Cargo.toml", "/jobs"], 14),
        (&["--exec", "cat", "--", "ls", "/"], 15),
        (&["--panel", "stat", "/none"], 16),
        (&["--panel", "--capacity", "71", "stat", "/jobs"], 17),
    ];
    for (words, expected) in cases {
        let (status, _, error) = told(words);
        let shown: Vec<String> = words.iter().map(|word| word.chars().take(40).collect()).collect();
        assert_eq!(status, *expected, "{shown:?}: {error}");
        if (1..18).contains(&status) {
            assert!(error.starts_with(&format!("transfer: {status}: ")), "{shown:?}: {error}");
        }
    }
}
