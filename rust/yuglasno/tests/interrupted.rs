//! Archives that are cut off at any moment: what DIR says it holds it holds, and a further run goes on.
mod common;
use common::archives::{archive, counts, edit, made, places, put, summed, text, whole, TIME, V2};
use common::program::{told, transfer, PANEL, TRANSFER};
use std::fs;
use std::os::unix::net::UnixListener;
use std::os::unix::process::ExitStatusExt;
use std::path::{Path, PathBuf};
use std::process::Command;
use std::thread;
use std::time::Duration;
use yuglasno::panel::Panel;

const JOBS: u64 = 900;

fn name(i: u64) -> String {
    format!("sub{}/{i:04}.job", i % 3)
}

fn job(served: &Path, i: u64, turn: u64) {
    put(served, name(i), TIME + turn, format!("the job {i} as it was at turn {turn}"));
}

/// How far a run is, by what is in DIR: a number that changes with each draft, each list's lines, or each job's name.
fn mark(dir: &Path, turn: u64) -> u64 {
    let length = |list: &str| fs::metadata(dir.join(list)).map_or(0, |list| list.len());
    let entries = |folder: &str| fs::read_dir(dir.join(folder)).map_or(0, |entries| entries.count() as u64);
    match turn % 4 {
        0 => entries(".transfer-unfinished") / 100,
        1 => length("DETAILS"),
        2 => entries("sub0"),
        _ => length("SHA256SUMS"),
    }
}

/// Kills a run shortly after it has come to another mark. Whether it did not end before.
fn cut_off(served: &Path, dir: &Path, turn: u64) -> bool {
    let panel = ["--exec", PANEL, "--folder", text(served), "--", "--features", V2];
    let before = mark(dir, turn);
    let mut run = transfer(&[&panel[..], &["archive", "/", text(dir), "--recursive"]].concat()).spawn().unwrap();
    while mark(dir, turn) == before && run.try_wait().unwrap().is_none() {
        thread::sleep(Duration::from_micros(100));
    }
    thread::sleep(Duration::from_micros(turn * turn * 290 % 4_000));
    let running = run.try_wait().unwrap().is_none();
    run.kill().unwrap();
    run.wait().unwrap();
    running
}

/// Nothing that is listed is damaged. Says how many files are listed with their sums.
fn held(dir: &Path) -> usize {
    let Ok(sums) = fs::read_to_string(dir.join("SHA256SUMS")) else { return 0 };
    let (status, said, error) = told(&["verify", text(dir)]);
    assert!(status == 0 || status == 81, "{status}: {said}{error}");
    if sums.ends_with('\n') {
        summed(dir);
    }
    sums.lines().count()
}

#[test]
fn killed_at_any_moment() {
    let (served, dir) = places("killed");
    (0..3).for_each(|i| fs::create_dir(served.join(format!("sub{i}"))).unwrap());
    (0..JOBS).for_each(|i| job(&served, i, 0));
    let (mut most, mut killed) = (0, 0);
    for turn in 1..=12 {
        killed += u64::from(cut_off(&served, &dir, turn));
        most = most.max(held(&dir));
        for i in (0..JOBS).filter(|i| (i + turn) % 50 == 0) {
            job(&served, i, turn);
        }
    }
    assert!(most > 0 && killed > 6, "{killed} runs were killed, {most} jobs were listed");
    let (status, said, error) = archive(&served, &dir, &["--recursive"]);
    assert_eq!((status, error.as_str()), (0, ""), "{said}");
    whole(&dir, JOBS as usize);
    for i in 0..JOBS {
        assert_eq!(fs::read(served.join(name(i))).unwrap(), fs::read(dir.join(name(i))).unwrap(), "{i}");
    }
    assert_eq!(archive(&served, &dir, &["--recursive"]).1, counts(&dir, 0, JOBS as usize, 0));
    assert!(!dir.join(".transfer-unfinished").exists());
}

/// The states between a batch's steps, made by hand: a name in DETAILS alone, with no file, the old one or the new one.
#[test]
fn between_two_steps() {
    type State = (&'static str, fn(&Path, &Path));
    let states: [State; 4] = [
        ("announced", |served, dir| {
            put(served, "d", TIME, "a new job");
            edit(&dir.join("DETAILS"), "  a\n", "9 1000000000 100644  a\n9 1000000000 100644  d\n");
        }),
        ("announced and gone", |_, dir| edit(&dir.join("DETAILS"), "  a\n", "9 1000000000 100644  a\n9 5 100644  d\n")),
        ("about to be replaced", |served, dir| {
            put(served, "b", TIME + 5, "the job b, and more");
            edit(&dir.join("SHA256SUMS"), "  b\n", "");
            edit(&dir.join("DETAILS"), "  b\n", "19 1000000005 100644  b\n");
        }),
        ("named", |_, dir| edit(&dir.join("SHA256SUMS"), "  b\n", "")),
    ];
    for (name, made_so) in states {
        let (served, dir) = made(name);
        made_so(&served, &dir);
        held(&dir);
        let (status, said, error) = archive(&served, &dir, &["--recursive"]);
        assert_eq!((status, error.as_str()), (0, ""), "{name}: {said}");
        whole(&dir, if name == "announced" { 4 } else { 3 });
        assert_eq!(fs::read(served.join("b")).unwrap(), fs::read(dir.join("b")).unwrap(), "{name}");
    }
}

/// A panel on a socket that serves a folder to the end of the test.
fn on_a_socket(served: &Path) -> PathBuf {
    let (socket, served) = (served.with_file_name("socket"), served.to_path_buf());
    let listener = UnixListener::bind(&socket).unwrap();
    thread::spawn(move || {
        for stream in listener.incoming().flatten() {
            let _ = Panel::with_folder(&served).serve(&mut &stream, &mut &stream);
        }
    });
    socket
}

/// The system's calls that change something; not every machine has all of them.
const CALLS: [&str; 8] = ["mkdir", "rename", "write", "fsync", "fchmod", "utimensat", "unlink", "rmdir"];

/// Runs the program under strace. Whether it was killed; none where there is no strace, or it may not trace.
fn traced(options: &[&str], socket: &Path, dir: &Path) -> Option<bool> {
    let words = ["--unix", text(socket), "--features", V2, "archive", "/", text(dir), "--recursive"];
    let ran = Command::new("strace").args(["-f", "-q"]).args(options).arg(TRANSFER).args(words).output().ok();
    let killed = ran.and_then(|ran| match (ran.status.signal(), ran.status.success()) {
        (Some(9), _) => Some(true),
        (None, true) => Some(false),
        _ => None,
    });
    if killed.is_none() {
        println!("no strace that works here: the test is left out");
    }
    killed
}

#[test]
fn killed_at_each_call() {
    let (served, dir) = made("each call");
    let socket = on_a_socket(&served);
    let mut turn = 0;
    for call in CALLS {
        for nth in 1.. {
            turn += 1;
            put(&served, "b", TIME + turn, format!("the job b at turn {turn}"));
            put(&served, format!("sub/{turn}"), TIME, "a new job");
            let kill = format!("inject=?{call}:signal=KILL:when={nth}");
            let Some(killed) = traced(&["-o", "/dev/null", "-e", &kill], &socket, &dir) else { return };
            held(&dir);
            let (status, _, error) = archive(&served, &dir, &["--recursive"]);
            assert_eq!((status, error.as_str()), (0, ""), "killed at {call} {nth}");
            whole(&dir, 3 + turn as usize);
            if !killed {
                break;
            }
        }
    }
    assert!(turn > 30, "only {turn} calls");
}

/// The places in a log of calls where one of this name has this text, once they have returned.
fn calls(log: &str, call: &str, text: &str) -> Vec<usize> {
    let lines = log.lines().enumerate();
    lines.filter(|(_, line)| line.contains(&format!("{call}(")) && line.contains(text)).map(|(at, _)| at).collect()
}

/// What a kill does not show: every step is on disk before the next one. `b` is replaced, `sub/d` is new.
#[test]
fn each_step_is_flushed_before_the_next() {
    let (served, dir) = made("flushed");
    put(&served, "b", TIME + 1, "the job b, and more");
    put(&served, "sub/d", TIME, "a new job");
    let (socket, log) = (on_a_socket(&served), dir.with_file_name("log"));
    let options = ["-y", "-o", text(&log), "-e", "trace=?rename,?renameat,?renameat2,write,fsync"];
    if traced(&options, &socket, &dir).is_none() {
        return;
    }
    let log = fs::read_to_string(&log).unwrap();
    let at = |call: &str, name: &str| calls(&log, call, &format!("{}{name}", dir.display()));
    let folder = |name: &str| at("fsync", &format!("{name}>"));
    let last = |places: Vec<usize>| places.into_iter().next_back().unwrap();
    let steps = [
        ("SHA256SUMS without b is flushed", at("fsync", "/.transfer-unfinished/SHA256SUMS>")[0]),
        ("takes its name", at("rename", "/SHA256SUMS\"")[0]),
        ("which is flushed", folder("")[0]),
        ("DETAILS as it will be is flushed", at("fsync", "/.transfer-unfinished/DETAILS>")[0]),
        ("takes its name", at("rename", "/DETAILS\"")[0]),
        ("which is flushed", folder("")[1]),
        ("b has its name", at("rename", "/b\"")[0]),
        ("sub/d has its name", at("rename", "/sub/d\"")[0]),
        ("DIR is flushed", folder("")[2]),
        ("sub is flushed", last(folder("/sub"))),
        ("SHA256SUMS has their lines", at("write", "/SHA256SUMS>")[0]),
        ("and is flushed", last(at("fsync", "/SHA256SUMS>"))),
    ];
    assert!(steps.is_sorted_by(|before, after| before.1 < after.1), "{steps:?}");
    for draft in ["/.transfer-unfinished/1>", "/.transfer-unfinished/2>"] {
        assert!(last(at("fsync", draft)) < steps[6].1 && last(at("write", draft)) < at("fsync", draft)[0], "{log}");
    }
}

/// A system that lets the program have few open files: what was pulled until then is listed, and further runs go on.
#[test]
fn few_open_files() {
    let (served, dir) = places("few");
    for i in 0..60 {
        put(&served, format!("{i:02}.job"), TIME, format!("the job {i}"));
    }
    let run = "ulimit -n 30; exec \"$0\" \"$@\"";
    let words = ["--exec", PANEL, "--folder", text(&served), "--", "--features", V2, "archive", "/", text(&dir)];
    let mut held = 0;
    loop {
        let output = Command::new("sh").args(["-c", run, TRANSFER]).args(words).output().unwrap();
        let lines = fs::read_to_string(dir.join("SHA256SUMS")).unwrap().lines().count();
        whole(&dir, lines);
        if output.status.success() {
            return assert_eq!(lines, 60);
        }
        assert!(lines > held, "{}", String::from_utf8_lossy(&output.stderr));
        assert_eq!(output.status.code(), Some(73), "{}", String::from_utf8_lossy(&output.stderr));
        held = lines;
    }
}
