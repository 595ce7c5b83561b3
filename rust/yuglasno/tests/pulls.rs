//! Pulls of `transfer`: FILE gets its name only where its bytes are what the panel's numbers say, and nothing else of the
//! user's is touched.
mod common;
use common::fake::{answer, data, numbers, panel, request, Numbers};
use common::program::{ended, folder, names, told, transfer, TRANSFER};
use common::words;
use std::fs::{self, Permissions};
use std::io::Write;
use std::net::Shutdown;
use std::os::unix::fs::{symlink, MetadataExt, PermissionsExt};
use std::os::unix::net::UnixListener;
use std::os::unix::process::ExitStatusExt;
use std::path::{Path, PathBuf};
use std::process::{Child, Command};
use std::sync::mpsc;
use std::thread;
use std::time::{Duration, Instant};
use yuglasno::panel::Panel;

const V2: &str = "stat_v2,ls_v2,sendrecv_v2";
const OLDER: &[u8] = b"the job of last week";
const JOB: &[u8] = b"SPH -2.25";

/// A folder with a socket's place beside it, not in it.
fn places(name: &str) -> (PathBuf, PathBuf) {
    let root = folder(name);
    fs::create_dir(root.join("out")).unwrap();
    (root.join("out"), root.join("socket"))
}

fn text(path: &Path) -> &str {
    path.to_str().unwrap()
}

/// A pull of /job from a socket to FILE.
fn pull(socket: &Path, features: &str, file: &Path) -> Command {
    transfer(&["--unix", text(socket), "--features", features, "pull", "/job", text(file)])
}

#[test]
fn two_pulls_at_once_each_end_whole() {
    let (out, socket) = places("two");
    let file = out.join("out.job");
    let (first, second) = (vec![b'1'; 300_000], vec![b'2'; 100_000]);
    let listener = UnixListener::bind(&socket).unwrap();
    let (half, came) = mpsc::channel();
    let (go, second_is_named) = mpsc::channel::<()>();
    let (one, two) = (first.clone(), second.clone());
    let served = thread::spawn(move || {
        let mut slow = listener.accept().unwrap().0;
        let stat = numbers(one.len()).v2();
        while request(&mut slow).unwrap().0 == "STA2" {
            slow.write_all(&stat).unwrap();
        }
        let bytes = data(&one);
        slow.write_all(&bytes[..200_000]).unwrap();
        half.send(()).unwrap();
        answer(&mut listener.accept().unwrap().0, vec![numbers(two.len()).v2(); 2], &data(&two));
        second_is_named.recv().unwrap();
        slow.write_all(&bytes[200_000..]).unwrap();
        answer(&mut slow, vec![stat], b"");
    });
    let slow = pull(&socket, V2, &file).spawn().unwrap();
    came.recv().unwrap();
    assert_eq!(ended(pull(&socket, V2, &file).output().unwrap()).0, 0);
    assert!(fs::read(&file).unwrap() == second);
    go.send(()).unwrap();
    assert_eq!(ended(slow.wait_with_output().unwrap()).0, 0);
    assert!(fs::read(&file).unwrap() == first, "the last one has the name");
    assert_eq!(names(&out), ["out.job"]);
    served.join().unwrap();
}

#[test]
fn a_part_of_the_users_stays() {
    let (out, _) = places("part");
    let name = |end: &str| out.join(format!("out.job{end}"));
    fs::write(name(".part"), OLDER).unwrap();
    fs::write(name(".precious"), OLDER).unwrap();
    assert_eq!(told(&["--panel", "pull", "/jobs/empty.job", text(&name(""))]).0, 0);
    assert_eq!(fs::read(name(".part")).unwrap(), OLDER);
    fs::remove_file(name(".part")).unwrap();
    symlink(name(".precious"), name(".part")).unwrap();
    for (path, status) in [("/jobs/sphere.job", 0), ("/jobs", 14)] {
        assert_eq!(told(&["--panel", "pull", path, text(&name(""))]).0, status);
        assert_eq!(fs::read(name(".precious")).unwrap(), OLDER);
        assert_eq!(names(&out), ["out.job", "out.job.part", "out.job.precious"]);
    }
}

/// What a panel says before, sends, and says after: refused with 65, and FILE is as it was.
fn refused(place: &str, features: &str, stats: [Vec<u8>; 2], file: &[u8], why: &str) {
    let (out, socket) = places(place);
    let heard = panel(&socket, stats.to_vec(), data(file));
    let file = out.join("out.job");
    fs::write(&file, OLDER).unwrap();
    let (status, said, error) = ended(pull(&socket, features, &file).output().unwrap());
    assert_eq!((status, said.as_str()), (65, ""), "{error}");
    assert!(error.starts_with("transfer: 65: /job: ") && error.contains(why), "{why}: {error}");
    assert_eq!((fs::read(&file).unwrap(), names(&out)), (OLDER.to_vec(), vec!["out.job".to_string()]));
    heard.join().unwrap();
}

#[test]
fn a_job_that_changes_while_it_is_pulled() {
    let was = numbers(JOB.len());
    for (i, (is, why)) in [
        (Numbers { mtime: was.mtime + 1, ..was }, "mtime was 892000000 before the pull and is 892000001"),
        (Numbers { ino: 8, ..was }, "its ino was 7 "),
        (Numbers { ctime: -1, ..was }, "its ctime was 900000000 "),
        (Numbers { size: 5, ..was }, "its size was 9 "),
        (Numbers { mode: 0o120_777, ..was }, "its kind was 100000 before the pull and is 120000 "),
    ]
    .into_iter()
    .enumerate()
    {
        refused(&format!("changed {i}"), V2, [was.v2(), is.v2()], JOB, why);
    }
    for (i, is) in [Numbers { mtime: 0, ..was }, Numbers { size: 5, ..was }].into_iter().enumerate() {
        refused(&format!("changed in v1 {i}"), "", [was.v1(), is.v1()], JOB, "it changed meanwhile");
    }
}

#[test]
fn a_job_that_ends_early_or_late() {
    let file = vec![b'x'; 1 << 22];
    let stat = numbers(file.len());
    let early = "1048576 bytes came, and the panel says that it has 4194304";
    refused("early", V2, [stat.v2(), stat.v2()], &file[..1 << 20], early);
    refused("early in v1", "", [stat.v1(), stat.v1()], &file[..1 << 20], early);
    let stat = numbers(8);
    refused("late", V2, [stat.v2(), stat.v2()], JOB, "9 bytes came, and the panel says that it has 8");
    refused("late in v1", "", [stat.v1(), stat.v1()], JOB, "9 bytes came");
    let folder = Numbers { mode: 0o040_755, ..numbers(JOB.len()) };
    refused("bytes of a folder", V2, [folder.v2(), folder.v2()], JOB, "it is a folder");
    let bits = Numbers { size: (1 << 32) + 9, ..stat };
    refused("the high bits", V2, [bits.v2(), bits.v2()], JOB, "that it has 4294967305");
}

#[test]
fn a_job_that_is_cut_off() {
    let stat = numbers(100_000).v2();
    let whole = data(&[0; 100_000]);
    let fail = [&data(&[0; 10])[..18], b"FAIL\x02\0\0\0no"].concat();
    for (i, (bytes, status, far)) in [
        (&whole[..70_000], 12, "after 65536 of 100000 bytes"),
        (&whole[..], 12, "the look at its numbers after the pull"),
        (&fail, 14, "after 10 of 100000 bytes"),
        (b"OKAY\0\0\0\0", 15, "after 0 of 100000 bytes"),
    ]
    .into_iter()
    .enumerate()
    {
        let (out, socket) = places(&format!("cut {i}"));
        let file = out.join("out.job");
        fs::write(&file, OLDER).unwrap();
        let listener = UnixListener::bind(&socket).unwrap();
        let child = pull(&socket, V2, &file).spawn().unwrap();
        let mut stream = listener.accept().unwrap().0;
        while request(&mut stream).unwrap().0 == "STA2" {
            stream.write_all(&stat).unwrap();
        }
        stream.write_all(bytes).unwrap();
        stream.shutdown(Shutdown::Write).unwrap();
        let (found, _, error) = ended(child.wait_with_output().unwrap());
        assert_eq!(found, status, "{i}: {error}");
        assert!(error.contains("/job") && error.contains(far), "{i}: {error}");
        assert_eq!((fs::read(&file).unwrap(), names(&out)), (OLDER.to_vec(), vec!["out.job".to_string()]));
    }
}

/// A pull of JOB that goes through; what it said on standard error.
fn pulled(place: &str, features: &str, stat: Vec<u8>, file: &str) -> (PathBuf, String) {
    let (out, socket) = places(place);
    let heard = panel(&socket, vec![stat; 2], data(JOB));
    let file = out.join(file);
    let (status, _, error) = ended(pull(&socket, features, &file).output().unwrap());
    assert_eq!(status, 0, "{error}");
    assert_eq!(fs::read(&file).unwrap(), JOB);
    heard.join().unwrap();
    (file, error)
}

#[test]
fn the_panels_time() {
    for time in [0, -5, 892_000_000, 1 << 33] {
        let stat = Numbers { mtime: time, ..numbers(JOB.len()) };
        let (file, error) = pulled("time", V2, stat.v2(), "out.job");
        assert_eq!((fs::metadata(file).unwrap().mtime(), error.as_str()), (time, ""));
    }
    let stat = Numbers { mtime: (1 << 32) - 1, ..numbers(JOB.len()) };
    let (file, _) = pulled("time in v1", "", stat.v1(), "out.job");
    assert_eq!(fs::metadata(file).unwrap().mtime(), (1 << 32) - 1);
    let stat = Numbers { mtime: i64::MAX, ..stat };
    let (_, error) = pulled("no such time", V2, stat.v2(), "out.job");
    let kept = error.is_empty() || error.contains("the file system can't keep 9223372036854775807");
    assert!(kept, "{error}");
}

#[test]
fn v1_numbers() {
    let stat = Numbers { size: (5 << 32) + JOB.len() as u64, ..numbers(0) };
    pulled("the low bits", "", stat.v1(), "out.job");
    let link = Numbers { mode: 0o120_777, size: 1, mtime: 5, ..stat };
    let (file, error) = pulled("link", "", link.v1(), "out.job");
    let uncompared =
        "/job: a symbolic link, of which v1 has only the link's own numbers: the bytes that came were not compared";
    assert!(error.contains(uncompared), "{error}");
    assert_ne!(fs::metadata(file).unwrap().mtime(), 5);
    let (_, socket) = places("link to output");
    let heard = panel(&socket, vec![link.v1(); 2], data(JOB));
    let (status, said, error) = ended(pull(&socket, "", Path::new("-")).output().unwrap());
    assert_eq!((status, said.as_bytes()), (0, JOB));
    assert!(error.contains(uncompared), "{error}");
    heard.join().unwrap();
    let (out, socket) = places("zeros");
    let heard = panel(&socket, vec![words(b"STAT", &[0, 0, 0])], data(JOB));
    let (status, _, error) = ended(pull(&socket, "", &out.join("out.job")).output().unwrap());
    assert_eq!(status, 67, "{error}");
    assert_eq!(heard.join().unwrap(), ["STAT /job", "QUIT "], "nothing is pulled");
    assert!(names(&out).is_empty());
}

#[test]
fn devices_and_pipes_are_not_pulled() {
    for mode in [0o010_644, 0o020_666, 0o060_660, 0o140_777] {
        let (out, socket) = places("device");
        let heard = panel(&socket, vec![Numbers { mode, ..numbers(0) }.v2()], data(JOB));
        let (status, _, error) = ended(pull(&socket, V2, &out.join("out.job")).output().unwrap());
        assert!(status == 65 && error.contains("/job: it is no regular file (mode "), "{status}: {error}");
        assert_eq!(heard.join().unwrap(), ["STA2 /job", "QUIT "]);
        assert!(names(&out).is_empty());
    }
}

/// A name of the panel's is no text for a terminal, neither as PATH nor as FILE.
#[test]
fn names_that_a_terminal_should_not_get() {
    let (out, socket) = places("escapes");
    for (status, size) in [(0, JOB.len()), (65, 5)] {
        let heard = panel(&socket, vec![numbers(size).v2(); 2], data(JOB));
        let words = ["--unix", text(&socket), "--features", V2, "pull", "/f/\x1B[31m\n", text(&out)];
        let (found, said, error) = told(&words);
        assert_eq!((found, said.contains('\x1B') || error.contains('\x1B')), (status, false), "{said}{error}");
        assert!([said, error].concat().contains("out/\\u{1b}[31m\\n"));
        heard.join().unwrap();
        fs::remove_file(&socket).unwrap();
    }
    assert_eq!(names(&out), ["\x1B[31m\n"]);
}

#[test]
fn names_of_255_bytes() {
    let name = "n".repeat(255);
    let (file, _) = pulled("long", V2, numbers(JOB.len()).v2(), &name);
    assert_eq!(names(file.parent().unwrap()), [name]);
}

#[test]
fn permission_bits() {
    let (out, _) = places("bits");
    let file = out.join("out.job");
    for bits in [0o640, 0o400, 0o777] {
        fs::write(&file, OLDER).unwrap();
        fs::set_permissions(&file, Permissions::from_mode(bits)).unwrap();
        assert_eq!(told(&["--panel", "pull", "/jobs/sphere.job", text(&file)]).0, 0);
        assert_eq!(fs::metadata(&file).unwrap().permissions().mode() & 0o7777, bits);
        fs::remove_file(&file).unwrap();
    }
    let plain = out.join("plain");
    fs::write(&plain, OLDER).unwrap();
    assert_eq!(told(&["--panel", "pull", "/jobs/sphere.job", text(&file)]).0, 0);
    let bits = |file: &Path| fs::metadata(file).unwrap().permissions().mode();
    assert_eq!(bits(&file), bits(&plain), "a new FILE has those of any new file");
}

/// What FILE may not be, found out before the panel is asked: there is none.
#[test]
fn what_a_file_may_not_be() {
    let (out, socket) = places("kinds");
    symlink(out.join("nowhere"), out.join("dangling")).unwrap();
    symlink("loop", out.join("loop")).unwrap();
    assert!(Command::new("mkfifo").arg(out.join("pipe")).status().unwrap().success());
    fs::create_dir_all(out.join("full/job")).unwrap();
    for (file, path, why) in [
        ("dangling", "/job", "a symbolic link"),
        ("loop", "/job", "symbolic link"),
        ("pipe", "/job", "no regular file"),
        ("new/", "/job", "no such folder"),
        ("new/.", "/job", "no such folder"),
        ("full", "/job", "it is a folder"),
        ("full", "/", "no last name"),
        ("full", "/jobs/..", "no last name"),
        ("", "/jobs/.", "no last name"),
    ] {
        let (status, _, error) = told(&["--unix", text(&socket), "pull", path, text(&out.join(file))]);
        assert!(status == 73 && error.contains(why), "{file}: {status}: {error}");
    }
    assert_eq!(told(&["--panel", "pull", "/jobs/sphere.job", "/dev/null"]).0, 73);
    assert_eq!(told(&["--panel", "pull", "/jobs/sphere.job", ""]).0, 73);
    assert_eq!(names(&out), ["dangling", "full", "loop", "pipe"]);
}

#[test]
fn folders_and_links() {
    let (out, _) = places("links");
    let sphere = Panel::with_jobs().file("/jobs/sphere.job").unwrap();
    let pulled = |file: &Path| assert_eq!(told(&["--panel", "pull", "/jobs/sphere.job", text(file)]).0, 0);
    pulled(&out);
    assert!(fs::read(out.join("sphere.job")).unwrap() == sphere);
    fs::create_dir(out.join("elsewhere")).unwrap();
    fs::write(out.join("elsewhere/real.job"), OLDER).unwrap();
    symlink("elsewhere/real.job", out.join("link.job")).unwrap();
    symlink("elsewhere", out.join("folder")).unwrap();
    pulled(&out.join("link.job"));
    pulled(&out.join("folder"));
    assert!(fs::symlink_metadata(out.join("link.job")).unwrap().is_symlink(), "the link stays");
    assert!(fs::read(out.join("elsewhere/real.job")).unwrap() == sphere, "its file is replaced");
    assert_eq!(names(&out.join("elsewhere")), ["real.job", "sphere.job"]);
}

#[test]
fn to_standard_output() {
    let toric = Panel::with_jobs().file("/jobs/1998-toric.job").unwrap();
    let output = transfer(&["--panel", "pull", "/jobs/1998-toric.job", "-"]).output().unwrap();
    assert!(output.status.success() && output.stdout == toric && output.stderr.is_empty());
    let (_, socket) = places("output");
    let heard = panel(&socket, vec![numbers(8).v2(); 2], data(JOB));
    let (status, said, error) = ended(pull(&socket, V2, Path::new("-")).output().unwrap());
    assert_eq!((status, said.as_bytes()), (65, JOB));
    assert!(error.contains("9 bytes came"), "{error}");
    heard.join().unwrap();
    let mut full = transfer(&["--panel", "pull", "/jobs/1998-toric.job", "-"]);
    let status = full.stdout(fs::File::create("/dev/full").unwrap()).status().unwrap();
    assert_eq!(status.code(), Some(74));
}

/// Waits for what a child does; a child that ends instead is a failure.
fn until(child: &mut Child, what: impl Fn() -> bool) {
    let start = Instant::now();
    while !what() {
        assert!(child.try_wait().unwrap().is_none() && start.elapsed() < Duration::from_secs(20));
        thread::sleep(Duration::from_millis(2));
    }
}

#[test]
fn a_signal_leaves_nothing() {
    for (name, number) in [("HUP", 1), ("INT", 2), ("TERM", 15)] {
        let (out, socket) = places(&format!("signal {name}"));
        fs::write(out.join("out.job"), OLDER).unwrap();
        let listener = UnixListener::bind(&socket).unwrap();
        let mut child = pull(&socket, V2, &out.join("out.job")).spawn().unwrap();
        let mut stream = listener.accept().unwrap().0;
        while request(&mut stream).unwrap().0 == "STA2" {
            stream.write_all(&numbers(100_000).v2()).unwrap();
        }
        stream.write_all(&data(&[0; 100_000])[..70_000]).unwrap();
        let size = |name: &String| fs::metadata(out.join(name)).map_or(0, |file| file.len());
        until(&mut child, || names(&out).iter().any(|name| name.starts_with(".transfer-") && size(name) > 0));
        assert!(Command::new("kill").args(["-s", name, &child.id().to_string()]).status().unwrap().success());
        assert_eq!(child.wait().unwrap().signal(), Some(number));
        assert_eq!(
            (fs::read(out.join("out.job")).unwrap(), names(&out)),
            (OLDER.to_vec(), vec!["out.job".to_string()])
        );
    }
}

/// A write past the limit on a file's size is an error like that of a full disk, and not the end of the program.
#[test]
fn a_limit_on_the_size_of_files() {
    let (out, _) = places("limit");
    let limited =
        ["-c", "ulimit -f 20; exec \"$0\" \"$@\"", TRANSFER, "--panel", "pull", "/jobs/1998-toric.job", text(&out)];
    let (status, _, error) = ended(Command::new("sh").args(limited).output().unwrap());
    assert!(status == 74 && error.contains("1998-toric.job: File too large"), "{status}: {error}");
    assert!(error.contains(" of 160019 bytes"), "{error}");
    assert!(names(&out).is_empty());
}
