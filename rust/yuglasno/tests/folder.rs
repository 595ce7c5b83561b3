//! `transfer --folder`: an archive in the place of the panel that it came from. The panel's own lines, jobs and numbers once it is gone; what is
//! not shown, and what is not passed off as the panel's; that no byte of DIR changes.
mod common;
use common::archives::{archive, edit, made, places, put, text, TIME, V2};
use common::letters::{file_of, small};
use common::program::{folder, names, told, PANEL};
use std::fs::{self, Permissions};
use std::os::unix::fs::{symlink, MetadataExt, PermissionsExt};
use std::path::Path;

/// What is told of a DIR in the panel's place.
fn from(dir: &Path, words: &[&str]) -> (i32, String, String) {
    told(&[&["--folder", text(dir)], words].concat())
}

/// The lines without those of folders, of which an archive has no numbers.
fn jobs(said: &str) -> Vec<&str> {
    said.lines().filter(|line| !line.trim_start().starts_with("40")).collect()
}

/// All that there is below a folder: names, kinds, modes, times and bytes.
fn all_of(dir: &Path) -> Vec<(String, u32, i64, i64, Vec<u8>)> {
    let mut found = Vec::new();
    for name in names(dir) {
        let path = dir.join(&name);
        let about = fs::symlink_metadata(&path).unwrap();
        let bytes = if about.is_file() { fs::read(&path).unwrap() } else { Vec::new() };
        if about.is_dir() {
            found.extend(all_of(&path));
        }
        found.push((path.display().to_string(), about.mode(), about.mtime(), about.mtime_nsec(), bytes));
    }
    found
}

/// A panel's folder with jobs of several modes and times, and its archive.
fn archived(name: &str) -> (std::path::PathBuf, std::path::PathBuf) {
    let (served, dir) = places(name);
    fs::create_dir_all(served.join("sub/deep")).unwrap();
    let sizes =
        [("a.job", 0), ("b job", 65_536), ("sub/c.job", 200_000), ("sub/deep/глянец", 7), ("-", 3), ("z\\\n", 1)];
    for ((name, size), time) in sizes.into_iter().zip(TIME..) {
        put(&served, name, time, (0..size).map(|i| (i * 7 % 251) as u8).collect::<Vec<_>>());
    }
    fs::set_permissions(served.join("b job"), Permissions::from_mode(0o4755)).unwrap();
    fs::set_permissions(served.join("a.job"), Permissions::from_mode(0o640)).unwrap();
    assert_eq!(archive(&served, &dir, &["--recursive"]).0, 0);
    (served, dir)
}

#[test]
fn the_lines_that_the_panel_gave() {
    let (served, dir) = archived("lines");
    let commands = [
        &["ls", "/"][..],
        &["ls", "/sub"],
        &["ls", "sub//deep/."],
        &["ls", "--from", "1000000001", "--to", "1000000005", "/"],
        &["ls", "--latest", "1000000005", "/"],
    ];
    let panel = ["--exec", PANEL, "--folder", text(&served), "--", "--features"];
    let ask = |features| commands.map(|words| told(&[&panel[..], &[features], words].concat()));
    let (v1, v2) = (ask(""), ask(V2));
    assert!(v2[0].1.contains("104755      65536 1000000001 b job\n"), "{}", v2[0].1);
    fs::remove_dir_all(&served).unwrap();
    let before = all_of(&dir);
    for (i, words) in commands.into_iter().enumerate() {
        for (features, panels) in [(&["--features", ""][..], &v1[i]), (&[], &v2[i]), (&["--cut", "5"], &v2[i])] {
            let (status, said, error) = from(&dir, &[features, words].concat());
            assert_eq!((status, error.as_str(), jobs(&said)), (0, "", jobs(&panels.1)), "{words:?}");
            assert!(!jobs(&said).is_empty(), "{words:?}");
        }
    }
    assert_eq!(all_of(&dir), before);
}

#[test]
fn the_numbers_and_bytes_of_each_job() {
    let (served, dir) = archived("numbers");
    let out = folder("numbers out");
    for (i, name) in ["a.job", "b job", "sub/c.job", "sub/deep/глянец", "-", "z\\\n"].into_iter().enumerate() {
        let panel = ["--exec", PANEL, "--folder", text(&served), "--", "--features", V2];
        let (_, said, _) = told(&[&panel[..], &["stat", name]].concat());
        let (status, again, error) = from(&dir, &["stat", name]);
        assert_eq!((status, error.as_str()), (0, ""), "{name}");
        assert_eq!(again.lines().take(3).collect::<Vec<_>>(), said.lines().take(3).collect::<Vec<_>>(), "{name}");
        assert!(again.lines().skip(3).all(|line| line.ends_with(" 0")), "what no list has: {again}");
        for features in [V2, ""] {
            let file = out.join(format!("{i}{features}"));
            assert_eq!(from(&dir, &["--features", features, "pull", name, text(&file)]).0, 0, "{name}");
            assert!(fs::read(&file).unwrap() == fs::read(served.join(name)).unwrap(), "{name}");
            assert_eq!(fs::metadata(&file).unwrap().mtime(), TIME as i64 + i as i64, "{name}");
        }
    }
}

#[test]
fn an_archive_of_an_archive() {
    let (served, dir) = archived("again");
    fs::remove_dir_all(&served).unwrap();
    let (copy, before) = (served, all_of(&dir));
    let (status, said, error) = from(&dir, &["archive", "/", text(&copy), "--recursive"]);
    assert_eq!((status, error.as_str()), (0, ""), "{said}");
    for list in ["SHA256SUMS", "DETAILS"] {
        assert_eq!(fs::read(copy.join(list)).unwrap(), fs::read(dir.join(list)).unwrap());
    }
    assert_eq!(told(&["verify", text(&copy)]).0, 0);
    let (status, said, _) = from(&dir, &["archive", "/", text(&copy), "--recursive"]);
    assert_eq!((status, said), (0, format!("{}: 0 pulled, 6 there already, 0 left out\n", copy.display())));
    for into in [dir.clone(), dir.join("sub"), dir.join("new/deep"), copy.join("../dir/new")] {
        let (status, _, error) = from(&dir, &["archive", "/", text(&into)]);
        assert!(status == 73 && error.contains("it lies in the DIR of --folder, which is only read"), "{error}");
    }
    assert_eq!(all_of(&dir), before);
}

/// What the lists don't have is none of what the panel said: files of the user's, the lists themselves, an interrupted run's.
#[test]
fn what_is_not_shown() {
    let (_, dir) = made("not shown");
    put(&dir, "mine", TIME, "mine");
    fs::create_dir_all(dir.join(".transfer-unfinished")).unwrap();
    put(&dir.join(".transfer-unfinished"), "1", TIME, "draft");
    fs::create_dir(dir.join("empty")).unwrap();
    edit(&dir.join("SHA256SUMS"), "  b", "");
    fs::write(dir.join("DETAILS"), [&fs::read(dir.join("DETAILS")).unwrap()[..], b"5 5 1006"].concat()).unwrap();
    let before = all_of(&dir);
    let (status, said, error) = from(&dir, &["ls", "/"]);
    assert_eq!((status, error.as_str()), (0, ""));
    let listed: Vec<_> = said.lines().map(|line| line.rsplit(' ').next().unwrap()).collect();
    assert_eq!(listed, [".", "..", "a", "sub"]);
    for path in
        ["SHA256SUMS", "DETAILS", ".transfer-unfinished", ".transfer-unfinished/1", "mine", "b", "empty", "/../dir/a"]
    {
        let (status, _, error) = from(&dir, &["stat", path]);
        assert!(status == 16 && error.contains("errno 2: no such file or folder"), "{path}: {error}");
        let (status, bytes, error) = from(&dir, &["--features", "", "pull", path, "-"]);
        assert!(status == 67 && bytes.is_empty(), "{path}: {error}");
    }
    let (status, _, error) = from(&dir, &["stat", "/a/b"]);
    assert!(status == 16 && error.contains("errno 20: not a folder"), "{error}");
    assert_eq!(all_of(&dir), before);
}

/// A job whose file can no longer be what the panel said: an errno of its own, left out of a v1 listing, and never pulled.
#[test]
fn a_job_that_is_not_whole_any_more() {
    let (served, dir) = made("damaged");
    let file = dir.join("a");
    let damages: [(&str, &dyn Fn()); 5] = [
        ("longer", &|| fs::write(&file, "the job a, and more").unwrap()),
        ("shorter", &|| fs::write(&file, "the job").unwrap()),
        ("gone", &|| fs::remove_file(&file).unwrap()),
        ("a link to the same bytes", &|| symlink(served.join("a"), &file).unwrap()),
        ("a folder", &|| {
            fs::remove_file(&file).unwrap();
            fs::create_dir(&file).unwrap();
        }),
    ];
    for (what, damage) in damages {
        damage();
        let (status, _, error) = from(&dir, &["stat", "/a"]);
        assert!(status == 16 && error.contains("errno 5: input or output error"), "{what}: {error}");
        assert!(error.contains("`transfer verify DIR` says more (/a)"), "{what}: {error}");
        let (status, said, _) = from(&dir, &["ls", "/"]);
        assert!(status == 0 && said.contains("     0          0          0 a (errno 5)\n"), "{what}: {said}");
        let (status, said, _) = from(&dir, &["--features", "", "ls", "/"]);
        assert!(status == 0 && !said.contains(" a\n") && said.contains(" b\n"), "{what}: {said}");
        assert_eq!(from(&dir, &["pull", "/a", "-"]).0, 16, "{what}");
        let (status, _, error) = from(&dir, &["archive", "/", text(&folder("damaged copy"))]);
        assert!(status == 79 && error.contains("left out: a: the panel can't look at it (errno 5)"), "{what}: {error}");
    }
}

/// Bytes that were altered in their place are noticed at their end, where a FAIL stands for DONE.
#[test]
fn a_job_with_another_sum() {
    let (_, dir) = archived("sum");
    let mut bytes = fs::read(dir.join("sub/c.job")).unwrap();
    bytes[150_000] ^= 1;
    put(&dir, "sub/c.job", TIME + 2, &bytes);
    let out = folder("sum out");
    for features in [V2, ""] {
        let (status, _, error) = from(&dir, &["--features", features, "pull", "/sub/c.job", text(&out)]);
        assert_eq!(status, 14, "{error}");
        assert!(
            error.contains("the archive no longer has what the panel said: its sum is another (/sub/c.job to "),
            "{error}"
        );
        assert!(names(&out).is_empty(), "nothing is left of it");
    }
    let (status, said, error) = from(&dir, &["archive", "/", text(&out), "--recursive"]);
    assert!(status == 79 && error.contains("left out: sub/c.job: 14: the panel failed: read failed: "), "{error}");
    assert_eq!(said, format!("{}: 5 pulled, 0 there already, 1 left out\n", out.display()));
}

#[test]
fn a_push_changes_nothing() {
    let (_, dir) = made("read only");
    let plain = folder("read only plain");
    put(&plain, "a", TIME, "plain");
    let source = text(&dir.join("b")).to_string();
    for dir in [&dir, &plain] {
        let before = all_of(dir);
        for (features, path) in [(V2, "/a"), ("", "/a"), (V2, "/new"), ("", "/x/y"), (V2, "/../out"), (V2, "/")] {
            let (status, said, error) = from(dir, &["--features", features, "push", &source, path]);
            assert_eq!((status, said.as_str()), (14, ""), "{path}");
            assert!(error.contains("couldn't create file: Read-only file system"), "{path}: {error}");
        }
        for file in [dir.join("a"), dir.join("new"), dir.clone()] {
            let (status, _, error) = from(dir, &["pull", "/a", text(&file)]);
            assert!(status == 73 && error.contains("it lies in the DIR of --folder, which is only read"), "{error}");
        }
        assert_eq!(&all_of(dir), &before);
    }
    assert_eq!(names(dir.parent().unwrap()), ["dir", "panel"]);
}

#[test]
fn a_folder_that_is_not_there() {
    let root = folder("nowhere");
    put(&root, "file", TIME, "file");
    for (dir, why) in [("none", "No such file or directory"), ("file", "not a directory")] {
        for words in [
            &["ls", "/"][..],
            &["pull", "/a", "/nonexistent/x"],
            &["--ids", "none.ids", "stat", "/a"],
            &["verify", "none"],
        ] {
            let (status, said, error) = from(&root.join(dir), words);
            assert_eq!((status, said.as_str()), (69, ""), "{words:?}: {error}");
            assert!(
                error.starts_with(&format!("transfer: 69: {}: ", root.join(dir).display())) && error.contains(why),
                "{error}"
            );
        }
    }
    assert_eq!(names(&root), ["file"]);
    for words in
        [&["--folder"][..], &["--folder", ".", "--panel", "ls", "/"], &["--folder", ".", "--timeout", "5", "ls", "/"]]
    {
        assert_eq!(told(words).0, 64, "{words:?}");
    }
}

/// Lists that are not as an archive has them: nothing is served, not even by the files' own numbers.
#[test]
fn lists_that_can_not_be_read() {
    let (_, dir) = made("bad lists");
    let lists = ["SHA256SUMS", "DETAILS"].map(|list| (dir.join(list), fs::read(dir.join(list)).unwrap()));
    let refused = |file: &str, why: &str| {
        let (status, said, error) = from(&dir, &["ls", "/"]);
        let expected = format!("transfer: 66: {}: {why}\n", dir.join(file).display());
        assert_eq!((status, said.as_str(), error), (66, "", expected));
        lists.iter().for_each(|(path, bytes)| fs::write(path, bytes).unwrap());
    };
    edit(&dir.join("DETAILS"), "  a", "5 5  a\n");
    refused("DETAILS", "line 2 is none of an archive's");
    edit(&dir.join("DETAILS"), "# size", "# sizes\n");
    refused("DETAILS", "line 1 is none of an archive's");
    edit(&dir.join("SHA256SUMS"), "  b", "b\n");
    refused("SHA256SUMS", "line 2 is none of an archive's");
    fs::remove_file(dir.join("SHA256SUMS")).unwrap();
    refused("SHA256SUMS", "it is not there, and DETAILS is");
    fs::remove_file(dir.join("DETAILS")).unwrap();
    fs::create_dir(dir.join("DETAILS")).unwrap();
    let (status, _, error) = from(&dir, &["ls", "/"]);
    assert!(status == 66 && error.contains("it is no regular file"), "{error}");
}

#[test]
fn under_ids_of_its_own() {
    let (_, dir) = made("ids of an archive");
    let file = dir.parent().unwrap().join("small.ids");
    fs::write(&file, file_of(&small())).unwrap();
    let plain = from(&dir, &["ls", "/"]);
    assert_eq!((plain.0, from(&dir, &["ls", "/", "--ids", text(&file)])), (0, plain.clone()));
    let panel = ["--exec", PANEL, "--folder", text(&dir), "--read-only", "--ids", text(&file), "--"];
    let ask = [&panel[..], &["--features", V2, "--ids", text(&file), "ls", "/"]].concat();
    assert_eq!(told(&ask), plain);
}
