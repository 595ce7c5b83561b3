//! `transfer` and `yuglasno::adb` by way of an ADB server: the requests that are made, what is said where the server refuses one
//! or says nothing, and adb's environment.
mod common;
use common::archives::{made, text};
use common::fake::{data, numbers, request as sync_request};
use common::program::{ended, folder, transfer, PANEL};
use std::io::{Read, Write};
use std::net::{TcpListener, TcpStream};
use std::os::linux::net::SocketAddrExt;
use std::os::unix::net::{SocketAddr, UnixListener};
use std::thread::{self, JoinHandle};
use std::time::{Duration, Instant};
use yuglasno::adb::{Address, Server};
use yuglasno::panel::Panel;
use yuglasno::{Session, CAPACITY};

/// A server for `hosts` connections: its address, and the requests that it will have heard.
fn server(hosts: usize, refuses: &'static str) -> (String, JoinHandle<Vec<String>>) {
    server_of(hosts, refuses, Panel::with_jobs)
}

/// The same with another panel behind it.
fn server_of(
    hosts: usize,
    refuses: &'static str,
    panel: impl Fn() -> Panel + Send + 'static,
) -> (String, JoinHandle<Vec<String>>) {
    let listener = TcpListener::bind("127.0.0.1:0").unwrap();
    let address = listener.local_addr().unwrap().to_string();
    (address, thread::spawn(move || listened(hosts, || listener.accept().unwrap().0, refuses, &panel)))
}

fn listened<S>(hosts: usize, accept: impl Fn() -> S, refuses: &str, panel: &dyn Fn() -> Panel) -> Vec<String>
where
    for<'a> &'a S: Read + Write,
{
    let mut heard = Vec::new();
    for _ in 0..hosts {
        served(&accept(), refuses, &mut heard, panel);
    }
    heard
}

fn served<S>(stream: &S, refuses: &str, heard: &mut Vec<String>, panel: &dyn Fn() -> Panel)
where
    for<'a> &'a S: Read + Write,
{
    let mut both = stream;
    while let Some(request) = request(&mut both) {
        heard.push(request.clone());
        if request == refuses {
            both.write_all(b"FAIL0010device not ready").unwrap();
            return;
        }
        both.write_all(b"OKAY").unwrap();
        if request.ends_with("features") {
            return both.write_all(b"0015shell_v2,stat_v2,ls_v2").unwrap();
        }
        if request == "sync:" {
            return panel().cut(9).serve(&mut &*stream, &mut &*stream).unwrap();
        }
    }
}

fn request(stream: &mut impl Read) -> Option<String> {
    let mut digits = [0; 4];
    stream.read_exact(&mut digits).ok()?;
    let length = usize::from_str_radix(std::str::from_utf8(&digits).unwrap(), 16).unwrap();
    let mut text = vec![0; length];
    stream.read_exact(&mut text).unwrap();
    Some(String::from_utf8(text).unwrap())
}

fn told(address: &str, words: &[&str]) -> (i32, String, String) {
    ended(transfer(&[&["--server", address], words].concat()).output().unwrap())
}

#[test]
fn the_only_device() {
    let (address, heard) = server(2, "");
    let (status, said, error) = told(&address, &["stat", "/jobs/1998-toric.job"]);
    assert_eq!((status, said.lines().count(), error.as_str()), (0, 10, ""), "stat_v2, as the features say");
    assert_eq!(heard.join().unwrap(), ["host:features", "host:transport-any", "sync:"]);
}

#[test]
fn a_device_by_its_serial() {
    let (address, heard) = server(2, "");
    let (status, said, _) = told(&address, &["--serial", "P98", "ls", "/jobs"]);
    assert_eq!((status, said.lines().count()), (0, 7));
    assert_eq!(heard.join().unwrap(), ["host-serial:P98:features", "host:transport:P98", "sync:"]);
}

/// An archive behind the server: what `transfer --server` is told of it is what `transfer --folder` says.
#[test]
fn an_archive_in_a_devices_place() {
    let (_, dir) = made("behind a server");
    for words in
        [&["ls", "/"][..], &["stat", "/sub/c"], &["pull", "/a", "-"], &["push", PANEL, "/a"], &["stat", "/none"]]
    {
        let behind = dir.clone();
        let (address, heard) = server_of(2, "", move || Panel::read_only(&behind).unwrap());
        let (status, said, error) = told(&address, words);
        let here = ended(transfer(&[&["--folder", text(&dir)], words].concat()).output().unwrap());
        assert_eq!((status, said, error), here, "{words:?}");
        assert_eq!(heard.join().unwrap(), ["host:features", "host:transport-any", "sync:"]);
    }
}

#[test]
fn features_that_are_given_are_not_asked_for() {
    let (address, heard) = server(1, "");
    let (status, said, _) = told(&address, &["--features", "", "stat", "/jobs/1998-toric.job"]);
    assert_eq!((status, said.lines().count()), (0, 3));
    assert_eq!(heard.join().unwrap(), ["host:transport-any", "sync:"]);
}

#[test]
fn a_refusal() {
    for (refuses, hosts) in [("host:features", 1), ("host:transport-any", 2), ("sync:", 2)] {
        let (address, heard) = server(hosts, refuses);
        let (status, _, error) = told(&address, &["ls", "/"]);
        assert_eq!(
            (status, error),
            (69, format!("transfer: 69: ADB server at {address}, {refuses}: device not ready\n"))
        );
        heard.join().unwrap();
    }
}

const FEATURES: &str = "host:features";

/// Where the environment says that the server is, and which device is meant.
#[test]
fn adbs_environment() {
    let root = folder("environment");
    let any = ["host:features", "host:transport-any", "sync:"];
    let p98 = ["host-serial:P98:features", "host:transport:P98", "sync:"];
    let tcp = |form: fn(&str) -> (&'static str, String), more: &[(&str, &str)], expected: [&str; 3]| {
        let (address, heard) = server(2, "");
        let (name, value) = form(address.rsplit(':').next().unwrap());
        let mut command = transfer(&["stat", "/jobs"]);
        let (status, _, error) = ended(command.env(name, value).envs(more.iter().copied()).output().unwrap());
        assert_eq!((status, error.as_str()), (0, ""));
        assert_eq!(heard.join().unwrap(), expected);
    };
    tcp(|port| ("ADB_SERVER_SOCKET", format!("tcp:{port}")), &[], any);
    tcp(|port| ("ADB_SERVER_SOCKET", format!("tcp:127.0.0.1:{port}")), &[("ANDROID_SERIAL", "P98")], p98);
    tcp(|port| ("ADB_SERVER_SOCKET", format!("tcp:{port}")), &[("ANDROID_ADB_SERVER_PORT", "1")], any);
    tcp(|port| ("ANDROID_ADB_SERVER_PORT", port.into()), &[("ANDROID_SERIAL", "")], any);
    tcp(|port| ("ANDROID_ADB_SERVER_PORT", port.into()), &[("ANDROID_ADB_SERVER_ADDRESS", "127.0.0.1")], any);

    let path = root.join("adb");
    let listener = UnixListener::bind(&path).unwrap();
    let name = format!("yuglasno {}", std::process::id());
    let hidden = UnixListener::bind_addr(&SocketAddr::from_abstract_name(&name).unwrap()).unwrap();
    for (socket, listener) in
        [(format!("localfilesystem:{}", path.display()), listener), (format!("localabstract:{name}"), hidden)]
    {
        let heard = thread::spawn(move || listened(2, || listener.accept().unwrap().0, "", &Panel::with_jobs));
        let mut command = transfer(&["stat", "/jobs"]);
        assert_eq!(ended(command.env("ADB_SERVER_SOCKET", socket).output().unwrap()).0, 0);
        assert_eq!(heard.join().unwrap(), any);
    }
}

#[test]
fn words_before_the_environment() {
    let (address, heard) = server(2, "");
    let mut command = transfer(&["stat", "/jobs", "--server", &address, "--serial", "P98"]);
    let nowhere = [("ADB_SERVER_SOCKET", "none"), ("ANDROID_ADB_SERVER_PORT", "none"), ("ANDROID_SERIAL", "other")];
    assert_eq!(ended(command.envs(nowhere).output().unwrap()).0, 0);
    assert_eq!(heard.join().unwrap(), ["host-serial:P98:features", "host:transport:P98", "sync:"]);
    for (name, value, why) in [
        ("ADB_SERVER_SOCKET", "vsock:3:5037", "ADB_SERVER_SOCKET=vsock:3:5037: tcp:PORT, tcp:HOST:PORT, "),
        ("ANDROID_ADB_SERVER_PORT", "70000", "a port from 1 to 65535 is wanted"),
    ] {
        let (status, _, error) = ended(transfer(&["stat", "/jobs"]).env(name, value).output().unwrap());
        assert!(status == 64 && error.contains(why), "{status}: {error}");
    }
}

#[test]
fn no_server() {
    let address = TcpListener::bind("127.0.0.1:0").unwrap().local_addr().unwrap().to_string();
    let (status, _, error) = told(&address, &["ls", "/"]);
    assert!(status == 69 && error.contains("`adb start-server` starts one"), "{status}: {error}");
}

/// A server that answers so many requests of a connection, then nothing, and keeps it open.
fn silent(answers: usize) -> String {
    let listener = TcpListener::bind("127.0.0.1:0").unwrap();
    let address = listener.local_addr().unwrap().to_string();
    thread::spawn(move || {
        let mut kept: Vec<TcpStream> = Vec::new();
        while let Ok((mut stream, _)) = listener.accept() {
            for _ in 0..answers {
                request(&mut stream);
                stream.write_all(b"OKAY").unwrap();
            }
            kept.push(stream);
        }
    });
    address
}

#[test]
fn a_wait_that_has_an_end() {
    let root = folder("wait");
    std::fs::write(root.join("in.job"), vec![0; 1 << 24]).unwrap();
    let source = root.join("in.job").to_str().unwrap().to_string();
    let start = Instant::now();
    for (answers, words) in [
        (0, &["ls", "/"][..]),
        (1, &["--features", "", "ls", "/"]),
        (2, &["--features", "", "stat", "/"]),
        (2, &["--features", "", "push", &source, "/job"]),
    ] {
        let (status, _, error) = told(&silent(answers), &[words, &["--timeout", "0.2"]].concat());
        assert!(status == 13 && error.contains("code 110"), "{words:?}: {status}: {error}");
    }
    let _listener = UnixListener::bind(root.join("socket")).unwrap();
    let words = ["--unix", root.join("socket").to_str().unwrap(), "--timeout", "0.2", "stat", "/"].map(String::from);
    let (status, _, error) = ended(transfer(&words.each_ref().map(String::as_str)).output().unwrap());
    assert!(status == 13 && error.contains("code 110"), "{status}: {error}");
    assert!(start.elapsed() < Duration::from_secs(8));
}

#[test]
fn a_server_that_closes_the_connection() {
    for reply in [&b""[..], b"OK", b"FAIL00", b"FAIL0005abc", b"OKAY", b"OKAY0007stat"] {
        let listener = TcpListener::bind("127.0.0.1:0").unwrap();
        let address = listener.local_addr().unwrap().to_string();
        let served = thread::spawn(move || {
            let mut stream = listener.accept().unwrap().0;
            request(&mut stream).unwrap();
            stream.write_all(reply).unwrap();
        });
        let (status, _, error) = told(&address, &["ls", "/"]);
        let said = format!("{address}, host:features: it closed the connection before its reply was whole");
        assert!(status == 69 && error.contains(&said), "{status}: {error}");
        served.join().unwrap();
    }
}

#[test]
fn a_greeting_is_not_awaited_for_ever() {
    let start = Instant::now();
    let (status, _, error) = told(&silent(0), &["ls", "/"]);
    assert!(status == 13 && error.contains(FEATURES) && error.contains("code 110"), "{status}: {error}");
    assert!(start.elapsed() >= Duration::from_secs(9), "a slow server is waited for");
}

/// A server that writes each message apart, as adb's does: small pulls do not wait for acknowledgements.
#[test]
fn small_pulls_in_one_session_are_quick() {
    const PULLS: usize = 100;
    let listener = TcpListener::bind("127.0.0.1:0").unwrap();
    let address = listener.local_addr().unwrap();
    let served = thread::spawn(move || {
        let mut stream = listener.accept().unwrap().0;
        for _ in 0..2 {
            request(&mut stream).unwrap();
            stream.write_all(b"OKAY").unwrap();
        }
        let (bytes, stat) = (data(b"SPH -2.25"), numbers(9).v2());
        while let Some((id, _)) = sync_request(&mut stream) {
            match id.as_str() {
                "STA2" => stream.write_all(&stat).unwrap(),
                "QUIT" => return,
                _ => bytes.chunks(9).for_each(|piece| stream.write_all(piece).unwrap()),
            }
        }
    });
    let server = Server::at(Address::Tcp("127.0.0.1".into(), address.port())).with_timeout(Duration::from_secs(20));
    let mut link = server.sync().unwrap();
    let mut session = Session::open(b"features=stat_v2", vec![0; CAPACITY], vec![0; CAPACITY]).unwrap();
    let start = Instant::now();
    for _ in 0..PULLS {
        session.details(&mut link, "/job").unwrap();
        assert_eq!(session.pull(&mut link, "/job", &mut Vec::new()).unwrap(), 9);
    }
    assert!(start.elapsed() < Duration::from_secs(2), "{:?}", start.elapsed());
    session.quit(&mut link).unwrap();
    served.join().unwrap();
}
