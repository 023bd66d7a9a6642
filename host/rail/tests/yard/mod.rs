//! Field computers and heads on this machine, with the model in the library's place, and the lines between them.

// Each test file uses a part of this.
#![allow(dead_code)]

use modelled::Modelled;
use rail::arguments::{parse, Command};
use rail::report::Ended;
use rail::stop::Stop;
use rail::view::Screen;
use rail::{demo, lone, Failure};
use std::io::{Read, Write};
use std::net::{SocketAddr, TcpListener, TcpStream, UdpSocket};
use std::path::PathBuf;
use std::sync::atomic::{AtomicBool, Ordering};
use std::sync::Arc;
use std::time::{Duration, Instant};
use std::{env, fs, thread};

/// Runs a command line until its end.
pub fn run(line: &str, stop: &Stop, out: &mut dyn Write) -> Result<Ended, Failure> {
    let words: Vec<String> = line.split_whitespace().map(str::to_string).collect();
    match parse(&words)? {
        Command::Help | Command::Version => panic!("'{}' asks for a text", line),
        Command::Demo(asked) => demo::run::<Modelled>(&asked, stop, out),
        Command::Head(asked) => lone::head::<Modelled>(&asked, stop, out),
        Command::Field(asked) => lone::field::<Modelled>(&asked, stop, &mut Screen::new(out, false)),
    }
}

/// How it ended, and what it said before.
pub fn run_until(line: &str, stop: &Stop) -> Result<(Ended, String), Failure> {
    let mut out = Vec::new();
    let ended = run(line, stop, &mut out);
    ended.map(|ended| (ended, String::from_utf8_lossy(&out).into_owned()))
}

/// A run of its own, and what stops it.
pub type Begun = (Stop, thread::JoinHandle<(Ended, String)>);

pub fn begin(line: String) -> Begun {
    let stop = Stop::default();
    let asked = stop.clone();
    (stop, thread::spawn(move || run_until(&line, &asked).unwrap_or_else(|failure| panic!("{}", failure))))
}

pub fn free_address() -> SocketAddr {
    UdpSocket::bind("127.0.0.1:0").and_then(|socket| socket.local_addr()).expect("there is a free port")
}

/// For a view.
pub fn free_tcp_address() -> SocketAddr {
    TcpListener::bind("127.0.0.1:0").and_then(|listener| listener.local_addr()).expect("there is a free port")
}

/// A folder of this process, empty.
pub fn scratch(name: &str) -> PathBuf {
    let path = env::temp_dir().join(format!("{}-rail-{}", std::process::id(), name));
    let _ = fs::remove_dir_all(&path);
    fs::create_dir_all(&path).expect("there is room for a folder");
    path
}

/// Waits until it is there, and fails with what there is instead.
pub fn wait_for(instead: impl Fn() -> String, mut is_there: impl FnMut() -> bool) {
    let start = Instant::now();
    while !is_there() {
        assert!(start.elapsed() < Duration::from_secs(60), "{}", instead());
        thread::sleep(Duration::from_millis(50));
    }
}

/// What a browser gets.
pub fn page_at(view: SocketAddr) -> String {
    let mut stream = TcpStream::connect(view).expect("the view is served");
    stream.write_all(b"GET / HTTP/1.1\r\nHost: localhost\r\n\r\n").expect("it can be asked");
    let mut page = String::new();
    stream.read_to_string(&mut page).expect("it answers");
    page
}

/// A line between one head and the field computer.
pub struct Cable {
    /// Where the head finds it.
    pub address: SocketAddr,
    is_over: Arc<AtomicBool>,
    carrier: Option<thread::JoinHandle<()>>,
}

impl Cable {
    /// It loses packets as it is told; one that is pulled loses all.
    pub fn to(field: SocketAddr, loses: impl Fn(&[u8]) -> bool + Send + 'static) -> Cable {
        let here = UdpSocket::bind("127.0.0.1:0").expect("there is a free port");
        let there = UdpSocket::bind("127.0.0.1:0").expect("there is a free port");
        let address = here.local_addr().expect("it has an address");
        let is_over = Arc::new(AtomicBool::new(false));
        let over = is_over.clone();
        let carrier = thread::spawn(move || {
            let mut buffer = [0; 2048];
            let mut head = None;
            for socket in [&here, &there] {
                socket.set_nonblocking(true).expect("a socket need not wait");
            }
            while !over.load(Ordering::Relaxed) {
                let mut moved = false;
                while let Ok((length, from)) = here.recv_from(&mut buffer) {
                    (head, moved) = (Some(from), true);
                    if !loses(&buffer[..length]) {
                        let _ = there.send_to(&buffer[..length], field);
                    }
                }
                while let Ok((length, _)) = there.recv_from(&mut buffer) {
                    moved = true;
                    if let Some(head) = head.filter(|_| !loses(&buffer[..length])) {
                        let _ = here.send_to(&buffer[..length], head);
                    }
                }
                if !moved {
                    thread::sleep(Duration::from_micros(300));
                }
            }
        });
        Cable { address, is_over, carrier: Some(carrier) }
    }
}

impl Drop for Cable {
    fn drop(&mut self) {
        self.is_over.store(true, Ordering::Relaxed);
        if let Some(carrier) = self.carrier.take() {
            let _ = carrier.join();
        }
    }
}
