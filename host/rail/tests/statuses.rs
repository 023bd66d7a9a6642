//! What the program says and how it ends where it cannot go on: one clear sentence, and an exit status. On the proved library, as it is installed.
#![cfg(feature = "proved")]

mod yard;

use std::fs;
use std::net::{TcpListener, UdpSocket};
use std::os::unix::fs::{MetadataExt, PermissionsExt};
use std::os::unix::process::CommandExt;
use std::path::Path;
use std::process::Command;
use yard::scratch;

const RAIL: &str = env!("CARGO_BIN_EXE_rail");
const NOBODY: u32 = 65_534;

/// The exit status, and what was said where faults are said.
fn ended(mut command: Command, line: &str) -> (Option<i32>, String) {
    let run = command.args(line.split_whitespace()).output().expect("the program runs");
    (run.status.code(), String::from_utf8_lossy(&run.stderr).into_owned())
}

fn fails(line: &str, sentence: &str) {
    assert_eq!(ended(Command::new(RAIL), line), (Some(1), format!("rail: {}\n", sentence)), "{}", line);
}

#[test]
fn a_bad_address_is_named() {
    let hint = "\n'rail help' tells what there is.\n";
    for (line, sentence) in [
        ("head nowhere", "'nowhere' is no address (invalid socket address): write HOST:PORT, as in 192.0.2.7:9899"),
        ("head 192.0.2.7:0", "'192.0.2.7:0' is no address (port 0 is none to send to): write HOST:PORT, as in 192.0.2.7:9899"),
        (
            "field 127.0.0.1:0 --view 192.0.2.7:80",
            "--view shows itself to this machine alone: '192.0.2.7:80' is no address of its loopback, as 127.0.0.1:8080 is",
        ),
    ] {
        assert_eq!(ended(Command::new(RAIL), line), (Some(2), format!("rail: {}{}", sentence, hint)), "{}", line);
    }
    fails("field 192.0.2.1:9899", "cannot use 192.0.2.1:9899: it is no address of this machine");
}

#[test]
fn a_book_that_is_none_is_named() {
    let said = "rail: --book takes 9260 or 4960, not '7'\n'rail help' tells what there is.\n";
    assert_eq!(ended(Command::new(RAIL), "demo --book 7"), (Some(2), said.to_string()));
}

#[test]
fn a_port_in_use_is_named() {
    let taken = UdpSocket::bind("127.0.0.1:0").and_then(|socket| socket.local_addr().map(|address| (socket, address)));
    let (_socket, at) = taken.expect("there is a free port");
    fails(&format!("field {}", at), &format!("cannot use {}: the port is in use; stop the program that has it, or choose another port", at));
    let view = TcpListener::bind("127.0.0.1:0").and_then(|listener| listener.local_addr().map(|address| (listener, address)));
    let (_listener, at) = view.expect("there is a free port");
    fails(&format!("field 127.0.0.1:0 --view {}", at), &format!("cannot serve the view at {}: the port is in use", at));
}

#[test]
fn a_full_disk_is_named_before_anything_is_sent() {
    for line in ["demo", "field 127.0.0.1:0", "head 127.0.0.1:9"] {
        fails(&format!("{} --pcap /dev/full", line), "cannot write /dev/full: No space left on device (os error 28)");
    }
}

#[test]
fn a_folder_that_is_not_there_is_named() {
    let here = scratch("statuses-folder");
    let (none, file) = (here.join("none"), here.join("file"));
    fs::write(&file, b"").expect("a file can be written");
    let missing = format!("cannot read the tiles in {}: No such file or directory (os error 2)", none.display());
    fails(&format!("head 127.0.0.1:9 --from {}", none.display()), &missing);
    fails(
        &format!("head 127.0.0.1:9 --from {}", file.display()),
        &format!("cannot read the tiles in {}: Not a directory (os error 20)", file.display()),
    );
    fails(&format!("field 127.0.0.1:0 --to {}", file.display()), &format!("cannot keep tiles in {}: File exists (os error 17)", file.display()));
    fs::remove_dir_all(here).expect("the folder can be removed");
}

/// A command of one who may do nothing here. Root, who may do all, becomes nobody, and takes the program along to where nobody may run it.
fn of_nobody(here: &Path) -> Command {
    let copy = here.join("rail");
    fs::copy(RAIL, &copy).expect("the program can be copied");
    let mut command = Command::new(copy);
    if fs::metadata("/proc/self").expect("this process is there").uid() == 0 {
        command.uid(NOBODY).gid(NOBODY);
    }
    command
}

#[test]
fn what_is_not_permitted_is_named() {
    let here = scratch("statuses-permission");
    let shut = here.join("shut");
    fs::create_dir(&shut).expect("a folder can be made");
    for (path, mode) in [(&here, 0o755), (&shut, 0o000)] {
        fs::set_permissions(path, fs::Permissions::from_mode(mode)).expect("it is ours");
    }
    let denied = "Permission denied (os error 13)";
    for (line, sentence) in [
        (format!("head 127.0.0.1:9 --from {}", shut.display()), format!("cannot read the tiles in {}: {}", shut.display(), denied)),
        (format!("head 127.0.0.1:9 --journal {}/kept", shut.display()), format!("cannot use the journal {}/kept: {}", shut.display(), denied)),
        (format!("field 127.0.0.1:0 --to {}", shut.display()), format!("cannot keep tiles in {}: {}", shut.display(), denied)),
        (format!("field 127.0.0.1:0 --pcap {}/x", shut.display()), format!("cannot write {}/x: {}", shut.display(), denied)),
    ] {
        assert_eq!(ended(of_nobody(&here), &line), (Some(1), format!("rail: {}\n", sentence)), "{}", line);
    }
    // Where the system lets everybody have them, there is nothing to be told.
    let least = fs::read_to_string("/proc/sys/net/ipv4/ip_unprivileged_port_start").ok().and_then(|text| text.trim().parse::<u32>().ok());
    if least.unwrap_or(1024) > 81 {
        let sentence = "rail: cannot use 127.0.0.1:81: ports below 1024 need root; choose another port\n";
        assert_eq!(ended(of_nobody(&here), "field 127.0.0.1:81"), (Some(1), sentence.to_string()));
    }
    fs::set_permissions(&shut, fs::Permissions::from_mode(0o700)).expect("it is ours");
    fs::remove_dir_all(here).expect("the folder can be removed");
}
