//! A day on the rail, with processes of their own over real sockets: heads lose their power (kill -9) and come back, lines are pulled, the field computer's
//! program dies too; and every tile stands once in its folder, byte for byte. On the model, since only what runs natively can start itself.
#![cfg(not(feature = "proved"))]

mod yard;

use oilwhisper::random::Seeded;
use rail::stop::Stop;
use std::collections::HashMap;
use std::fs;
use std::io::{self, Write};
use std::path::{Path, PathBuf};
use std::process::{Child, Command, Stdio};
use std::sync::atomic::{AtomicBool, Ordering};
use std::sync::Arc;
use std::thread;
use std::time::{Duration, Instant};
use yard::*;

/// What a process of this test is asked to be.
const LINE: &str = "OILWHISPER_RAIL";

/// Not a test of its own: with a command line in the environment this process is that rail.
#[test]
fn rail() {
    let line = match std::env::var(LINE) {
        Ok(line) => line,
        Err(_) => return,
    };
    match run(&line, &Stop::on_signals(), &mut io::stdout()) {
        Ok(ended) => {
            println!("{}{}", ended.table, ended.verdict);
            std::process::exit(if ended.faults.is_empty() { 0 } else { 1 });
        }
        Err(failure) => {
            eprintln!("rail: {}", failure);
            std::process::exit(1);
        }
    }
}

fn this() -> PathBuf {
    std::env::current_exe().expect("this program has a path")
}

/// A process that is killed when nobody has it any more.
struct Process(Child);

impl Process {
    fn start(line: &str, log: &Path) -> Process {
        Process::start_by(Command::new(this()), line, log)
    }

    /// By a command that has this program's path, or ends with it.
    fn start_by(mut command: Command, line: &str, log: &Path) -> Process {
        let log = fs::OpenOptions::new().create(true).append(true).open(log).expect("a log can be written");
        let child = command
            .args(["rail", "--exact", "--nocapture", "--test-threads=1"])
            .env(LINE, line)
            .stdin(Stdio::null())
            .stderr(log.try_clone().expect("a log can be shared"))
            .stdout(log)
            .spawn();
        Process(child.expect("this program can start itself"))
    }

    /// Power off: nothing is flushed, nobody is told.
    fn kill(&mut self) {
        self.0.kill().expect("a process of ours can be killed");
        self.0.wait().expect("it ends");
    }

    fn terminate(&mut self) -> bool {
        let sent = Command::new("kill").arg(self.0.id().to_string()).status();
        assert!(sent.map_or(false, |status| status.success()));
        self.0.wait().map_or(false, |status| status.success())
    }

    /// Whether it has ended well; None while it runs.
    fn ended(&mut self) -> Option<bool> {
        self.0.try_wait().expect("it is ours").map(|status| status.success())
    }
}

impl Drop for Process {
    fn drop(&mut self) {
        let _ = self.0.kill();
        let _ = self.0.wait();
    }
}

/// So many tiles in folders for each band; head, band and name with their bytes.
fn photograph(folder: &Path, head: &str, tiles: u32, chance: &mut Seeded) -> HashMap<String, Vec<u8>> {
    let mut made = HashMap::new();
    for tile in 0..tiles {
        let band = if tile % 3 == 0 { chance.below(8) } else { 0 };
        let place = folder.join(band.to_string());
        fs::create_dir_all(&place).expect("a folder can be made");
        let size = 1 + chance.below(if tile % 20 == 0 { 60_000 } else { 3_000 }) as usize;
        let content: Vec<u8> = (0..size).map(|_| chance.number() as u8).collect();
        let name = format!("{:05}.tif", tile);
        fs::write(place.join(&name), &content).expect("a tile can be written");
        made.insert(format!("{} {} {}", head, band, name), content);
    }
    made
}

/// Every tile stands once, byte for byte, with one line of the manifest, and nothing else does.
fn compare(kept: &Path, made: &HashMap<String, Vec<u8>>) {
    let mut found = 0;
    for head in fs::read_dir(kept).expect("the folder is there").flatten().filter(|entry| entry.path().is_dir()) {
        for band in fs::read_dir(head.path()).expect("a head has bands").flatten() {
            for tile in fs::read_dir(band.path()).expect("a band has tiles").flatten() {
                let words = [head.file_name(), band.file_name(), tile.file_name()].map(|word| word.to_string_lossy().into_owned());
                let content = made.get(&words.join(" ")).unwrap_or_else(|| panic!("nobody has made {:?}", words));
                assert!(fs::read(tile.path()).expect("a tile can be read") == *content, "{:?} differs", words);
                found += 1;
            }
        }
    }
    assert_eq!(found, made.len());
    let manifest = fs::read_to_string(kept.join("manifest.txt")).expect("there is a manifest");
    let mut listed: Vec<String> = manifest.lines().map(|line| line.splitn(4, ' ').take(3).collect::<Vec<_>>().join(" ")).collect();
    let lines = listed.len();
    listed.sort();
    listed.dedup();
    assert_eq!((lines, listed.len()), (made.len(), made.len()));
    assert!(listed.iter().all(|tile| made.contains_key(tile)));
}

#[test]
fn every_tile_stands_once_whoever_loses_power_or_line() {
    let here = scratch("battery-day");
    let (kept, log) = (here.join("kept"), here.join("log"));
    let mut chance = Seeded::new(8);
    let names = ["north", "south", "west"];
    let mut made = HashMap::new();
    for name in names {
        made.extend(photograph(&here.join(name), name, 400, &mut chance));
    }
    let at = free_address();
    let field_line = format!("field {} --to {} --heartbeat 1 --unanswered 0", at, kept.display());
    let mut field = Process::start(&field_line, &log);
    let pulled: Vec<Arc<AtomicBool>> = names.iter().map(|_| Arc::default()).collect();
    let cables: Vec<Cable> = pulled.iter().cloned().map(|pulled| Cable::to(at, move |_| pulled.load(Ordering::Relaxed))).collect();
    let head_line =
        |n: usize| format!("head {} --name {} --from {} --heartbeat 1 --unanswered 1", cables[n].address, names[n], here.join(names[n]).display());
    let mut heads: Vec<Option<Process>> = (0..names.len()).map(|n| Some(Process::start(&head_line(n), &log))).collect();
    let start = Instant::now();
    let (mut kills, mut round, mut was_lost) = (0, 0, false);
    while heads.iter().any(Option::is_some) {
        assert!(start.elapsed() < Duration::from_secs(240), "{}", fs::read_to_string(&log).unwrap_or_default());
        thread::sleep(Duration::from_millis(30 + chance.below(120)));
        round += 1;
        for (n, head) in heads.iter_mut().enumerate() {
            let process = match head {
                Some(process) => process,
                None => continue,
            };
            if let Some(is_well) = process.ended() {
                assert!(is_well, "{}", fs::read_to_string(&log).unwrap_or_default());
                *head = None;
            } else if kills < 12 && chance.below(8) == 0 && !pulled[n].load(Ordering::Relaxed) && (n != 1 || was_lost) {
                process.kill();
                kills += 1;
                *process = Process::start(&head_line(n), &log);
            }
        }
        match round {
            // A short while, which the association outlives.
            4 => pulled[0].store(true, Ordering::Relaxed),
            10 => pulled[0].store(false, Ordering::Relaxed),
            8 => {
                field.kill();
                thread::sleep(Duration::from_millis(200));
                field = Process::start(&field_line, &log);
            }
            _ => {}
        }
        // And one that it does not: from its first tile on, since a head that has no association yet has no line to lose, and until it has said so, which takes
        // as long as its timers are doubled. Till then it keeps its power.
        if !was_lost && kept.join(names[1]).exists() {
            was_lost = round >= 60 && fs::read_to_string(&log).unwrap_or_default().contains("the line is lost");
            pulled[1].store(!was_lost, Ordering::Relaxed);
        }
    }
    assert!(kills >= 5, "only {} heads lost their power", kills);
    let said = fs::read_to_string(&log).expect("they have said something");
    assert!(said.contains("the line is lost"), "{}", said);
    field.terminate();
    compare(&kept, &made);
    fs::remove_dir_all(here).expect("the folder can be removed");
}

/// A folder that nothing can be written to for a while, as a full disk: nothing is taken, nothing is lost, and it goes on by itself.
#[test]
fn a_folder_that_cannot_be_written_loses_nothing() {
    let here = scratch("battery-full");
    let (kept, log) = (here.join("kept"), here.join("log"));
    let made = photograph(&here.join("east"), "east", 300, &mut Seeded::new(9));
    fs::create_dir_all(&kept).expect("a folder can be made");
    // A file stands where the head's folder should.
    fs::write(kept.join("east"), b"").expect("a file can be written");
    let at = free_address();
    let mut field = Process::start(&format!("field {} --to {}", at, kept.display()), &log);
    let mut head = Process::start(&format!("head {} --name east --from {}", at, here.join("east").display()), &log);
    thread::sleep(Duration::from_secs(3));
    assert_eq!(head.ended(), None);
    let said = fs::read_to_string(&log).expect("they have said something");
    assert_eq!(said.matches("a tile cannot be kept").count(), 1, "{}", said);
    // It can be stopped all the same, and started again.
    let start = Instant::now();
    field.terminate();
    assert!(start.elapsed() < Duration::from_secs(20), "{:?}", start.elapsed());
    field = Process::start(&format!("field {} --to {}", at, kept.display()), &log);
    thread::sleep(Duration::from_secs(2));
    fs::remove_file(kept.join("east")).expect("the file can be removed");
    wait_for(|| fs::read_to_string(&log).unwrap_or_default(), || head.ended().is_some());
    field.terminate();
    compare(&kept, &made);
    fs::remove_dir_all(here).expect("the folder can be removed");
}

/// Makes a small disk where its first argument says, puts a weight on it, and goes on as the command behind.
const ON_A_SMALL_DISK: &str = "mount -t tmpfs -o size=1m tmpfs \"$1\" && head -c 900000 /dev/zero >\"$1/weight\" && shift && exec \"$@\"";

/// A disk that only the command behind sees, where this machine lets it have one.
fn on_a_small_disk(mount: &Path) -> Command {
    let mut command = Command::new("unshare");
    command.args(["-r", "-m", "sh", "-c", ON_A_SMALL_DISK, "sh"]).arg(mount);
    command
}

/// A disk that is full: nothing is taken, nothing is lost, and it goes on by itself when there is room.
#[test]
fn a_full_disk_loses_nothing() {
    let here = scratch("battery-disk");
    let (kept, log) = (here.join("kept"), here.join("log"));
    fs::create_dir_all(&kept).expect("a folder can be made");
    if !on_a_small_disk(&kept).arg("true").output().map_or(false, |run| run.status.success()) {
        // Past what the test runner keeps to itself.
        let _ = writeln!(io::stderr(), "a_full_disk_loses_nothing: SKIPPED, since this machine lets nobody mount a small disk");
        return;
    }
    let made = photograph(&here.join("east"), "east", 60, &mut Seeded::new(10));
    let at = free_address();
    let mut command = on_a_small_disk(&kept);
    command.arg(this());
    let mut field = Process::start_by(command, &format!("field {} --to {}", at, kept.display()), &log);
    let mut head = Process::start(&format!("head {} --name east --from {}", at, here.join("east").display()), &log);
    let said = || fs::read_to_string(&log).unwrap_or_default();
    wait_for(said, || said().contains("a tile cannot be kept"));
    thread::sleep(Duration::from_secs(2));
    assert!(said().contains("No space left on device"), "{}", said());
    assert_eq!((head.ended(), field.ended()), (None, None));
    let disk = PathBuf::from(format!("/proc/{}/root", field.0.id())).join(kept.strip_prefix("/").expect("it is a whole path"));
    fs::remove_file(disk.join("weight")).expect("there is room again");
    wait_for(said, || head.ended() == Some(true));
    compare(&disk, &made);
    field.terminate();
    fs::remove_dir_all(here).expect("the folder can be removed");
}
