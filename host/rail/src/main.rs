//! The rail's command.

use oilwhisper::library::Proved;
use rail::arguments::{parse, Command, USAGE, VERSION};
use rail::report::Ended;
use rail::stop::Stop;
use rail::view::Screen;
use rail::{demo, lone, Failure};
use std::io::{self, Write};
use std::process::ExitCode;

const UNEQUAL: u8 = 1;
const MISUSED: u8 = 2;
const STOPPED: u8 = 3;

fn main() -> ExitCode {
    let words: Vec<String> = std::env::args().skip(1).collect();
    match parse(&words) {
        Ok(Command::Help) => say(USAGE),
        Ok(Command::Version) => say(VERSION),
        Ok(command) => conclude(run(command)),
        Err(failure) => {
            eprintln!("rail: {}\n'rail help' tells what there is.", failure);
            ExitCode::from(MISUSED)
        }
    }
}

fn say(text: &str) -> ExitCode {
    let _ = io::stdout().write_all(text.as_bytes());
    ExitCode::SUCCESS
}

fn run(command: Command) -> Result<Ended, Failure> {
    let out = &mut io::stdout();
    let stop = Stop::on_signals();
    match command {
        Command::Help | Command::Version => Ok(Ended::default()),
        Command::Demo(asked) => demo::run::<Proved>(&asked, &stop, out),
        Command::Head(asked) => lone::head::<Proved>(&asked, &stop, out),
        Command::Field(asked) => lone::field::<Proved>(&asked, &stop, &mut Screen::new(out, is_terminal())),
    }
}

extern "C" {
    fn isatty(descriptor: i32) -> i32;
}

/// Whether standard output is one.
fn is_terminal() -> bool {
    // C's `isatty` takes any number and touches nothing.
    unsafe { isatty(1) == 1 }
}

fn conclude(ended: Result<Ended, Failure>) -> ExitCode {
    match ended {
        Ok(ended) => {
            // A closed standard output changes nothing: the exit status still tells.
            let _ = write!(io::stdout(), "\n{}\n", ended.table);
            let _ = io::stdout().flush();
            for fault in ended.faults.iter().take(20) {
                eprintln!("rail: {}", fault);
            }
            let _ = writeln!(io::stdout(), "{}", ended.verdict);
            if !ended.faults.is_empty() {
                ExitCode::from(UNEQUAL)
            } else if ended.was_stopped {
                ExitCode::from(STOPPED)
            } else {
                ExitCode::SUCCESS
            }
        }
        Err(failure) => {
            eprintln!("rail: {}", failure);
            ExitCode::from(UNEQUAL)
        }
    }
}
