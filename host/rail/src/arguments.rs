//! What the command line asks for.

use crate::parcel::is_name;
use crate::relay::Weather;
use crate::Failure;
use oilwhisper::admission::Network;
use oilwhisper::endpoint::{Book, Config};
use oilwhisper::pcap::ENCAPSULATION;
use std::net::{Ipv4Addr, Ipv6Addr, SocketAddr, ToSocketAddrs};
use std::path::PathBuf;
use std::str::FromStr;
use std::time::Duration;

/// ./rail shows it too, without a build.
pub const USAGE: &str = include_str!("usage.txt");
pub const VERSION: &str = concat!("rail ", env!("CARGO_PKG_VERSION"), "\n");

pub const HEAD_PORT: u16 = 5000;
pub const FIELD_PORT: u16 = 5001;

#[derive(Clone, Debug, PartialEq)]
pub enum Command {
    Help,
    Version,
    Demo(Demo),
    Head(Head),
    Field(Field),
}

#[derive(Clone, Debug, PartialEq)]
pub struct Demo {
    pub heads: usize,
    pub messages: u64,
    pub seed: u64,
    pub weather: Weather,
    /// What both ends keep to when they send.
    pub book: Book,
    pub pcap: Option<PathBuf>,
    /// So often the battery of one head is swapped, in place of all else.
    pub battery: u64,
}

/// How a silent peer is found out.
#[derive(Clone, Copy, Debug, PartialEq, Eq)]
pub struct Beats {
    pub heartbeat: Duration,
    pub unanswered: u32,
}

#[derive(Clone, Debug, PartialEq, Eq)]
pub struct Head {
    /// The field computer's.
    pub address: SocketAddr,
    pub bind: SocketAddr,
    pub port: u16,
    pub to_port: u16,
    /// What the field computer knows it by.
    pub name: String,
    /// The folder whose tiles it sends; without one they are made.
    pub from: Option<PathBuf>,
    /// Where it notes which are kept; for a folder it has its own.
    pub journal: Option<PathBuf>,
    /// How often it asks again when the line is lost; without a number as long as it runs.
    pub tries: Option<u64>,
    pub messages: u64,
    pub seed: u64,
    pub beats: Beats,
    pub pcap: Option<PathBuf>,
}

#[derive(Clone, Debug, PartialEq, Eq)]
pub struct Field {
    pub address: SocketAddr,
    pub port: u16,
    /// The folder that tiles are kept in; without one they are compared.
    pub to: Option<PathBuf>,
    /// Where a page shows the heads.
    pub view: Option<SocketAddr>,
    /// How many heads it serves at once.
    pub heads: usize,
    /// After so many associations it ends.
    pub count: Option<u64>,
    /// From where heads may come; from everywhere, if nothing is said.
    pub admits: Option<Vec<Network>>,
    pub beats: Beats,
    pub pcap: Option<PathBuf>,
}

const MESSAGES: u64 = 66_000;
const DEMO_HEADS: u64 = 3;
const DEMO_HEADS_MOST: u64 = 200;
const HEADS: u64 = 64;
const HEADS_MOST: u64 = 10_000;
/// An index of a tile has 32 bits.
const MESSAGES_MOST: u64 = u32::MAX as u64;

pub fn parse(words: &[String]) -> Result<Command, Failure> {
    let (name, rest) = match words.split_first() {
        Some((name, rest)) => (name.as_str(), rest),
        None => return Ok(Command::Help),
    };
    if words.iter().any(|word| word == "--help" || word == "-h") || name == "help" {
        return Ok(Command::Help);
    }
    if words.iter().any(|word| word == "--version") {
        return Ok(Command::Version);
    }
    match name {
        "demo" => demo(Options::of(rest, 0)?).map(Command::Demo),
        "head" => head(Options::of(rest, 1)?).map(Command::Head),
        "field" => field(Options::of(rest, 1)?).map(Command::Field),
        other => Err(Failure(format!("'{}' is no command: there are demo, head, field, help and --version", other))),
    }
}

fn demo(mut options: Options) -> Result<Demo, Failure> {
    let demo = Demo {
        heads: options.number("--heads", DEMO_HEADS, 1, DEMO_HEADS_MOST)? as usize,
        messages: options.number("--messages", MESSAGES, 1, MESSAGES_MOST)?,
        seed: options.number("--seed", 1, 0, u64::MAX)?,
        weather: Weather {
            delay: Duration::from_millis(options.number("--delay", 0, 0, 10_000)?),
            loss: options.percent("--loss", 1.0)?,
            repeat: options.percent("--repeat", 1.0)?,
            reorder: options.percent("--reorder", 2.0)?,
            damage: options.percent("--damage", 0.2)?,
        },
        book: options.book()?,
        pcap: options.path("--pcap"),
        battery: options.number("--battery", 0, 0, 1_000)?,
    };
    options.end().map(|()| demo)
}

fn head(mut options: Options) -> Result<Head, Failure> {
    let to = options.plain.pop().ok_or_else(|| Failure(format!("the field computer's ADDRESS is missing, as in 192.0.2.7:{}", ENCAPSULATION)))?;
    let address = address(&to)?;
    let head = Head {
        address,
        bind: match options.text("--bind") {
            Some(text) => u16::from_str(&text).map(|port| anywhere(address, port)).or_else(|_| resolved(&text))?,
            None => anywhere(address, 0),
        },
        port: options.port("--port", HEAD_PORT)?,
        to_port: options.port("--to-port", FIELD_PORT)?,
        name: options.name()?,
        from: options.path("--from"),
        journal: options.path("--journal"),
        tries: options.optional("--tries", 0, u64::MAX)?,
        messages: options.number("--messages", MESSAGES, 1, MESSAGES_MOST)?,
        seed: options.number("--seed", 1, 0, u64::MAX)?,
        beats: options.beats()?,
        pcap: options.path("--pcap"),
    };
    options.end().map(|()| head)
}

fn field(mut options: Options) -> Result<Field, Failure> {
    let at = options.plain.pop().unwrap_or_else(|| ENCAPSULATION.to_string());
    let field = Field {
        address: listening_address(&at)?,
        port: options.port("--port", FIELD_PORT)?,
        to: options.path("--to"),
        view: options.loopback("--view")?,
        heads: options.number("--heads", HEADS, 1, HEADS_MOST)? as usize,
        count: options.optional("--count", 1, u64::MAX)?,
        admits: options.networks("--admit")?,
        beats: options.beats()?,
        pcap: options.path("--pcap"),
    };
    options.end().map(|()| field)
}

/// An address to send to.
fn address(text: &str) -> Result<SocketAddr, Failure> {
    match resolved(text)? {
        address if address.port() == 0 => Err(no_address(text, "port 0 is none to send to")),
        address => Ok(address),
    }
}

/// All addresses of this machine from which the other can be reached.
fn anywhere(other: SocketAddr, port: u16) -> SocketAddr {
    match other {
        SocketAddr::V4(_) => SocketAddr::from((Ipv4Addr::UNSPECIFIED, port)),
        SocketAddr::V6(_) => SocketAddr::from((Ipv6Addr::UNSPECIFIED, port)),
    }
}

/// An address to listen at: a port alone is that of all addresses of this machine, and port 0 is any that is free.
fn listening_address(text: &str) -> Result<SocketAddr, Failure> {
    match u16::from_str(text) {
        Ok(port) => Ok(SocketAddr::from((Ipv6Addr::UNSPECIFIED, port))),
        Err(_) => resolved(text),
    }
}

fn resolved(text: &str) -> Result<SocketAddr, Failure> {
    // An IPv6 address with the name of a link, as in [fe80::1%eth0]:9899, is read only without its brackets.
    let linked = text.strip_prefix('[').and_then(|rest| rest.rsplit_once("]:")).filter(|(host, _)| host.contains('%'));
    let found = match linked.and_then(|(host, port)| u16::from_str(port).ok().map(|port| (host, port))) {
        Some(pair) => pair.to_socket_addrs(),
        None => text.to_socket_addrs(),
    };
    let first = found.map_err(|e| no_address(text, &e.to_string()))?.next();
    first.ok_or_else(|| no_address(text, "nothing has that name"))
}

fn no_address(text: &str, why: &str) -> Failure {
    Failure(format!("'{}' is no address ({}): write HOST:PORT, as in 192.0.2.7:{}", text, why, ENCAPSULATION))
}

/// The words behind a command: plain ones, and pairs of an option and its value, each of which is asked for once.
struct Options {
    plain: Vec<String>,
    pairs: Vec<(String, String)>,
}

impl Options {
    fn of(words: &[String], plain_most: usize) -> Result<Options, Failure> {
        let mut options = Options { plain: Vec::new(), pairs: Vec::new() };
        let mut words = words.iter();
        while let Some(word) = words.next() {
            if !word.starts_with("--") {
                options.plain.push(word.clone());
                continue;
            }
            let value = words.next().ok_or_else(|| Failure(format!("{} needs a value", word)))?;
            if options.pairs.iter().any(|(name, _)| name == word) {
                return Err(Failure(format!("{} is there twice", word)));
            }
            options.pairs.push((word.clone(), value.clone()));
        }
        match options.plain.get(plain_most) {
            Some(word) => Err(Failure(format!("'{}' is one word too many", word))),
            None => Ok(options),
        }
    }

    fn text(&mut self, name: &str) -> Option<String> {
        let at = self.pairs.iter().position(|(other, _)| other == name)?;
        Some(self.pairs.remove(at).1)
    }

    fn path(&mut self, name: &str) -> Option<PathBuf> {
        self.text(name).map(PathBuf::from)
    }

    fn number(&mut self, name: &str, default: u64, least: u64, most: u64) -> Result<u64, Failure> {
        Ok(self.optional(name, least, most)?.unwrap_or(default))
    }

    fn optional(&mut self, name: &str, least: u64, most: u64) -> Result<Option<u64>, Failure> {
        match self.text(name) {
            None => Ok(None),
            Some(text) => match u64::from_str(&text) {
                Ok(number) if (least..=most).contains(&number) => Ok(Some(number)),
                _ => Err(Failure(format!("{} takes a number from {} to {}, not '{}'", name, least, most, text))),
            },
        }
    }

    /// The number of an RFC.
    fn book(&mut self) -> Result<Book, Failure> {
        match self.text("--book").as_deref() {
            None | Some("9260") => Ok(Book::Rfc9260),
            Some("4960") => Ok(Book::Rfc4960),
            Some(text) => Err(Failure(format!("--book takes 9260 or 4960, not '{}'", text))),
        }
    }

    fn beats(&mut self) -> Result<Beats, Failure> {
        let usual = Config::on_a_rail(0);
        let heartbeat = Duration::from_secs(self.number("--heartbeat", usual.heartbeat.as_secs(), 1, 3600)?);
        let unanswered = self.number("--unanswered", u64::from(usual.unanswered), 0, 100)? as u32;
        Ok(Beats { heartbeat, unanswered })
    }

    /// An address of this machine alone, or a port there.
    fn loopback(&mut self, name: &str) -> Result<Option<SocketAddr>, Failure> {
        let text = match self.text(name) {
            Some(text) => text,
            None => return Ok(None),
        };
        let address = u16::from_str(&text).map(|port| SocketAddr::from((Ipv4Addr::LOCALHOST, port))).or_else(|_| resolved(&text))?;
        match address.ip().is_loopback() {
            true => Ok(Some(address)),
            false => {
                Err(Failure(format!("{} shows itself to this machine alone: '{}' is no address of its loopback, as 127.0.0.1:8080 is", name, text)))
            }
        }
    }

    /// A head's name; without one its machine's.
    fn name(&mut self) -> Result<String, Failure> {
        let of_machine = || std::fs::read_to_string("/proc/sys/kernel/hostname").map(|name| name.trim().to_string());
        match self.text("--name") {
            Some(name) if is_name(&name) => Ok(name),
            Some(name) => Err(Failure(format!("--name takes letters, digits, '-', '_' and '.', not '{}'", name))),
            None => Ok(of_machine().ok().filter(|name| is_name(name)).unwrap_or_else(|| "head".to_string())),
        }
    }

    /// Networks with commas between them.
    fn networks(&mut self, name: &str) -> Result<Option<Vec<Network>>, Failure> {
        let network = |word: &str| {
            let wrong = |e| Failure(format!("{} takes addresses and networks, as in 192.0.2.7,2001:db8::/32: '{}' is {}", name, word, e));
            word.parse::<Network>().map_err(wrong)
        };
        self.text(name).map(|text| text.split(',').map(network).collect()).transpose()
    }

    fn port(&mut self, name: &str, default: u16) -> Result<u16, Failure> {
        self.number(name, u64::from(default), 1, u64::from(u16::MAX)).map(|port| port as u16)
    }

    fn percent(&mut self, name: &str, default: f64) -> Result<f64, Failure> {
        let percent = match self.text(name) {
            None => default,
            Some(text) => match f64::from_str(text.trim_end_matches('%')) {
                Ok(percent) if (0.0..=100.0).contains(&percent) => percent,
                _ => return Err(Failure(format!("{} takes percent from 0 to 100, not '{}'", name, text))),
            },
        };
        Ok(percent / 100.0)
    }

    fn end(&self) -> Result<(), Failure> {
        match self.pairs.first() {
            Some((name, _)) => Err(Failure(format!("{} is no option of this command", name))),
            None => Ok(()),
        }
    }
}

#[cfg(test)]
mod tests {
    use super::*;

    fn parsed(line: &str) -> Result<Command, Failure> {
        let words: Vec<String> = line.split_whitespace().map(str::to_string).collect();
        parse(&words)
    }

    fn complaint(line: &str) -> String {
        match parsed(line) {
            Err(failure) => failure.0,
            Ok(command) => panic!("{:?}", command),
        }
    }

    #[test]
    fn a_demo_has_defaults_and_takes_options() {
        match parsed("demo --loss 2% --messages 100 --pcap /tmp/x --seed 9") {
            Ok(Command::Demo(demo)) => {
                assert_eq!(demo.messages, 100);
                assert_eq!(demo.weather.loss, 0.02);
                assert_eq!(demo.weather.repeat, 0.01);
                assert_eq!(demo.seed, 9);
                assert_eq!(demo.pcap, Some(PathBuf::from("/tmp/x")));
                assert_eq!(demo.book, Book::Rfc9260);
            }
            other => panic!("{:?}", other),
        }
        assert!(matches!(parsed("demo --book 4960"), Ok(Command::Demo(Demo { book: Book::Rfc4960, .. }))));
        assert!(matches!(parsed("demo --book 9260"), Ok(Command::Demo(Demo { book: Book::Rfc9260, .. }))));
    }

    #[test]
    fn the_two_ends_take_addresses() {
        let field_at = |line: &str| match parsed(line) {
            Ok(Command::Field(field)) => field.address.to_string(),
            other => panic!("{:?}", other),
        };
        assert_eq!(field_at("field"), "[::]:9899");
        assert_eq!(field_at("field 7000"), "[::]:7000");
        assert_eq!(field_at("field 127.0.0.1:0"), "127.0.0.1:0");
        let head = |line: &str| match parsed(line) {
            Ok(Command::Head(head)) => head,
            other => panic!("{:?}", other),
        };
        let asked = head("head [::1]:9899 --bind [::1]:7000 --to-port 7");
        assert_eq!((asked.address.to_string(), asked.bind.to_string()), ("[::1]:9899".to_string(), "[::1]:7000".to_string()));
        assert_eq!((asked.port, asked.to_port), (5000, 7));
        assert_eq!(head("head [::1]:9899").bind.to_string(), "[::]:0");
        assert_eq!(head("head 127.0.0.1:9899").bind.to_string(), "0.0.0.0:0");
        assert_eq!(head("head 127.0.0.1:9899 --bind 7000").bind.to_string(), "0.0.0.0:7000");
    }

    #[test]
    fn a_field_computer_is_told_who_may_come_and_how_often_to_ask() {
        match parsed("field --admit 10.0.0.0/8,2001:db8::7 --heartbeat 2 --unanswered 3") {
            Ok(Command::Field(field)) => {
                let admits = field.admits.expect("some are named");
                let is_in = |text: &str| admits.iter().any(|network| network.contains(text.parse().unwrap()));
                assert!(is_in("10.1.2.3") && is_in("2001:db8::7") && !is_in("11.0.0.1"));
                assert_eq!(field.beats, Beats { heartbeat: Duration::from_secs(2), unanswered: 3 });
            }
            other => panic!("{:?}", other),
        }
    }

    #[test]
    fn tiles_come_from_a_folder_and_go_to_one() {
        match parsed("head 127.0.0.1:9899 --from /a --name north-2 --journal /b --tries 3") {
            Ok(Command::Head(head)) => {
                assert_eq!((head.from, head.journal), (Some(PathBuf::from("/a")), Some(PathBuf::from("/b"))));
                assert_eq!((head.name.as_str(), head.tries), ("north-2", Some(3)));
            }
            other => panic!("{:?}", other),
        }
        match parsed("field --to /c --heads 5 --view 8080") {
            Ok(Command::Field(field)) => {
                assert_eq!((field.to, field.heads), (Some(PathBuf::from("/c")), 5));
                assert_eq!(field.view, Some(SocketAddr::from(([127, 0, 0, 1], 8080))));
            }
            other => panic!("{:?}", other),
        }
        assert!(matches!(parsed("demo"), Ok(Command::Demo(Demo { heads: 3, .. }))));
        assert!(matches!(parsed("head 127.0.0.1:9899"), Ok(Command::Head(Head { tries: None, from: None, .. }))));
    }

    #[test]
    fn a_link_can_be_named() {
        match parsed("head [fe80::1%lo]:9899") {
            Ok(Command::Head(Head { address: SocketAddr::V6(six), .. })) => assert_eq!((six.port(), six.scope_id() > 0), (9899, true)),
            other => panic!("{:?}", other),
        }
    }

    #[test]
    fn what_is_wrong_is_named() {
        assert!(complaint("paint").contains("'paint' is no command"));
        assert!(complaint("demo --book 7").contains("--book takes 9260 or 4960, not '7'"));
        assert!(complaint("demo --loss 101").contains("--loss takes percent"));
        assert!(complaint("demo --loss").contains("--loss needs a value"));
        assert!(complaint("demo --messages 0").contains("--messages takes a number from 1"));
        assert!(complaint("demo --seed 1 --seed 2").contains("twice"));
        assert!(complaint("demo 127.0.0.1:1").contains("one word too many"));
        assert!(complaint("head").contains("the field computer's ADDRESS is missing"));
        assert!(complaint("field 127.0.0.1:5 --messages 3").contains("--messages is no option"));
        assert!(complaint("field --admit 10.0.0.0/33").contains("--admit takes addresses and networks"));
        assert!(complaint("field --heartbeat 0").contains("--heartbeat takes a number from 1"));
        assert!(complaint("field --count 0").contains("--count takes a number from 1"));
        assert!(complaint("head 127.0.0.1:9 --name a/b").contains("--name takes letters"));
        assert!(complaint("field --view 192.0.2.7:8080").contains("--view shows itself to this machine alone"));
        assert!(complaint("field --heads 0").contains("--heads takes a number from 1"));
        assert!(complaint("head 127.0.0.1").contains("'127.0.0.1' is no address"));
        assert!(complaint("head 127.0.0.1:99999").contains("is no address"));
        assert!(complaint("head 127.0.0.1:0").contains("port 0 is none to send to"));
    }

    #[test]
    fn every_command_tells_its_help_and_its_version() {
        assert_eq!(parsed(""), Ok(Command::Help));
        for line in ["help", "--help", "-h", "demo --help", "head --help", "field 127.0.0.1:1 -h"] {
            assert_eq!(parsed(line), Ok(Command::Help), "{}", line);
        }
        for line in ["--version", "demo --version", "head 127.0.0.1:9899 --version", "field --version"] {
            assert_eq!(parsed(line), Ok(Command::Version), "{}", line);
        }
    }
}
