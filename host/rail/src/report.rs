//! What is printed: progress, the table at the end, and the verdict.

use oilwhisper::calls::Refusal;
use oilwhisper::counts::Counts;
use std::fmt::Write;
use std::net::{IpAddr, SocketAddr};
use std::time::Duration;

/// How a run ended.
#[derive(Clone, Debug, Default, PartialEq, Eq)]
pub struct Ended {
    pub table: String,
    /// What went wrong; nothing, where every tile came once, in order, byte for byte.
    pub faults: Vec<String>,
    /// The last line.
    pub verdict: String,
    /// It was asked to stop before its end.
    pub was_stopped: bool,
}

/// With nothing heard for so long a progress line says so.
const QUIET: Duration = Duration::from_secs(4);

/// The end of a progress line, where the other end is silent.
pub fn silence(lasted: Duration) -> String {
    if lasted < QUIET {
        String::new()
    } else {
        format!(", last heard {} s ago", lasted.as_secs())
    }
}

/// One or several.
pub fn plural(number: u64, one: &str, many: &str) -> String {
    format!("{} {}", grouped(number), if number == 1 { one } else { many })
}

/// What is met every day and is no fault: a repeated INIT or echo (7), a duplicate (11), a chunk too far ahead (13), an acknowledgement that was overtaken (15), a
/// message that is handed in again when there is room (20).
const USUAL: [u8; 5] = [7, 11, 13, 15, 20];

fn is_usual(refusal: Refusal) -> bool {
    USUAL.contains(&refusal.0)
}

/// An address as people write it: one of IPv4 that a socket for both kinds shows as one of IPv6 is shown as one of IPv4.
pub fn shown(address: SocketAddr) -> SocketAddr {
    match address.ip() {
        IpAddr::V6(six) => match six.to_ipv4_mapped() {
            Some(four) => SocketAddr::from((four, address.port())),
            None => address,
        },
        IpAddr::V4(_) => address,
    }
}

/// A number with its thousands set apart.
pub fn grouped(number: u64) -> String {
    let digits = number.to_string();
    let mut grouped = String::with_capacity(digits.len() + digits.len() / 3);
    for (at, digit) in digits.chars().enumerate() {
        if at > 0 && (digits.len() - at) % 3 == 0 {
            grouped.push(',');
        }
        grouped.push(digit);
    }
    grouped
}

/// So many in this time, for one second.
pub fn per_second(amount: u64, time: Duration) -> u64 {
    let seconds = time.as_secs_f64();
    if seconds > 0.0 {
        (amount as f64 / seconds) as u64
    } else {
        0
    }
}

/// Rows of a name and a value in even columns.
#[derive(Debug, Default)]
pub struct Table {
    rows: Vec<(String, String)>,
}

impl Table {
    pub fn row(&mut self, name: &str, value: impl Into<String>) {
        self.rows.push((name.to_string(), value.into()));
    }

    pub fn count(&mut self, name: &str, number: u64) {
        self.row(name, grouped(number));
    }

    /// What one end sent, received and was refused.
    pub fn end(&mut self, name: &str, counts: &Counts) {
        self.count(&format!("{}: packets sent", name), counts.packets_sent);
        self.count(&format!("{}: packets received", name), counts.packets_received);
        if counts.resent > 0 {
            self.count(&format!("{}: packets with resent chunks", name), counts.resent);
        }
        self.count(&format!("{}: acknowledgements sent", name), counts.acknowledgements);
        self.count(&format!("{}: timer expiries", name), counts.expiries);
        if counts.last_words > 0 {
            self.count(&format!("{}: handshake replies repeated", name), counts.last_words);
        }
        for (refusal, count) in counts.refusals().filter(|(refusal, _)| !is_usual(*refusal)) {
            self.count(&format!("{}: refused {}", name, refusal), count);
        }
        for (refusal, count) in counts.refusals().filter(|(refusal, _)| is_usual(*refusal)) {
            self.count(&format!("{}: as usual {}", name, refusal), count);
        }
    }

    pub fn text(&self) -> String {
        let widest = self.rows.iter().map(|(name, _)| name.chars().count()).max().unwrap_or(0);
        let mut text = String::new();
        for (name, value) in &self.rows {
            // Writing to a String cannot fail.
            let _ = writeln!(text, "  {:<widest$}  {}", name, value, widest = widest);
        }
        text
    }
}

#[cfg(test)]
mod tests {
    use super::*;

    #[test]
    fn thousands_are_set_apart() {
        assert_eq!(grouped(0), "0");
        assert_eq!(grouped(999), "999");
        assert_eq!(grouped(65_536), "65,536");
        assert_eq!(grouped(4_294_967_196), "4,294,967,196");
    }

    #[test]
    fn a_table_has_even_columns_and_the_refusals_by_number() {
        let mut counts = Counts::default();
        counts.refuse(Refusal(11));
        counts.refuse(Refusal(3));
        let mut table = Table::default();
        table.end("head", &counts);
        table.row("a", "b");
        let text = table.text();
        assert!(text.contains("head: refused 3 (checksum)"), "{}", text);
        assert!(text.contains("head: as usual 11 (duplicate)"), "{}", text);
        let columns: Vec<usize> = text.lines().map(|line| line.trim_end().rfind("  ").unwrap_or(0)).collect();
        assert!(columns.windows(2).all(|pair| pair[0] == pair[1]), "{}", text);
    }

    #[test]
    fn silence_is_told_when_it_lasts() {
        assert_eq!(silence(Duration::from_millis(3900)), "");
        assert_eq!(silence(Duration::from_millis(8200)), ", last heard 8 s ago");
    }

    #[test]
    fn an_address_is_shown_as_people_write_it() {
        for (address, text) in [("[::ffff:192.0.2.7]:9", "192.0.2.7:9"), ("[2001:db8::7]:9", "[2001:db8::7]:9"), ("192.0.2.7:9", "192.0.2.7:9")] {
            assert_eq!(shown(address.parse().unwrap()).to_string(), text);
        }
    }

    #[test]
    fn a_rate_of_no_time_is_none() {
        assert_eq!(per_second(100, Duration::from_millis(500)), 200);
        assert_eq!(per_second(100, Duration::ZERO), 0);
    }
}
