//! Who may come: whether INITs are answered at all, from which networks, and how many associations are taken up.

use std::fmt;
use std::net::{IpAddr, Ipv6Addr};
use std::str::FromStr;

/// The addresses that begin with the same bits. One address alone is a network too.
#[derive(Clone, Copy, Debug, PartialEq, Eq)]
pub struct Network {
    address: IpAddr,
    bits: u8,
}

impl Network {
    /// None where the address has not so many bits.
    pub fn new(address: IpAddr, bits: u8) -> Option<Network> {
        (bits <= width(address)).then_some(Network { address, bits })
    }

    /// Whether this address is of the network.
    pub fn contains(&self, address: IpAddr) -> bool {
        let leading = u32::from(self.bits) + 128 - u32::from(width(self.address));
        let differing = number(self.address) ^ number(address);
        differing.leading_zeros() >= leading
    }
}

impl From<IpAddr> for Network {
    fn from(address: IpAddr) -> Network {
        Network { address, bits: width(address) }
    }
}

/// A text that names neither an address nor a network.
#[derive(Clone, Copy, Debug, PartialEq, Eq)]
pub struct NoNetwork;

impl fmt::Display for NoNetwork {
    fn fmt(&self, f: &mut fmt::Formatter) -> fmt::Result {
        write!(f, "no address, and no network like 192.0.2.0/24")
    }
}

impl std::error::Error for NoNetwork {}

impl FromStr for Network {
    type Err = NoNetwork;

    fn from_str(text: &str) -> Result<Network, NoNetwork> {
        let (address, bits) = match text.split_once('/') {
            Some((address, bits)) => (address, Some(bits.parse().map_err(|_| NoNetwork)?)),
            None => (text, None),
        };
        let address: IpAddr = address.parse().map_err(|_| NoNetwork)?;
        Network::new(address, bits.unwrap_or_else(|| width(address))).ok_or(NoNetwork)
    }
}

fn width(address: IpAddr) -> u8 {
    match address {
        IpAddr::V4(_) => 32,
        IpAddr::V6(_) => 128,
    }
}

/// An IPv4 address counts as the IPv6 address that a socket for both shows it as.
fn number(address: IpAddr) -> u128 {
    let six: Ipv6Addr = match address {
        IpAddr::V4(four) => four.to_ipv6_mapped(),
        IpAddr::V6(six) => six,
    };
    u128::from(six)
}

#[derive(Clone, Debug)]
pub(crate) struct Admission {
    pub listens: bool,
    networks: Option<Vec<Network>>,
    left: Option<u64>,
}

impl Admission {
    pub fn new(listens: bool, networks: Option<Vec<Network>>, most: Option<u64>) -> Admission {
        Admission { listens, networks, left: most }
    }

    pub fn admits(&self, address: IpAddr) -> bool {
        let is_wanted = self.networks.as_ref().map_or(true, |networks| networks.iter().any(|network| network.contains(address)));
        self.listens && is_wanted && self.left != Some(0)
    }

    /// An association was taken up.
    pub fn took_up(&mut self) {
        self.left = self.left.map(|left| left.saturating_sub(1));
    }
}

#[cfg(test)]
mod tests {
    use super::*;

    fn network(text: &str) -> Network {
        text.parse().unwrap_or_else(|_| panic!("{} is a network", text))
    }

    fn address(text: &str) -> IpAddr {
        text.parse().unwrap()
    }

    #[test]
    fn a_network_has_the_addresses_with_its_leading_bits() {
        let of_four = network("192.0.2.0/25");
        assert!(of_four.contains(address("192.0.2.127")));
        assert!(of_four.contains(address("::ffff:192.0.2.5")));
        assert!(!of_four.contains(address("192.0.2.128")));
        assert!(!of_four.contains(address("::c000:205")));
        let of_six = network("2001:db8::/32");
        assert!(of_six.contains(address("2001:db8:1::7")));
        assert!(!of_six.contains(address("2001:db9::")));
        assert!(!of_six.contains(address("192.0.2.5")));
        assert!(network("0.0.0.0/0").contains(address("255.1.2.3")));
        assert!(!network("0.0.0.0/0").contains(address("2001:db8::")));
        assert!(network("::/0").contains(address("10.0.0.1")));
    }

    #[test]
    fn an_address_alone_is_a_network_of_one() {
        let one = network("10.0.0.1");
        assert_eq!(one, Network::from(address("10.0.0.1")));
        assert!(one.contains(address("10.0.0.1")));
        assert!(!one.contains(address("10.0.0.0")));
    }

    #[test]
    fn what_is_no_network_is_refused() {
        for text in ["", "10.0.0", "10.0.0.0/33", "10.0.0.0/", "10.0.0.0/-1", "::/129", "a/8"] {
            assert_eq!(text.parse::<Network>(), Err(NoNetwork), "{}", text);
        }
    }

    #[test]
    fn so_many_are_taken_up_and_no_more() {
        let here = address("10.0.0.1");
        assert!(!Admission::new(false, None, None).admits(here));
        assert!(!Admission::new(true, Some(Vec::new()), None).admits(here));
        let mut two = Admission::new(true, Some(vec![network("10.0.0.0/8")]), Some(2));
        assert!(!two.admits(address("11.0.0.1")));
        two.took_up();
        assert!(two.admits(here));
        two.took_up();
        assert!(!two.admits(here));
        two.took_up();
        assert!(!two.admits(here));
    }
}
