//! A field computer in Rust: takes messages from many heads at UDP port 9899 and writes one line for each, until Ctrl-C.

use oilwhisper::config::Config;
use oilwhisper::hub::{Event, Hub, Settings};
use oilwhisper::library::Proved;
use oilwhisper::random::Random;
use oilwhisper::udp::Station;
use std::io;
use std::net::UdpSocket;
use std::time::{Duration, Instant};

fn main() -> io::Result<()> {
    let hub = Hub::<Proved>::new(Settings::for_heads(Config::on_a_rail(5001), 64), Random::from_system()?, Instant::now());
    let mut station = Station::new(hub, UdpSocket::bind("[::]:9899")?, None);
    loop {
        station.turn(Duration::from_millis(200))?;
        while let Some((head, event)) = station.hub.event() {
            match event {
                Event::Readable => {
                    while let Some((taken, message)) = station.hub.take(head) {
                        println!("{:?}: {} bytes on stream {}", head, message.len(), taken.stream);
                    }
                }
                other => println!("{:?}: {:?}", head, other),
            }
        }
    }
}
