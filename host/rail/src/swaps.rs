//! The demonstration of a battery that is swapped: one head that stops in the middle of its tiles, without a word, and begins anew at the same address, and a
//! field computer that still holds the association. The core restarts it (RFC 9260 section 5.2.4 A): each life's tiles come once and in order, and none of one
//! life in another.

use crate::arguments::{Demo, FIELD_PORT, HEAD_PORT};
use crate::report::{grouped, plural, Ended};
use crate::tiles::{tile, Album, Plan, BANDS};
use crate::{bind, Failure};
use oilwhisper::calls::{Refusal, State};
use oilwhisper::endpoint::{Config, Endpoint, Event};
use oilwhisper::library::Library;
use oilwhisper::random::Random;
use oilwhisper::udp::Line;
use std::io::Write;
use std::net::{Ipv4Addr, SocketAddr, UdpSocket};
use std::time::{Duration, Instant};

const TURN: Duration = Duration::from_millis(1);
/// With not one tile more for so long the run is given up.
const STUCK: Duration = Duration::from_secs(60);
/// Tiles of the first band that a life has.
const TILES: u64 = 2_000;

fn line<L: Library>(config: Config, socket: &UdpSocket) -> Result<Line<L>, Failure> {
    let random = Random::from_system().map_err(|e| Failure(format!("the system gives no random numbers: {}", e)))?;
    let socket = socket.try_clone().map_err(Failure::of_network)?;
    Ok(Line::new(Endpoint::new(config, random, Instant::now()), socket, None))
}

pub fn run<L: Library>(demo: &Demo, progress: &mut dyn Write) -> Result<Ended, Failure> {
    let swaps = demo.battery;
    let sockets = [bind(SocketAddr::from((Ipv4Addr::LOCALHOST, 0)))?, bind(SocketAddr::from((Ipv4Addr::LOCALHOST, 0)))?];
    let to_field = sockets[1].local_addr().map_err(Failure::of_network)?;
    let mut field = line::<L>(Config { streams: BANDS, ..Config::at_port(FIELD_PORT) }, &sockets[1])?;
    let (mut faults, mut total, mut lost_in_all) = (Vec::new(), 0, 0);
    for life in 0..=swaps {
        let seed = demo.seed.wrapping_add(life);
        let mut head = line::<L>(Config { streams: BANDS, ..Config::at_port(HEAD_PORT) }, &sockets[0])?;
        head.endpoint.associate(to_field, FIELD_PORT, Instant::now()).map_err(|refusal| Failure(refusal.to_string()))?;
        let mut plan = Plan::of(TILES).peekable();
        let mut album = Album::default();
        let (mut is_there, mut moved, mut seen, mut is_over) = (life == 0, Instant::now(), 0, false);
        // A battery is swapped when half of the tiles have come.
        let enough = if life < swaps { Plan::total(TILES) / 2 } else { Plan::total(TILES) };
        while !is_over {
            head.turn(TURN).map_err(Failure::of_network)?;
            while head.endpoint.event().is_some() {}
            while let Some((band, index)) = plan.peek() {
                match head.endpoint.hand_in(&tile(seed, *band, *index), *band, false, 0) {
                    Ok(()) => plan.next(),
                    Err(Refusal::FULL | Refusal::STATE) => break,
                    Err(refusal) => return Err(Failure(refusal.to_string())),
                };
            }
            field.turn(TURN).map_err(Failure::of_network)?;
            while let Some(event) = field.endpoint.event() {
                match event {
                    Event::Restarted(lost) if !is_there => {
                        is_there = true;
                        lost_in_all += lost;
                        let what = plural(lost as u64, "tile of its old life was not taken", "tiles of its old life were not taken");
                        let _ = writeln!(progress, "  head restarted ({})", what);
                    }
                    Event::Up | Event::Quiet(_) | Event::Heard => {}
                    Event::Down(_) if life == swaps && album.tiles() == enough => {}
                    other => faults.push(format!("life {}: {:?}", life + 1, other)),
                }
            }
            // Until the field computer has met the new life, what it takes is of the old one.
            while is_there && album.tiles() < enough {
                match field.endpoint.take() {
                    Some((taken, message)) => {
                        if let Err(difference) = album.add(taken.stream, taken.ssn, message) {
                            faults.push(format!("life {}: {}", life + 1, difference));
                        }
                    }
                    None => break,
                }
            }
            if album.tiles() != seen {
                (seen, moved) = (album.tiles(), Instant::now());
            }
            is_over = if life < swaps {
                seen >= enough
            } else {
                if seen >= enough && head.endpoint.standing().state == State::Established {
                    head.endpoint.shutdown(Instant::now()).map_err(|refusal| Failure(refusal.to_string()))?;
                }
                seen >= enough && head.endpoint.standing().state == State::Closed
            };
            if moved.elapsed() > STUCK || !faults.is_empty() {
                faults.push(format!("life {}: {} of {} tiles came", life + 1, grouped(seen), grouped(enough)));
                is_over = true;
            }
        }
        total += seen;
        if !faults.is_empty() {
            break;
        }
    }
    let verdict = format!(
        "{} of {} came once and in order; {} of an old life were not taken, and came in none",
        plural(total, "tile", "tiles"),
        plural(swaps + 1, "life", "lives"),
        plural(lost_in_all as u64, "tile", "tiles")
    );
    Ok(Ended { faults, verdict, ..Ended::default() })
}
