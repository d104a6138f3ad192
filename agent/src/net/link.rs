//! The UDP socket of an agent.

use super::kernel;
use crate::system_calls::{hear_of_refusals, next_error};
use log::debug;
use mio::net::UdpSocket;
use mio::{Interest, Registry, Token};
use socket2::SockRef;
use std::io::{self, ErrorKind};
use std::net::{SocketAddr, ToSocketAddrs};

/// A sealed message of the node, and one of an agent, are far shorter, and one that is carried on is encrypted twice; what is longer is cut, and refused by its
/// form.
pub const MAX_DATAGRAM: usize = 2048 + 2 * super::LONGER + 16;

/// The system is asked for room for so many bytes of datagrams that weren't taken yet, each with its own upkeep: for more long jobs at once than a node
/// keeps. It gives what it permits (net.core.rmem_max), twice.
const ROOM: usize = 4 * 1024 * 1024;

/// So many errors at a time are passed over.
const MAX_ERRORS: usize = 16;

/// A datagram is sent again so often where that fails: what is said may be what the network answered to earlier ones.
const MAX_LATE: usize = 2;

/// The network, as far as it is asked for datagrams.
pub trait Network {
    /// Whether datagrams may be waiting.
    fn is_readable(&self) -> bool;

    /// The next datagram that came, if any, and from where.
    fn receive<'a>(&mut self, bytes: &'a mut [u8; MAX_DATAGRAM]) -> Option<(&'a [u8], SocketAddr)>;

    /// The next address where something was refused that was sent there, since nobody has that port, as the network says; None where it said no more.
    fn refused(&mut self) -> Option<SocketAddr>;

    /// Sends a datagram. One that doesn't leave is the same as one that is lost.
    fn send(&self, bytes: &[u8], to: SocketAddr) -> io::Result<()>;

    /// Whether it is at an address that this machine alone reaches.
    fn is_loopback(&self) -> bool;

    /// Whether its address isn't this machine's any more.
    fn is_stranded(&self) -> bool;

    /// How many datagrams the system dropped, since there was no room for them; None where it doesn't say so.
    fn drops(&self) -> Option<u64>;

    /// How many bytes it has room for, of those that were asked for: the system counts its upkeep, too, and gives twice what it permits.
    fn room(&self) -> (usize, usize);
}

pub struct Link {
    socket: UdpSocket,
    /// Whether datagrams may be waiting, and answers of the network to those that were sent.
    is_readable: bool,
    has_errors: bool,
}

impl Link {
    /// Receives at HOST:PORT.
    pub fn bind(at: &str, registry: &Registry, token: Token) -> io::Result<Link> {
        let mut last = io::Error::new(ErrorKind::AddrNotAvailable, "the name has no address");
        for address in at.to_socket_addrs()? {
            match with_room(address) {
                Ok(mut socket) => {
                    registry.register(&mut socket, token, Interest::READABLE)?;
                    if let Err(why) = hear_of_refusals(&socket, address.is_ipv6()) {
                        debug!("the system doesn't tell what is refused: {why}");
                    }
                    return Ok(Link { socket, is_readable: true, has_errors: true });
                }
                Err(error) => last = error,
            }
        }
        Err(last)
    }

    /// Whether it reaches IPv6 addresses, and IPv4 ones by their mapped form.
    pub fn is_ipv6(&self) -> bool {
        self.socket.local_addr().map_or(false, |address| address.is_ipv6())
    }

    pub fn wake(&mut self) {
        (self.is_readable, self.has_errors) = (true, true);
    }
}

impl Network for Link {
    fn is_readable(&self) -> bool {
        self.is_readable
    }

    fn receive<'a>(&mut self, bytes: &'a mut [u8; MAX_DATAGRAM]) -> Option<(&'a [u8], SocketAddr)> {
        let tries = if self.is_readable { MAX_ERRORS } else { 0 };
        for _ in 0..tries {
            match self.socket.recv_from(bytes) {
                Ok((count, from)) => return Some((&bytes[..count], from)),
                Err(error) if error.kind() == ErrorKind::WouldBlock => break,
                // an answer of the network to a datagram that was sent, as "connection refused"
                Err(_) => {}
            }
        }
        self.is_readable = false;
        None
    }

    fn refused(&mut self) -> Option<SocketAddr> {
        let tries = if self.has_errors { MAX_ERRORS } else { 0 };
        for _ in 0..tries {
            match next_error(&self.socket) {
                Ok((Some(at), libc::ECONNREFUSED)) => return Some(at),
                Ok(_) => {}
                Err(_) => {
                    self.has_errors = false;
                    break;
                }
            }
        }
        None
    }

    fn send(&self, bytes: &[u8], to: SocketAddr) -> io::Result<()> {
        let mut sent = self.socket.send_to(bytes, to);
        for _ in 0..MAX_LATE {
            match &sent {
                Err(why) if why.kind() != ErrorKind::WouldBlock => sent = self.socket.send_to(bytes, to),
                _ => break,
            }
        }
        sent.map(drop)
    }

    fn is_loopback(&self) -> bool {
        self.socket.local_addr().map_or(false, |address| address.ip().is_loopback())
    }

    fn is_stranded(&self) -> bool {
        let own = self.socket.local_addr().map(|own| SocketAddr::new(own.ip(), 0));
        let why = own.and_then(UdpSocket::bind).err();
        why.map_or(false, |why| why.kind() == ErrorKind::AddrNotAvailable)
    }

    fn drops(&self) -> Option<u64> {
        kernel::drops(self.socket.local_addr().ok()?)
    }

    fn room(&self) -> (usize, usize) {
        (SockRef::from(&self.socket).recv_buffer_size().unwrap_or(0), 2 * ROOM)
    }
}

/// A socket with more room than the system gives by itself. Where it would have less, as where the default was raised and the limit wasn't, it is made anew.
fn with_room(address: SocketAddr) -> io::Result<UdpSocket> {
    let socket = UdpSocket::bind(address)?;
    if !has_shrunk(SockRef::from(&socket)).unwrap_or(true) {
        return Ok(socket);
    }
    drop(socket);
    UdpSocket::bind(address)
}

/// Asks for room, and answers whether there is less now.
fn has_shrunk(socket: SockRef<'_>) -> io::Result<bool> {
    let before = socket.recv_buffer_size()?;
    socket.set_recv_buffer_size(ROOM)?;
    Ok(socket.recv_buffer_size()? < before)
}

#[cfg(test)]
mod tests {
    use super::*;
    use mio::Poll;
    use std::net::UdpSocket as Peer;
    use std::time::{Duration, Instant};

    fn all_refused(link: &mut Link) -> Vec<SocketAddr> {
        link.wake();
        std::iter::from_fn(|| link.refused()).collect()
    }

    #[test]
    fn what_is_refused_is_told_and_keeps_nothing_else_from_leaving() {
        // a socket of IPv6 reaches IPv4, too; where there is IPv6 at all
        for (own, others) in [("127.0.0.1:0", "127.0.0.1"), ("[::1]:0", "[::1]"), ("[::]:0", "[::ffff:127.0.0.1]")] {
            let poll = Poll::new().unwrap();
            let mut link = match Link::bind(own, poll.registry(), Token(0)) {
                Ok(link) => link,
                Err(_) if own != "127.0.0.1:0" => continue,
                Err(why) => panic!("{why}"),
            };
            let bind = || Peer::bind(if others == "[::1]" { "[::1]:0" } else { "127.0.0.1:0" }).unwrap();
            let (there, gone) = (bind(), bind());
            let at = |peer: &Peer| format!("{others}:{}", peer.local_addr().unwrap().port()).parse::<SocketAddr>().unwrap();
            let (to_there, to_gone) = (at(&there), at(&gone));
            link.send(b"one", to_gone).unwrap();
            assert!(all_refused(&mut link).is_empty(), "somebody has that port");
            drop(gone);
            for _ in 0..3 {
                link.send(b"two", to_gone).unwrap();
                link.send(b"three", to_there).unwrap();
            }
            let (begin, mut refused) = (Instant::now(), Vec::new());
            while refused.len() < 3 && begin.elapsed() < Duration::from_secs(20) {
                refused.extend(all_refused(&mut link));
            }
            assert_eq!(refused, [to_gone; 3], "{own}");
            there.set_read_timeout(Some(Duration::from_secs(20))).unwrap();
            let mut bytes = [0; 16];
            assert!((0..3).all(|_| there.recv(&mut bytes).unwrap() == 5));
            assert!(link.receive(&mut [0; MAX_DATAGRAM]).is_none() && all_refused(&mut link).is_empty());
        }
    }
}
