//! The ports of a core in memory, but for those of leases.

use crate::http::{Page, Pages};
use crate::net::{Network, MAX_DATAGRAM};
use crate::resolver::{Found, Names};
use crate::service::{ClientId, Door, Peer, Stream};
use std::cell::RefCell;
use std::collections::VecDeque;
use std::io::{self, ErrorKind, Read, Write};
use std::net::SocketAddr;
use std::rc::Rc;

/// A machine's end of the network: what came, and what it sent.
#[derive(Default)]
pub(super) struct Cable {
    pub(super) came: VecDeque<(Vec<u8>, SocketAddr)>,
    pub(super) sent: RefCell<Vec<(Vec<u8>, SocketAddr)>>,
    pub(super) refused: VecDeque<SocketAddr>,
}

impl Network for Cable {
    fn is_readable(&self) -> bool {
        !self.came.is_empty()
    }

    fn receive<'a>(&mut self, bytes: &'a mut [u8; MAX_DATAGRAM]) -> Option<(&'a [u8], SocketAddr)> {
        let (datagram, from) = self.came.pop_front()?;
        bytes[..datagram.len()].copy_from_slice(&datagram);
        Some((&bytes[..datagram.len()], from))
    }

    fn refused(&mut self) -> Option<SocketAddr> {
        self.refused.pop_front()
    }

    fn send(&self, bytes: &[u8], to: SocketAddr) -> io::Result<()> {
        self.sent.borrow_mut().push((bytes.to_vec(), to));
        Ok(())
    }

    fn is_loopback(&self) -> bool {
        true
    }

    fn is_stranded(&self) -> bool {
        false
    }

    fn drops(&self) -> Option<u64> {
        None
    }

    fn room(&self) -> (usize, usize) {
        (1, 1)
    }
}

/// What clients of one machine are told, in the order in which it is written: who, and the bytes.
pub(super) type Told = Rc<RefCell<Vec<(usize, Vec<u8>)>>>;

/// A client's connection, as both ends have it.
pub(super) struct Ends {
    pub(super) person: usize,
    /// By what number the core knows it, once it does.
    pub(super) id: Option<ClientId>,
    pub(super) written: VecDeque<u8>,
    /// Whether the client writes no more, and whether it reads no more.
    pub(super) is_ended: bool,
    pub(super) has_hung_up: bool,
    told: Told,
}

#[derive(Clone)]
pub(super) struct Connection(pub(super) Rc<RefCell<Ends>>);

impl Connection {
    pub(super) fn new(person: usize, told: &Told) -> Connection {
        let (written, told) = (VecDeque::new(), Rc::clone(told));
        Connection(Rc::new(RefCell::new(Ends { person, id: None, written, is_ended: false, has_hung_up: false, told })))
    }
}

impl Read for Connection {
    fn read(&mut self, bytes: &mut [u8]) -> io::Result<usize> {
        let mut ends = self.0.borrow_mut();
        match ends.written.is_empty() {
            true if ends.is_ended => Ok(0),
            true => Err(ErrorKind::WouldBlock.into()),
            false => ends.written.read(bytes),
        }
    }
}

impl Write for Connection {
    fn write(&mut self, bytes: &[u8]) -> io::Result<usize> {
        let ends = self.0.borrow();
        if ends.has_hung_up {
            return Err(ErrorKind::BrokenPipe.into());
        }
        ends.told.borrow_mut().push((ends.person, bytes.to_vec()));
        Ok(bytes.len())
    }

    fn flush(&mut self) -> io::Result<()> {
        Ok(())
    }
}

impl Stream for Connection {
    fn peer(&self) -> io::Result<Peer> {
        Err(ErrorKind::Unsupported.into())
    }
}

/// Those who came and weren't taken yet.
#[derive(Clone, Default)]
pub(super) struct Came(pub(super) Rc<RefCell<VecDeque<Connection>>>);

impl Door for Came {
    type Stream = Connection;

    fn next(&mut self) -> io::Result<Connection> {
        self.0.borrow_mut().pop_front().ok_or_else(|| ErrorKind::WouldBlock.into())
    }

    fn admit(&mut self, stream: &mut Connection, id: ClientId) -> io::Result<()> {
        stream.0.borrow_mut().id = Some(id);
        Ok(())
    }

    fn open_again(&mut self) -> io::Result<()> {
        Ok(())
    }
}

/// No names are looked up, for all addresses are spelled out.
pub(super) struct NoNames;

impl Names for NoNames {
    fn is_busy(&self) -> bool {
        false
    }

    fn look_up(&mut self, _at: usize, name: String) {
        panic!("{name} is looked up");
    }

    fn found(&mut self) -> Option<Found> {
        None
    }
}

pub(super) struct NoPages;

impl Pages for NoPages {
    fn next(&self) -> Option<Page> {
        None
    }
}
