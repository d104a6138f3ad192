//! Who is at the other end of a client's connection.

use crate::names;
use crate::system_calls::{groups_of_peer, peer_of};
use rustix::process::geteuid;
use std::fmt::{self, Display, Formatter};
use std::io;
use std::os::unix::io::AsRawFd;

/// The user, the process and the groups of a client as it connected: what it is since then, or who has its socket now, changes nothing.
#[derive(Clone, Debug, PartialEq, Eq)]
pub struct Peer {
    pub user: u32,
    pub process: i32,
    groups: Vec<u32>,
}

impl Peer {
    pub fn of(socket: &impl AsRawFd) -> io::Result<Peer> {
        let found = peer_of(socket)?;
        let mut groups = groups_of_peer(socket)?;
        groups.push(found.gid);
        Ok(Peer { user: found.uid, process: found.pid, groups })
    }

    /// Whether it may do what is left to a group: root may, and so may the agent's own user.
    pub fn is_admin(&self, group: u32) -> bool {
        self.user == 0 || self.user == geteuid().as_raw() || self.groups.contains(&group)
    }
}

impl Display for Peer {
    fn fmt(&self, out: &mut Formatter) -> fmt::Result {
        write!(out, "user {}, process {}", names::user(self.user), self.process)
    }
}

#[cfg(test)]
mod tests {
    use super::*;
    use std::os::unix::net::UnixStream;

    #[test]
    fn a_client_is_known_by_its_socket() {
        let (one, _other) = UnixStream::pair().unwrap();
        let peer = Peer::of(&one).unwrap();
        assert_eq!((peer.user, peer.process), (geteuid().as_raw(), std::process::id() as i32));
        assert!(peer.is_admin(u32::MAX), "the agent's own user");
        assert!(Peer::of(&std::fs::File::open("/dev/null").unwrap()).is_err());
    }

    #[test]
    fn an_admin_is_root_or_of_the_group() {
        let is_admin = |user, groups: &[u32]| Peer { user, process: 1, groups: groups.to_vec() }.is_admin(4);
        let another = geteuid().as_raw() + 1;
        assert_eq!([is_admin(0, &[]), is_admin(another, &[7, 4]), is_admin(another, &[7]), is_admin(another, &[])], [true, true, false, false]);
    }
}
