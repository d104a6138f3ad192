//! Calls of the system to which no library of Debian 12 gives a safe form: all that is unsafe in the agent stands here.
#![allow(unsafe_code)]

use rustix::process::{Pid, RawPid};
use socket2::SockAddr;
use std::io;
use std::mem::{size_of, size_of_val, MaybeUninit};
use std::net::SocketAddr;
use std::os::unix::io::AsRawFd;
use std::{ptr, slice};

/// A process is of no more groups than the kernel has room for (NGROUPS_MAX).
const MAX_GROUPS: usize = 65_536;

/// All threads take memory from one place: a few that do so once in a while need none each, which no other would use.
pub fn share_memory() {
    // SAFETY: it takes numbers alone; where it does nothing each thread has a place of its own
    unsafe { libc::mallopt(libc::M_ARENA_MAX, 1) };
}

/// Gives the system back what memory isn't used, as that in which the configuration was read.
pub fn give_back_memory() {
    // SAFETY: it takes a number, and touches nothing that is in use
    unsafe { libc::malloc_trim(0) };
}

/// Whatever descends from this process, and loses its parent, becomes a child of it.
pub fn adopt_orphans() -> io::Result<()> {
    // SAFETY: it takes numbers alone
    done(unsafe { libc::prctl(libc::PR_SET_CHILD_SUBREAPER, 1, 0, 0, 0) })
}

/// This process is killed once the thread that started it is gone.
pub fn die_with_parent() -> io::Result<()> {
    // SAFETY: it takes numbers alone
    done(unsafe { libc::prctl(libc::PR_SET_PDEATHSIG, libc::SIGKILL, 0, 0, 0) })
}

/// This process has its turn before all that have no turn of this kind (SCHED_FIFO), where that is permitted. What it starts has none.
pub fn run_first() -> io::Result<()> {
    let priority = libc::sched_param { sched_priority: 1 };
    // SAFETY: it reads the one that it is given
    done(unsafe { libc::sched_setscheduler(0, libc::SCHED_FIFO | libc::SCHED_RESET_ON_FORK, &priority) })
}

/// The process of a number that /proc has.
pub fn pid_of(number: RawPid) -> Option<Pid> {
    // SAFETY: the kernel gave the number; that of a process that ended meanwhile is an error of the call that takes it
    unsafe { Pid::from_raw(number) }
}

/// Whether this machine's clock was ever synchronized: false where nothing has set it by another one since the machine began, true where something has, or the
/// kernel doesn't say.
pub fn is_clock_synchronized() -> bool {
    let mut asked = MaybeUninit::<libc::timex>::zeroed();
    // SAFETY: zeros are a `timex`, whose fields are numbers; with `modes` zero the call sets nothing, and it writes into this one alone
    let (state, said) = unsafe { (libc::adjtimex(asked.as_mut_ptr()), asked.assume_init()) };
    state < 0 || said.status & libc::STA_UNSYNC == 0
}

/// The user, the group and the process at the other end of a Unix socket, as it connected.
pub fn peer_of(socket: &impl AsRawFd) -> io::Result<libc::ucred> {
    let mut found = libc::ucred { pid: 0, uid: 0, gid: 0 };
    option_of(socket, libc::SO_PEERCRED, slice::from_mut(&mut found))?;
    Ok(found)
}

/// The further groups of that process.
pub fn groups_of_peer(socket: &impl AsRawFd) -> io::Result<Vec<u32>> {
    let mut groups = vec![0; MAX_GROUPS];
    let count = option_of(socket, libc::SO_PEERGROUPS, &mut groups)?;
    groups.truncate(count);
    Ok(groups)
}

/// Reads an option of a socket; how many numbers, or structures of numbers, it has.
fn option_of<T>(socket: &impl AsRawFd, option: libc::c_int, into: &mut [T]) -> io::Result<usize> {
    let mut size = libc::socklen_t::try_from(size_of_val(into)).map_err(|_| io::Error::from(io::ErrorKind::InvalidInput))?;
    // SAFETY: the kernel writes no more than `size` bytes into `into`; it is called for numbers alone, of which any bytes are some
    done(unsafe { libc::getsockopt(socket.as_raw_fd(), libc::SOL_SOCKET, option, into.as_mut_ptr().cast(), &mut size) })?;
    Ok(size as usize / size_of::<T>())
}

/// Has the system keep what the network answers to datagrams of a socket.
pub fn hear_of_refusals(socket: &impl AsRawFd, is_ipv6: bool) -> io::Result<()> {
    let set = |level, option| {
        let on: libc::c_int = 1;
        // SAFETY: the kernel reads the one number that it is given
        done(unsafe { libc::setsockopt(socket.as_raw_fd(), level, option, (&on as *const libc::c_int).cast(), size_of_val(&on) as libc::socklen_t) })
    };
    // a socket of IPv6 reaches IPv4 addresses, too
    set(libc::SOL_IP, libc::IP_RECVERR)?;
    if is_ipv6 { set(libc::SOL_IPV6, libc::IPV6_RECVERR) } else { Ok(()) }
}

/// The next answer of the network to a datagram of a socket: where that was sent, and the number of the error; 0 where the network didn't say it. An error
/// where there is none.
pub fn next_error(socket: &impl AsRawFd) -> io::Result<(Option<SocketAddr>, i32)> {
    let mut control = [0_u64; 64];
    // SAFETY: zeros are a `msghdr`, whose pointers may be null where their sizes are zero; the kernel writes no more than the sizes say into the address and the
    // control bytes, which both outlive the call. The address is as long as the kernel says, and one of the internet has any bytes
    let (number, address) = unsafe {
        SockAddr::init(|address, length| {
            let mut message = MaybeUninit::<libc::msghdr>::zeroed().assume_init();
            (message.msg_name, message.msg_namelen) = (address.cast(), *length);
            (message.msg_control, message.msg_controllen) = (control.as_mut_ptr().cast(), size_of_val(&control));
            if libc::recvmsg(socket.as_raw_fd(), &mut message, libc::MSG_ERRQUEUE | libc::MSG_DONTWAIT) < 0 {
                return Err(io::Error::last_os_error());
            }
            *length = message.msg_namelen;
            Ok(number_of(&message))
        })?
    };
    Ok((address.as_socket(), number))
}

/// The number of the error that the network answered, by the control bytes of a message that the kernel wrote.
///
/// # Safety
///
/// The message has what the kernel wrote into it.
unsafe fn number_of(message: &libc::msghdr) -> i32 {
    let mut at = libc::CMSG_FIRSTHDR(message);
    while let Some(head) = at.as_ref() {
        let is_error = matches!((head.cmsg_level, head.cmsg_type), (libc::SOL_IP, libc::IP_RECVERR) | (libc::SOL_IPV6, libc::IPV6_RECVERR));
        if is_error && head.cmsg_len >= libc::CMSG_LEN(size_of::<libc::sock_extended_err>() as u32) as usize {
            let error: libc::sock_extended_err = ptr::read_unaligned(libc::CMSG_DATA(head).cast());
            if [libc::SO_EE_ORIGIN_ICMP, libc::SO_EE_ORIGIN_ICMP6].contains(&error.ee_origin) {
                return error.ee_errno as i32;
            }
        }
        at = libc::CMSG_NXTHDR(message, at);
    }
    0
}

fn done(status: i32) -> io::Result<()> {
    match status {
        0 => Ok(()),
        _ => Err(io::Error::last_os_error()),
    }
}
