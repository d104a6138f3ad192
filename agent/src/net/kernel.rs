//! What the system drops of a socket's datagrams, before the agent sees them: it has its own count of them.

use std::fs;
use std::net::{IpAddr, SocketAddr};

/// How many datagrams to this address were dropped since its socket is there; None where the system doesn't say so.
pub fn drops(at: SocketAddr) -> Option<u64> {
    let path = if at.is_ipv4() { "/proc/net/udp" } else { "/proc/net/udp6" };
    drops_in(&fs::read_to_string(path).ok()?, at)
}

/// Its second word is the address in hex digits, of which each four bytes stand as a number of this machine; its last one is the count.
fn drops_in(text: &str, at: SocketAddr) -> Option<u64> {
    let wanted = format!("{}:{:04X}", digits(at.ip()), at.port());
    let words = text.lines().map(|line| line.split_whitespace().collect::<Vec<_>>());
    let of_socket = words.into_iter().find(|words| words.get(1) == Some(&wanted.as_str()))?;
    of_socket.last()?.parse().ok()
}

fn digits(ip: IpAddr) -> String {
    let bytes = match ip {
        IpAddr::V4(ip) => ip.octets().to_vec(),
        IpAddr::V6(ip) => ip.octets().to_vec(),
    };
    let number = |four: &[u8]| format!("{:08X}", u32::from_ne_bytes([four[0], four[1], four[2], four[3]]));
    bytes.chunks_exact(4).map(number).collect()
}

#[cfg(test)]
mod tests {
    use super::*;
    use std::net::UdpSocket;

    #[test]
    fn the_count_of_a_socket_is_found() {
        let text = "  sl  local_address rem_address   st tx_queue rx_queue tr tm->when retrnsmt   uid  timeout inode ref pointer drops\n\
            68: 0100007F:1BBC 00000000:0000 07 00000000:00000000 00:00000000 00000000     0        0 1 2 0000000000000000 49918\n";
        let at = |text: &str| text.parse::<SocketAddr>().unwrap();
        if cfg!(target_endian = "little") {
            assert_eq!(drops_in(text, at("127.0.0.1:7100")), Some(49_918));
            assert_eq!(digits(at("[::1]:1").ip()), "00000000000000000000000001000000");
        }
        assert_eq!((drops_in(text, at("127.0.0.1:7101")), drops_in("", at("127.0.0.1:7100"))), (None, None));
        for address in ["127.0.0.1:0", "[::1]:0"] {
            // where there is IPv6 at all
            if let Ok(socket) = UdpSocket::bind(address) {
                assert_eq!(drops(socket.local_addr().unwrap()), Some(0), "{address}");
            }
        }
    }
}
