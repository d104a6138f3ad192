//! Messages of leases, as they travel between agents: behind a head, and without a key behind the mark of the sender's cluster. Under a key the process of
//! leases seals them itself.

use super::about::Mark;

/// A datagram with a message of leases begins so.
const HEAD: [u8; 2] = [0xd6, 3];

/// Where a message has its kind, the machine of the client, and that of the voter; the kinds that a client sends.
const KIND: usize = 1;
const CLIENT: usize = 2;
const VOTER: usize = 19;
const OF_CLIENTS: [u8; 2] = [1, 4];

/// A message as it travels; with the mark where there is no key.
pub fn with_head(message: &[u8], mark: Option<Mark>) -> Vec<u8> {
    [&HEAD[..], mark.as_ref().map_or(&[], |mark| &mark[..]), message].concat()
}

/// The mark and the message of a datagram that has one; no mark where there is a key.
pub fn without_head(bytes: &[u8], has_key: bool) -> Option<(Option<Mark>, &[u8])> {
    let behind = bytes.strip_prefix(&HEAD)?;
    if has_key {
        return Some((None, behind));
    }
    let (mark, message) = behind.split_at(Mark::default().len().min(behind.len()));
    Some((Some(mark.try_into().ok()?), message))
}

/// Whether a datagram has a message of leases.
pub fn is_of_leases(bytes: &[u8]) -> bool {
    bytes.starts_with(&HEAD)
}

/// The machine that a message without a seal says to be of.
pub fn sender(message: &[u8]) -> Option<u8> {
    let is_of_client = OF_CLIENTS.contains(message.get(KIND)?);
    message.get(if is_of_client { CLIENT } else { VOTER }).copied()
}

#[cfg(test)]
mod tests {
    use super::*;
    use crate::chance::{Chance, TURNS};

    #[test]
    fn a_message_travels_behind_its_head() {
        let mark = [7; 8];
        let plain = with_head(b"message", Some(mark));
        assert!(is_of_leases(&plain) && !is_of_leases(&plain[1..]));
        assert_eq!(without_head(&plain, false), Some((Some(mark), &b"message"[..])));
        assert_eq!(without_head(&with_head(b"sealed", None), true), Some((None, &b"sealed"[..])));
        assert_eq!((without_head(&plain[..9], false), without_head(&plain[1..], true)), (None, None));
    }

    #[test]
    fn a_request_and_a_release_are_of_the_client_and_the_others_of_the_voter() {
        let message = |kind: u8| (0..28).map(|at| if at == KIND { kind } else { at as u8 }).collect::<Vec<u8>>();
        assert_eq!([1, 2, 3, 4].map(|kind| sender(&message(kind))), [Some(2), Some(19), Some(19), Some(2)]);
        assert_eq!((sender(&[1]), sender(&message(2)[..19])), (None, None));
    }

    #[test]
    fn what_is_taken_off_its_head_was_behind_it() {
        let mut chance = Chance::of(8);
        for _ in 0..TURNS {
            let message = chance.bytes(60);
            let mark = chance.one_in(2).then(|| chance.next().to_be_bytes());
            let right = with_head(&message, mark);
            assert_eq!(without_head(&right, mark.is_none()), Some((mark, &message[..])));
            let (odd, has_key) = (chance.odd(&[&right], 60), chance.one_in(2));
            if let Some((mark, message)) = without_head(&odd, has_key) {
                assert_eq!(with_head(message, mark), odd);
                sender(message);
            }
        }
    }
}
