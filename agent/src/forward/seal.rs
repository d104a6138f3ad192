//! Seals datagrams of agents by HMAC-SHA256, under keys of their own that are drawn from the cluster's.

use super::key_file::{read_keys, KeyError};
use hmac::{Hmac, Mac};
use sha2::Sha256;
use std::path::Path;

const CONTEXT: &[u8] = b"dumgerok agent 1";
const FINGERPRINT: &[u8] = b"dumgerok fingerprint 1";
const TAG: usize = 32;

type HmacSha256 = Hmac<Sha256>;

/// Without keys datagrams are carried as they are.
#[derive(Default)]
pub struct Seal {
    /// The first one seals, all open.
    keys: Vec<HmacSha256>,
    /// Of each a name by which it is told from others, and that says nothing of it.
    pub fingerprints: Vec<String>,
}

impl Seal {
    /// Reads the cluster's key file. The keys are bound to the cluster's name and its number of nodes.
    pub fn read(path: &Path, cluster: &str, nodes: usize) -> Result<Seal, KeyError> {
        Seal::of_keys(&read_keys(path)?, cluster, nodes)
    }

    fn of_keys(keys: &[[u8; 32]], cluster: &str, nodes: usize) -> Result<Seal, KeyError> {
        Ok(Seal {
            keys: keys.iter().map(|secret| bound(secret, cluster, nodes)).collect::<Result<_, _>>()?,
            fingerprints: keys.iter().map(fingerprint).collect::<Result<_, _>>()?,
        })
    }

    pub fn seal(&self, mut bytes: Vec<u8>) -> Vec<u8> {
        if let Some(key) = self.keys.first() {
            let tag = key.clone().chain_update(&bytes).finalize().into_bytes();
            bytes.extend_from_slice(&tag);
        }
        bytes
    }

    /// The bytes that were sealed, where one of the keys sealed them.
    pub fn open<'a>(&self, bytes: &'a [u8]) -> Option<&'a [u8]> {
        if self.keys.is_empty() {
            return Some(bytes);
        }
        let (body, tag) = bytes.split_at(bytes.len().checked_sub(TAG)?);
        let is_sealed = |key: &HmacSha256| key.clone().chain_update(body).verify_slice(tag).is_ok();
        self.keys.iter().any(is_sealed).then_some(body)
    }
}

/// The key of a cluster's agents, by its secret.
fn bound(secret: &[u8; 32], cluster: &str, nodes: usize) -> Result<HmacSha256, KeyError> {
    let about = [CONTEXT, &[nodes as u8], cluster.as_bytes()].concat();
    keyed(&keyed(secret)?.chain_update(about).finalize().into_bytes())
}

fn fingerprint(secret: &[u8; 32]) -> Result<String, KeyError> {
    Ok(hex::encode(&keyed(secret)?.chain_update(FINGERPRINT).finalize().into_bytes()[..4]))
}

fn keyed(key: &[u8]) -> Result<HmacSha256, KeyError> {
    HmacSha256::new_from_slice(key).map_err(|why| KeyError::Unreadable(why.to_string()))
}

#[cfg(test)]
mod tests {
    use super::*;
    use crate::chance::{Chance, TURNS};
    use crate::forward::key_file::keys_of;

    impl Seal {
        fn of(text: &str, cluster: &str, nodes: usize) -> Result<Seal, KeyError> {
            Seal::of_keys(&keys_of(text)?, cluster, nodes)
        }
    }

    const ONE: &str = "000102030405060708090a0b0c0d0e0f101112131415161718191a1b1c1d1e1f\n";
    const TWO: &str = "ff0102030405060708090a0b0c0d0e0f101112131415161718191a1b1c1d1e1f\n";

    #[test]
    fn what_was_sealed_is_opened_and_nothing_else() {
        let seal = Seal::of(ONE, "prod", 3).unwrap();
        let sealed = seal.seal(b"hello".to_vec());
        assert_eq!(seal.open(&sealed), Some(&b"hello"[..]));
        for at in 0..sealed.len() * 8 {
            let mut spoiled = sealed.clone();
            spoiled[at / 8] ^= 1 << (at % 8);
            assert_eq!(seal.open(&spoiled), None);
        }
        assert_eq!(seal.open(&sealed[..31]), None);
        for other in [Seal::of(TWO, "prod", 3), Seal::of(ONE, "test", 3), Seal::of(ONE, "prod", 4)] {
            assert_eq!(other.unwrap().open(&sealed), None);
        }
    }

    #[test]
    fn keys_are_told_from_each_other() {
        let both = Seal::of(&format!("{ONE}{TWO}"), "prod", 3).unwrap().fingerprints;
        let other = Seal::of(TWO, "test", 5).unwrap().fingerprints;
        assert!(both.len() == 2 && both[0] != both[1] && both[1] == other[0], "of the key alone");
        assert!(both.iter().all(|name| name.len() == 8 && !ONE.contains(name) && !TWO.contains(name)));
    }

    #[test]
    fn a_second_key_is_only_opened_by() {
        let both = Seal::of(&format!("{ONE}{TWO}"), "prod", 3).unwrap();
        let (one, two) = (Seal::of(ONE, "prod", 3).unwrap(), Seal::of(TWO, "prod", 3).unwrap());
        assert!(both.open(&two.seal(b"x".to_vec())).is_some());
        assert!(one.open(&both.seal(b"x".to_vec())).is_some());
        assert!(two.open(&both.seal(b"x".to_vec())).is_none());
    }

    #[test]
    fn nothing_spoiled_is_opened() {
        let (mut chance, seal) = (Chance::of(9), Seal::of(ONE, "prod", 3).unwrap());
        for _ in 0..TURNS {
            let sealed = seal.seal(chance.bytes(100));
            let odd = chance.odd(&[&sealed], 100);
            assert_eq!(seal.open(&odd).is_some(), odd == sealed);
        }
    }
}
