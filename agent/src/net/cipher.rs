//! Under a key each datagram is encrypted on its way, by ChaCha20-Poly1305 (RFC 8439): `d6 04`, the node in a byte, 16 bytes that are drawn when its agent
//! begins, the number of the datagram in 8 bytes, and what is encrypted, with a tag of 16 bytes. Each agent that begins has a key of its own, and its numbers
//! rise, so that none is used twice. Whoever has the key may have said it, at any time: what speaks for a node is sealed within.

use hmac::{Hmac, Mac};
use ring::aead::{Aad, LessSafeKey, Nonce, UnboundKey, CHACHA20_POLY1305, NONCE_LEN};
use sha2::Sha256;
use std::collections::HashMap;
use std::io::{self, Read};

const CONTEXT: &[u8] = b"dumgerok datagram 1";
const HEAD: [u8; 2] = [0xd6, 4];
const DRAWN: usize = 16;
const CLEAR: usize = HEAD.len() + 1 + DRAWN + 8;
const TAG: usize = 16;

/// An encrypted datagram is longer by so much.
pub const LONGER: usize = CLEAR + TAG;

/// So many agents' keys are remembered at most: more than there are nodes, which may begin anew.
const MAX_KEYS: usize = 512;

type HmacSha256 = Hmac<Sha256>;
type Drawn = [u8; DRAWN];

/// What this agent encrypts by.
struct Own {
    node: u8,
    drawn: Drawn,
    key: LessSafeKey,
    number: u64,
}

/// Without keys datagrams travel as they are.
#[derive(Default)]
pub struct Cipher {
    own: Option<Own>,
    /// Of each key of the cluster the one by which those of agents are made; the first one encrypts, all decrypt.
    roots: Vec<HmacSha256>,
    /// The keys of agents that were heard, each with the place of the cluster's key by which it was made.
    heard: HashMap<Drawn, (usize, LessSafeKey)>,
}

impl Cipher {
    /// The cipher of a node's agent that begins, by the keys of its file, which are bound to the cluster's name and its number of nodes.
    pub fn begin(secrets: &[[u8; 32]], cluster: &str, nodes: usize, node: u8) -> io::Result<Cipher> {
        let roots: Vec<HmacSha256> = secrets.iter().map(|secret| root_of(secret, cluster, nodes)).collect();
        let mut drawn = Drawn::default();
        std::fs::File::open("/dev/urandom")?.read_exact(&mut drawn)?;
        let own = roots.first().and_then(|root| key_of(root, &drawn)).map(|key| Own { node, drawn, key, number: 0 });
        Ok(Cipher { own, roots, heard: HashMap::new() })
    }

    /// The same by what is given in place of what was drawn, so that what travels is the same in each run.
    #[cfg(test)]
    pub(crate) fn drawn_as(mut self, number: u64) -> Cipher {
        if let (Some(own), Some(root)) = (&mut self.own, self.roots.first()) {
            own.drawn = u128::from(number).to_be_bytes();
            own.key = key_of(root, &own.drawn).unwrap();
        }
        self
    }

    /// Whether what is sent is encrypted.
    pub fn encrypts(&self) -> bool {
        self.own.is_some()
    }

    /// A datagram as it travels.
    pub fn encrypt(&mut self, datagram: &[u8]) -> Option<Vec<u8>> {
        let own = match &mut self.own {
            Some(own) => own,
            None => return Some(datagram.to_vec()),
        };
        own.number += 1;
        let mut bytes = [&HEAD[..], &[own.node], &own.drawn, &own.number.to_be_bytes()].concat();
        let mut hidden = datagram.to_vec();
        let tag = own.key.seal_in_place_separate_tag(nonce_of(own.number), Aad::from(&bytes), &mut hidden).ok()?;
        bytes.extend(hidden);
        bytes.extend(tag.as_ref());
        Some(bytes)
    }

    /// The datagram that was encrypted by an agent under one of the keys, unaltered, and the place of that key.
    pub fn decrypt(&mut self, bytes: &[u8]) -> Option<(Vec<u8>, usize)> {
        let drawn: Drawn = bytes.strip_prefix(&HEAD)?.get(1..1 + DRAWN)?.try_into().ok()?;
        if let Some((place, key)) = self.heard.get(&drawn) {
            return Some((decrypted(key, bytes)?, *place));
        }
        let of_root = |(place, root)| {
            let key = key_of(root, &drawn)?;
            Some((decrypted(&key, bytes)?, place, key))
        };
        let (datagram, place, key) = self.roots.iter().enumerate().find_map(of_root)?;
        if self.heard.len() >= MAX_KEYS {
            self.heard.clear();
        }
        self.heard.insert(drawn, (place, key));
        Some((datagram, place))
    }
}

/// Whether a datagram says to be encrypted.
pub fn is_encrypted(bytes: &[u8]) -> bool {
    bytes.starts_with(&HEAD)
}

fn decrypted(key: &LessSafeKey, bytes: &[u8]) -> Option<Vec<u8>> {
    let (front, hidden) = bytes.split_at(CLEAR.min(bytes.len()));
    let number = u64::from_be_bytes(front.get(CLEAR - 8..)?.try_into().ok()?);
    let mut hidden = hidden.to_vec();
    let length = key.open_in_place(nonce_of(number), Aad::from(front), &mut hidden).ok()?.len();
    hidden.truncate(length);
    Some(hidden)
}

fn nonce_of(number: u64) -> Nonce {
    let mut nonce = [0; NONCE_LEN];
    nonce[NONCE_LEN - 8..].copy_from_slice(&number.to_be_bytes());
    Nonce::assume_unique_for_key(nonce)
}

/// By what the keys of agents are made, under a key of a cluster.
fn root_of(secret: &[u8; 32], cluster: &str, nodes: usize) -> HmacSha256 {
    let about = [CONTEXT, &[nodes as u8], cluster.as_bytes()].concat();
    keyed(&keyed(secret).chain_update(about).finalize().into_bytes())
}

fn key_of(root: &HmacSha256, drawn: &Drawn) -> Option<LessSafeKey> {
    let key = root.clone().chain_update(drawn).finalize().into_bytes();
    UnboundKey::new(&CHACHA20_POLY1305, &key).ok().map(LessSafeKey::new)
}

fn keyed(key: &[u8]) -> HmacSha256 {
    HmacSha256::new_from_slice(key).expect("HMAC takes a key of any length")
}

#[cfg(test)]
mod tests {
    use super::*;
    use crate::chance::{Chance, TURNS};

    const ONE: [u8; 32] = [1; 32];
    const TWO: [u8; 32] = [2; 32];

    fn cipher(secrets: &[[u8; 32]]) -> Cipher {
        Cipher::begin(secrets, "prod", 3, 2).unwrap()
    }

    #[test]
    fn what_was_encrypted_is_decrypted_and_nothing_else() {
        let (mut from, mut to) = (cipher(&[ONE]), cipher(&[ONE]));
        let sent = from.encrypt(b"hello, you there").unwrap();
        assert_eq!((sent.len(), is_encrypted(&sent), sent[2]), (16 + LONGER, true, 2));
        assert_eq!(to.decrypt(&sent), Some((b"hello, you there".to_vec(), 0)));
        assert_eq!(to.decrypt(&sent), Some((b"hello, you there".to_vec(), 0)), "by the key that is remembered");
        for at in 0..sent.len() * 8 {
            let mut spoiled = sent.clone();
            spoiled[at / 8] ^= 1 << (at % 8);
            assert_eq!(to.decrypt(&spoiled), None, "bit {at}");
        }
        for length in 0..sent.len() {
            assert_eq!(to.decrypt(&sent[..length]), None);
        }
    }

    #[test]
    fn nobody_else_reads_it() {
        let mut from = cipher(&[ONE]);
        let sent = from.encrypt(b"hello, you there").unwrap();
        assert!(sent.windows(8).all(|window| !b"hello, you there".windows(8).any(|part| part == window)));
        let others = [Cipher::begin(&[ONE], "test", 3, 2), Cipher::begin(&[ONE], "prod", 4, 2), Cipher::begin(&[TWO], "prod", 3, 2)];
        for other in others {
            assert_eq!(other.unwrap().decrypt(&sent), None);
        }
    }

    #[test]
    fn no_two_datagrams_are_encrypted_alike() {
        let (mut one, mut two) = (cipher(&[ONE]), cipher(&[ONE]));
        let sent: Vec<Vec<u8>> = (0..3).flat_map(|_| [one.encrypt(b"the same"), two.encrypt(b"the same")]).flatten().collect();
        let different: std::collections::HashSet<&[u8]> = sent.iter().map(|bytes| &bytes[CLEAR..]).collect();
        assert_eq!((sent.len(), different.len()), (6, 6));
    }

    #[test]
    fn a_second_key_only_decrypts() {
        let (mut both, mut one, mut two) = (cipher(&[ONE, TWO]), cipher(&[ONE]), cipher(&[TWO]));
        assert_eq!(both.decrypt(&two.encrypt(b"x").unwrap()), Some((b"x".to_vec(), 1)));
        let sent = both.encrypt(b"x").unwrap();
        assert!(one.decrypt(&sent).is_some() && two.decrypt(&sent).is_none());
    }

    #[test]
    fn without_keys_nothing_is_encrypted() {
        let mut none = Cipher::default();
        assert_eq!((none.encrypts(), none.encrypt(b"x").as_deref()), (false, Some(&b"x"[..])));
        assert_eq!(none.decrypt(&cipher(&[ONE]).encrypt(b"x").unwrap()), None);
    }

    #[test]
    fn nothing_spoiled_is_decrypted_and_few_agents_are_remembered() {
        let (mut chance, secret) = (Chance::of(10), [[9; 32]]);
        let mut to = Cipher::begin(&secret, "prod", 3, 1).unwrap();
        for _ in 0..TURNS / 3 {
            let mut from = Cipher::begin(&secret, "prod", 3, 2).unwrap();
            let clear = chance.bytes(100);
            let right = from.encrypt(&clear).unwrap();
            let odd = chance.odd(&[&right], 100);
            assert_eq!(to.decrypt(&odd).is_some(), odd == right);
            assert_eq!(to.decrypt(&right), Some((clear, 0)));
            assert!(to.heard.len() <= MAX_KEYS);
        }
    }
}
