//! Messages of leases, in the bytes of `invite lease`. Their seal is a stand-in.

/// A message is sealed by so many bytes.
const SEAL: usize = 8;

/// Nobody else knows how to make it.
fn seal_of(message: &[u8]) -> [u8; SEAL] {
    let fold = |seal: u64, byte: &u8| (seal ^ u64::from(*byte)).wrapping_mul(0x0100_0000_01b3).rotate_left(19);
    message.iter().fold(0x1ea5e, fold).to_be_bytes()
}

/// Who asks for a lease: a client of a machine's process.
#[derive(Clone, Copy, Debug, PartialEq, Eq)]
pub(super) struct Client {
    pub(super) machine: u8,
    pub(super) process: u64,
    pub(super) user: u64,
}

#[derive(Clone, Copy, Debug, PartialEq, Eq)]
pub(super) enum Body {
    Request { number: u64, keeps: u64, voters: u64 },
    Grant { number: u64 },
    Refusal { number: u64, reason: u8, lasts: u64 },
    Release,
}

#[derive(Clone, Debug, PartialEq, Eq)]
pub(super) struct Message {
    pub(super) client: Client,
    pub(super) voter: u8,
    pub(super) epoch: u64,
    pub(super) body: Body,
    pub(super) name: String,
}

impl Message {
    pub(super) fn encode(&self, is_sealed: bool) -> Vec<u8> {
        let (kind, body) = match self.body {
            Body::Request { number, keeps, voters } => (1, [number, keeps, voters].map(u64::to_be_bytes).concat()),
            Body::Grant { number } => (2, number.to_be_bytes().to_vec()),
            Body::Refusal { number, reason, lasts } => (3, [&number.to_be_bytes()[..], &[reason], &lasts.to_be_bytes()].concat()),
            Body::Release => (4, Vec::new()),
        };
        let Client { machine, process, user } = self.client;
        let client = [process, user].map(u64::to_be_bytes).concat();
        let mut bytes = [&[1, kind, machine][..], &client, &[self.voter], &self.epoch.to_be_bytes(), &body, self.name.as_bytes()].concat();
        if is_sealed {
            bytes.extend(seal_of(&bytes));
        }
        bytes
    }

    pub(super) fn decode(bytes: &[u8], is_sealed: bool) -> Option<Message> {
        let (bytes, seal) = bytes.split_at(bytes.len() - if is_sealed { SEAL.min(bytes.len()) } else { 0 });
        if is_sealed && seal != seal_of(bytes) {
            return None;
        }
        let mut left = bytes.strip_prefix(&[1])?;
        let (kind, machine, process, user) = (byte(&mut left)?, byte(&mut left)?, number(&mut left)?, number(&mut left)?);
        let (voter, epoch) = (byte(&mut left)?, number(&mut left)?);
        let body = match kind {
            1 => Body::Request { number: number(&mut left)?, keeps: number(&mut left)?, voters: number(&mut left)? },
            2 => Body::Grant { number: number(&mut left)? },
            3 => Body::Refusal { number: number(&mut left)?, reason: byte(&mut left)?, lasts: number(&mut left)? },
            4 => Body::Release,
            _ => return None,
        };
        let name = String::from_utf8(left.to_vec()).ok()?;
        Some(Message { client: Client { machine, process, user }, voter, epoch, body, name })
    }
}

fn byte(left: &mut &[u8]) -> Option<u8> {
    let (first, rest) = left.split_first()?;
    *left = rest;
    Some(*first)
}

fn number(left: &mut &[u8]) -> Option<u64> {
    let bytes = left.get(..8)?.try_into().ok()?;
    *left = &left[8..];
    Some(u64::from_be_bytes(bytes))
}
