//! A message as a trace has it: without its seal, and with the counts and ids that began when the record did.

/// What a node's file kept when its record began: its count, less the one of the group that it began then, and the id of its next job.
#[derive(Clone, Copy, Debug, Default)]
pub struct Begin {
    pub count: u64,
    pub id: u64,
}

const HEAD: usize = 6;

/// Takes a begin off the number of 8 bytes at a place. A number before the begin has none; what becomes of it is no number of the trace.
fn lower(bytes: &mut [u8], at: usize, begin: u64) {
    if let Some(field) = bytes.get_mut(at..at + 8) {
        let mut number = [0; 8];
        number.copy_from_slice(field);
        field.copy_from_slice(&u64::from_be_bytes(number).wrapping_sub(begin).to_be_bytes());
    }
}

/// The digits of a message of the record, as the trace has them. What is no message stays as it is.
pub fn message_of(digits: &str, begins: &[Begin]) -> String {
    let mut bytes = match hex::decode(digits) {
        Ok(bytes) if bytes.len() >= HEAD => bytes,
        _ => return digits.to_string(),
    };
    let length = usize::from(bytes[4]) << 8 | usize::from(bytes[5]);
    bytes.truncate(HEAD + length);
    let begin = |node: Option<&u8>| node.and_then(|node| begins.get(usize::from(*node))).copied().unwrap_or_default();
    let (kind, sender, receiver) = (bytes[1], begin(bytes.get(2)), begin(bytes.get(3)));
    let creator = begin(bytes.get(HEAD));
    match kind {
        // of a Work the group, and the id that its sender gave the job
        9 | 11 => {
            lower(&mut bytes, HEAD + 1, creator.count);
            lower(&mut bytes, HEAD + 9, sender.id);
        }
        10 => lower(&mut bytes, HEAD, receiver.id),
        // the group, where the body is long enough to name one
        _ => lower(&mut bytes, HEAD + 1, creator.count),
    }
    hex::encode(bytes)
}

#[cfg(test)]
mod tests {
    use super::*;

    #[test]
    fn counts_and_ids_begin_with_the_record_and_seals_go() {
        let begins = [Begin { count: 16, id: 3 }, Begin { count: 1, id: 0 }];
        let rows = [
            ("010100010000", "010100010000"),
            ("0102000100010100000000000000ff", "01020001000101"),
            ("01080001000900000000000000001200ff", "010800010009000000000000000002"),
            ("010601000009010000000000000002", "010601000009010000000000000001"),
            (
                "01090001001600000000000000001200000000000000050100026869",
                "01090001001600000000000000000200000000000000020100026869",
            ),
            ("010a010000080000000000000003", "010a010000080000000000000000"),
        ];
        for (recorded, traced) in rows {
            assert_eq!(message_of(recorded, &begins), traced, "{recorded}");
        }
    }
}
