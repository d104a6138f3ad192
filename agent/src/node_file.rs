//! What the agent does with the node's file by itself: it drops the system's cache of it, and reads how many jobs it has room for.

use rustix::fs::{fadvise, Advice};
use std::fs::File;
use std::io;
use std::os::unix::fs::FileExt;
use std::path::Path;

/// Behind the last sector stands a label: `dumgerok`, the version of the format, the node, the number of places, the stride, and of version 2 the mark of the
/// cluster and the number of slots.
const LABEL: u64 = 32;
const OLDER_LABEL: u64 = 16;
const HEADS: [&[u8]; 2] = [b"dumgerok\x01", b"dumgerok\x02"];
const PLACES: usize = 10;
const STRIDE: usize = 11;

const SECTOR: u64 = 512;

/// Sectors beside those of the journal's slots, and those of a slot in both areas.
const OTHER_SECTORS: u64 = 8;
const SECTORS_OF_SLOT: u64 = 4;

/// Has the system let go of what it keeps of a file in memory, so that it is read from the device again: where a device failed to write it out, that may
/// be what the device never had, and a node that read it would go on over what the next loss of power takes back. What isn't written out yet stays, and
/// is written.
pub fn drop_cache(file: &File) -> io::Result<()> {
    fadvise(file, 0, 0, Advice::DontNeed)?;
    Ok(())
}

/// How many slots the journal of a node's file has; None where it can't be told.
pub fn slots(path: &Path) -> Option<u64> {
    let (label, sectors_end) = label_of(path)?;
    let sectors = sectors_end / stride_of(&label)?;
    sectors.checked_sub(OTHER_SECTORS).map(|sectors| sectors / SECTORS_OF_SLOT)
}

/// For how many places a node's file was made; None where it can't be told.
pub fn places(path: &Path) -> Option<usize> {
    let (label, _) = label_of(path)?;
    Some(usize::from(label[PLACES]))
}

/// The label of a node's file, as far as both versions have it, and where the last sector ends.
fn label_of(path: &Path) -> Option<([u8; OLDER_LABEL as usize], u64)> {
    // a pipe would be waited for
    let file = path.is_file().then(|| File::open(path).ok()).flatten()?;
    let length = file.metadata().ok()?.len();
    let (behind, mut label) = (length % SECTOR, [0; OLDER_LABEL as usize]);
    if behind != LABEL && behind != OLDER_LABEL {
        return None;
    }
    file.read_exact_at(&mut label, length - behind).ok()?;
    HEADS.iter().any(|head| label.starts_with(head)).then_some((label, length - behind))
}

fn stride_of(label: &[u8]) -> Option<u64> {
    match label[STRIDE] {
        0 => Some(512),
        1 => Some(4096),
        _ => None,
    }
}

#[cfg(test)]
mod tests {
    use super::*;
    use crate::chance::{Chance, TURNS};

    #[test]
    fn slots_are_read_off_the_length_and_the_label() {
        let path = std::env::temp_dir().join(format!("dumgerok-label-{}", std::process::id()));
        let older = |stride: u8| [HEADS[0], &[0, 3, stride, 0, 0, 0, 0]].concat();
        let label = |stride: u8| [HEADS[1], &[0, 3, stride, 1, 2, 3, 4, 0, 4], &[0; 14]].concat();
        for (length, label, found) in [
            ((8 + 4 * 4) * 512, older(0), (Some(4), Some(3))),
            ((8 + 4 * 4) * 512, label(0), (Some(4), Some(3))),
            ((8 + 4 * 128) * 4096, older(1), (Some(128), Some(3))),
            ((8 + 4 * 128) * 4096, label(1), (Some(128), Some(3))),
            ((8 + 4 * 4096) * 512, label(0), (Some(4096), Some(3))),
            (24 * 512, label(2), (None, Some(3))),
            (7 * 512, label(0), (None, Some(3))),
            (24 * 512, vec![0; 16], (None, None)),
            (24 * 512, vec![], (None, None)),
            (0, b"short".to_vec(), (None, None)),
        ] {
            std::fs::write(&path, [vec![0; length], label].concat()).unwrap();
            assert_eq!((slots(&path), places(&path)), found, "{length}");
        }
        std::fs::remove_file(&path).unwrap();
        assert_eq!((slots(&path), places(&path)), (None, None));
    }

    #[test]
    fn a_pipe_is_not_waited_for() {
        let path = std::env::temp_dir().join(format!("dumgerok-pipe-{}", std::process::id()));
        assert!(std::process::Command::new("mkfifo").arg(&path).status().unwrap().success());
        let (to, from) = std::sync::mpsc::channel();
        let own = path.clone();
        std::thread::spawn(move || to.send((slots(&own), places(&own))));
        assert_eq!(from.recv_timeout(std::time::Duration::from_secs(60)), Ok((None, None)));
        std::fs::remove_file(&path).unwrap();
    }

    #[test]
    fn whatever_a_file_holds_has_a_number_of_places_or_none() {
        let path = std::env::temp_dir().join(format!("dumgerok-odd-label-{}", std::process::id()));
        let right = [vec![0; 24 * 512], HEADS[0].to_vec(), vec![0, 3, 0, 0, 0, 0, 0]].concat();
        let mut chance = Chance::of(18);
        for _ in 0..TURNS / 10 {
            std::fs::write(&path, chance.odd(&[&right], 600)).unwrap();
            assert!(places(&path).map_or(true, |places| places <= 255) && slots(&path).map_or(true, |slots| slots < 100));
        }
        std::fs::remove_file(&path).unwrap();
    }
}
