//! From which queues a client takes jobs.

use super::RequestError;

/// How many queues of jobs there are: as many as the proved program has, which gives each line of a group by them.
pub const QUEUES: u8 = 16;

/// The greatest number of a queue; the least is 0.
pub const LAST_QUEUE: u8 = QUEUES - 1;

/// The queues in words, for texts that are fixed when this is compiled.
#[macro_export]
macro_rules! queue_range {
    () => {
        "0 to 15"
    };
}

/// The queues of a request, a bit for each.

#[derive(Clone, Copy, Debug, PartialEq, Eq)]
pub struct Wanted(u64);

const _: () = assert!(QUEUES as u32 <= u64::BITS);

impl Wanted {
    pub const ALL: Wanted = Wanted(u64::MAX);

    /// Those of a request, which names one, or some, or none for all.
    pub fn read(queue: Option<u8>, queues: Option<&[u8]>) -> Result<Wanted, RequestError> {
        let named: Vec<u8> = queue.into_iter().chain(queues.into_iter().flatten().copied()).collect();
        match named.iter().any(|queue| *queue >= QUEUES) {
            true => Err(RequestError::Queue),
            false if queue.is_none() && queues.is_none() => Ok(Wanted::ALL),
            false => Ok(Wanted::of(&named)),
        }
    }

    pub fn of(queues: &[u8]) -> Wanted {
        Wanted(queues.iter().fold(0, |all, queue| all | 1u64.checked_shl((*queue).into()).unwrap_or(0)))
    }

    pub fn has(self, queue: u8) -> bool {
        self.0 & Wanted::of(&[queue]).0 != 0
    }
}

#[cfg(test)]
mod tests {
    use super::*;

    #[test]
    fn the_range_in_words_is_that_of_the_queues() {
        assert_eq!(queue_range!(), format!("0 to {LAST_QUEUE}"));
    }

    #[test]
    fn a_request_names_one_queue_or_some_or_all() {
        let read = |queue, queues: Option<&[u8]>| Wanted::read(queue, queues);
        assert_eq!(read(None, None), Ok(Wanted::ALL));
        assert_eq!(read(Some(3), None), Ok(Wanted::of(&[3])));
        assert_eq!(read(Some(3), Some(&[0, 15])), Ok(Wanted::of(&[0, 3, 15])));
        assert_eq!(read(None, Some(&[])), Ok(Wanted::of(&[])), "none of them");
        assert_eq!(
            [read(Some(16), None), read(None, Some(&[1, 16]))],
            [Err(RequestError::Queue), Err(RequestError::Queue)]
        );
        let has: Vec<u8> = (0..=255).filter(|queue| Wanted::of(&[0, 3, 15]).has(*queue)).collect();
        assert_eq!(has, [0, 3, 15]);
    }
}
