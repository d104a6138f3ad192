//! Where the log goes: a thread of its own writes it to standard error, so that the agent doesn't wait for whoever reads it there.

use std::io::{self, Write};
use std::sync::atomic::{AtomicUsize, Ordering};
use std::sync::mpsc::{sync_channel, Receiver, SyncSender};
use std::sync::Arc;
use std::thread;
use std::time::{Duration, Instant};

/// So many lines wait at most; more are left out, and counted.
const MAX_WAITING: usize = 256;

/// An end waits so long for the last lines to be written, where somebody takes them.
const PATIENCE: Duration = Duration::from_secs(1);

/// Whoever takes no line for so long is nobody.
const PATIENCE_FOR_A_LINE: Duration = Duration::from_millis(200);

/// What a logger writes to: each write is a whole line.
#[derive(Clone)]
pub struct LogLines {
    to: SyncSender<Vec<u8>>,
    counts: Arc<Counts>,
}

/// How many lines wait, and were left out since that was said last; how many times something was begun to be written, and how many times that was done.
#[derive(Default)]
struct Counts {
    waiting: AtomicUsize,
    left_out: AtomicUsize,
    begun: AtomicUsize,
    done: AtomicUsize,
}

impl LogLines {
    /// To be written to `out`.
    pub fn start(out: impl Write + Send + 'static) -> io::Result<LogLines> {
        let (to, from) = sync_channel(MAX_WAITING);
        let counts = Arc::<Counts>::default();
        let of_thread = Arc::clone(&counts);
        thread::Builder::new().spawn(move || write_all(from, out, &of_thread))?;
        Ok(LogLines { to, counts })
    }

    /// Waits until all is written, for a while: not for a line that nobody takes. A thread that has no turn yet on a busy machine is waited for.
    pub fn finish(&self) {
        let begin = Instant::now();
        let (mut now, mut line, mut since) = (begin, self.counts.begun(), begin);
        while self.counts.waiting.load(Ordering::SeqCst) > 0 && now - begin < PATIENCE {
            let last = line;
            line = self.counts.begun();
            if line != last || self.counts.done.load(Ordering::SeqCst) == line {
                since = now;
            }
            if now - since >= PATIENCE_FOR_A_LINE {
                return;
            }
            thread::sleep(Duration::from_millis(1));
            now = Instant::now();
        }
    }
}

impl Counts {
    fn begun(&self) -> usize {
        self.begun.load(Ordering::SeqCst)
    }

    /// Writes a line. Where nobody takes it there is nobody to be told so.
    fn write(&self, out: &mut impl Write, line: &[u8]) {
        self.begun.fetch_add(1, Ordering::SeqCst);
        let _untold = out.write_all(line);
        self.done.fetch_add(1, Ordering::SeqCst);
    }
}

fn write_all(from: Receiver<Vec<u8>>, mut out: impl Write, counts: &Counts) {
    for line in from {
        counts.write(&mut out, &line);
        match counts.left_out.swap(0, Ordering::SeqCst) {
            0 => {}
            count => {
                let line = format!("dumgerokd: {count} lines of the log were left out: nobody took them\n");
                counts.write(&mut out, line.as_bytes());
            }
        }
        counts.waiting.fetch_sub(1, Ordering::SeqCst);
    }
}

impl Write for LogLines {
    fn write(&mut self, line: &[u8]) -> io::Result<usize> {
        self.counts.waiting.fetch_add(1, Ordering::SeqCst);
        if self.to.try_send(line.to_vec()).is_err() {
            self.counts.waiting.fetch_sub(1, Ordering::SeqCst);
            self.counts.left_out.fetch_add(1, Ordering::SeqCst);
        }
        Ok(line.len())
    }

    fn flush(&mut self) -> io::Result<()> {
        Ok(())
    }
}

#[cfg(test)]
mod tests {
    use super::*;
    use std::sync::mpsc::{channel, Sender};

    /// Takes nothing before `begin` is dropped, and tells of all that it took.
    struct SlowReader {
        begin: Receiver<()>,
        took: Sender<Vec<u8>>,
    }

    impl Write for SlowReader {
        fn write(&mut self, bytes: &[u8]) -> io::Result<usize> {
            let _dropped = self.begin.recv();
            self.took.send(bytes.to_vec()).map_err(|_| io::ErrorKind::BrokenPipe)?;
            Ok(bytes.len())
        }

        fn flush(&mut self) -> io::Result<()> {
            Ok(())
        }
    }

    #[test]
    fn nobody_is_waited_for_and_what_is_left_out_is_said() {
        let ((begin, begun), (took, all)) = (channel(), channel());
        let mut lines = LogLines::start(SlowReader { begin: begun, took }).unwrap();
        let count = 40_000;
        (0..count).for_each(|_| lines.write_all(b"twenty bytes of text\n").unwrap());
        let ends_soon = |lines: &LogLines| {
            let at = Instant::now();
            lines.finish();
            at.elapsed() < PATIENCE
        };
        // more than once, for the machine may be busy
        assert!((0..10).any(|_| ends_soon(&lines)), "it ends soon though nobody reads");
        assert!(lines.counts.waiting.load(Ordering::SeqCst) > 0);
        drop(begin);
        drop(lines);
        let text = String::from_utf8(all.iter().flatten().collect()).unwrap();
        let number = |line: &str| line.strip_prefix("dumgerokd: ")?.split(' ').next()?.parse::<usize>().ok();
        let left_out: usize = text.lines().filter_map(number).sum();
        assert!((count - MAX_WAITING - 1..=count - MAX_WAITING).contains(&left_out), "{left_out}");
        assert_eq!(left_out + text.matches("twenty").count(), count);
    }
    /// Takes each line in so long.
    struct Steady(Duration, Sender<Vec<u8>>);

    impl Write for Steady {
        fn write(&mut self, bytes: &[u8]) -> io::Result<usize> {
            thread::sleep(self.0);
            self.1.send(bytes.to_vec()).map_err(|_| io::ErrorKind::BrokenPipe)?;
            Ok(bytes.len())
        }

        fn flush(&mut self) -> io::Result<()> {
            Ok(())
        }
    }

    #[test]
    fn whoever_takes_lines_slowly_is_waited_for() {
        let is_written = |_| {
            let (took, all) = channel();
            let mut lines = LogLines::start(Steady(Duration::from_millis(60), took)).unwrap();
            (0..8).for_each(|at| lines.write_all(format!("{at}\n").as_bytes()).unwrap());
            lines.finish();
            all.try_iter().flatten().collect::<Vec<u8>>() == b"0\n1\n2\n3\n4\n5\n6\n7\n"
        };
        // more than once, for the machine may be busy
        assert!((0..10).any(is_written));
    }
}
