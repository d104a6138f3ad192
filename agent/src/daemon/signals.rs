//! Signals: SIGTERM and SIGINT end the agent, SIGHUP has it read its configuration again.

use mio::net::UnixStream;
use mio::{Interest, Registry, Token};
use signal_hook::consts::{SIGHUP, SIGINT, SIGTERM};
use signal_hook::{flag, low_level::pipe};
use std::io::{self, Read};
use std::sync::atomic::{AtomicBool, Ordering};
use std::sync::Arc;
use std::thread;
use std::time::{Duration, Instant};

/// The signals that end the agent.
pub const ENDING: [i32; 2] = [SIGTERM, SIGINT];

/// Signals that come before the loop begins: those that end the agent end it at once, for a name server or a file system may have it wait without an end, and
/// the others are passed over.
pub struct Beginning(Arc<AtomicBool>);

impl Beginning {
    pub fn register() -> io::Result<Beginning> {
        let is_so = Arc::new(AtomicBool::new(true));
        for signal in ENDING {
            flag::register_conditional_shutdown(signal, 0, Arc::clone(&is_so))?;
        }
        flag::register(SIGHUP, Arc::new(AtomicBool::new(false)))?;
        Ok(Beginning(is_so))
    }

    /// The loop begins, by which the agent ends from now on.
    pub fn is_over(&self) {
        self.0.store(false, Ordering::SeqCst);
    }
}

pub struct Signals {
    woken: UnixStream,
    end: Arc<AtomicBool>,
    reload: Arc<AtomicBool>,
}

impl Signals {
    pub fn register(registry: &Registry, token: Token) -> io::Result<Signals> {
        let (from, to) = std::os::unix::net::UnixStream::pair()?;
        from.set_nonblocking(true)?;
        let (end, reload) = (Arc::new(AtomicBool::new(false)), Arc::new(AtomicBool::new(false)));
        // the flag first: it is set once the pipe wakes
        for (signal, is_set) in [(SIGTERM, &end), (SIGINT, &end), (SIGHUP, &reload)] {
            flag::register(signal, Arc::clone(is_set))?;
            pipe::register(signal, to.try_clone()?)?;
        }
        let mut woken = UnixStream::from_std(from);
        registry.register(&mut woken, token, Interest::READABLE)?;
        Ok(Signals { woken, end, reload })
    }

    /// Empties the pipe by which signals wake the loop.
    pub fn read(&mut self) {
        let mut bytes = [0; 64];
        while matches!(self.woken.read(&mut bytes), Ok(count) if count > 0) {}
    }

    pub fn take_end(&self) -> bool {
        self.end.swap(false, Ordering::SeqCst)
    }

    /// Whether one that ends the agent comes within so long.
    pub fn end_within(&self, time: Duration) -> bool {
        let until = Instant::now() + time;
        loop {
            let (is_over, is_there) = (Instant::now() >= until, self.take_end());
            if is_there || is_over {
                return is_there;
            }
            thread::sleep(Duration::from_millis(5));
        }
    }

    pub fn take_reload(&self) -> bool {
        self.reload.swap(false, Ordering::SeqCst)
    }
}
