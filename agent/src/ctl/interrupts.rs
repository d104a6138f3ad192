//! Signals that end a worker: with them the command ends that it runs.

use signal_hook::consts::{SIGHUP, SIGINT, SIGQUIT, SIGTERM};
use signal_hook::{flag, low_level};
use std::fs;
use std::io;
use std::os::raw::c_int;
use std::sync::atomic::{AtomicBool, AtomicUsize, Ordering};
use std::sync::Arc;

/// While a command runs a signal is kept; else it ends the worker at once.
pub struct Interrupts {
    is_idle: Arc<AtomicBool>,
    came: Arc<AtomicUsize>,
}

impl Interrupts {
    /// Those signals are left alone that are ignored, as under `nohup`.
    pub fn register() -> io::Result<Interrupts> {
        let (is_idle, came) = (Arc::new(AtomicBool::new(true)), Arc::new(AtomicUsize::new(0)));
        let ignored = ignored();
        for signal in [SIGHUP, SIGINT, SIGQUIT, SIGTERM] {
            if ignored >> (signal - 1) & 1 == 0 {
                flag::register_conditional_default(signal, Arc::clone(&is_idle))?;
                flag::register_usize(signal, Arc::clone(&came), signal as usize)?;
            }
        }
        Ok(Interrupts { is_idle, came })
    }

    /// A command runs from now on, or none.
    pub fn set_idle(&self, is_idle: bool) {
        self.is_idle.store(is_idle, Ordering::SeqCst);
    }

    /// Whether one came while a command ran.
    pub fn have_come(&self) -> bool {
        self.came.load(Ordering::SeqCst) != 0
    }

    /// Ends the worker by the signal that came.
    pub fn end(&self) -> io::Result<()> {
        match self.came.load(Ordering::SeqCst) {
            0 => Ok(()),
            signal => low_level::emulate_default_handler(signal as c_int),
        }
    }
}

/// The signals that are ignored, a bit each.
fn ignored() -> u64 {
    let status = fs::read_to_string("/proc/self/status").unwrap_or_default();
    let mask = status.lines().find_map(|line| line.strip_prefix("SigIgn:"));
    mask.and_then(|mask| u64::from_str_radix(mask.trim(), 16).ok()).unwrap_or(0)
}
