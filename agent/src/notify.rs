//! What systemd is told: that the node is up, what it does, and that it still answers.

use log::debug;
use sd_notify::NotifyState;
use std::io;
use std::sync::mpsc::{sync_channel, Receiver, SyncSender};
use std::thread;
use std::time::{Duration, Instant};

/// So many notices wait at most for somebody who doesn't read them; more are dropped.
const MAX_WAITING: usize = 16;

enum Notice {
    Ready,
    Watchdog,
    Stopping,
    Status(String),
}

/// A thread of its own tells it, so that the agent doesn't wait for whoever watches it.
pub struct Notify {
    to: Option<SyncSender<Notice>>,
    /// How often it wants to hear that the node lives: half of the time after which it would end the agent.
    watchdog: Option<Duration>,
    told: Instant,
    /// When it is to be told that the agent is ready.
    ready: Option<Instant>,
}

impl Notify {
    pub fn of_environment() -> io::Result<Notify> {
        let mut micros = 0;
        let has_watchdog = sd_notify::watchdog_enabled(false, &mut micros);
        let start = |_| {
            let (to, from) = sync_channel(MAX_WAITING);
            thread::Builder::new().spawn(move || tell(from)).map(|_| to)
        };
        let to = std::env::var_os("NOTIFY_SOCKET").map(start).transpose()?;
        let watchdog = has_watchdog.then(|| Duration::from_micros(micros / 2));
        Ok(Notify { to, watchdog, told: Instant::now(), ready: None })
    }

    fn say(&self, notice: Notice) {
        if let Some(to) = &self.to {
            if to.try_send(notice).is_err() {
                debug!("a notice to systemd was dropped");
            }
        }
    }

    /// The agent is ready at this time.
    pub fn ready_at(&mut self, at: Instant) {
        self.ready = Some(at);
    }

    /// Says that it is, where it is time.
    pub fn tell_ready(&mut self, now: Instant) {
        if self.sleep(now).is_zero() {
            self.ready = None;
            self.say(Notice::Ready);
        }
    }

    pub fn sleep(&self, now: Instant) -> Duration {
        self.ready.map_or(Duration::MAX, |at| at.saturating_duration_since(now))
    }

    pub fn stopping(&self) {
        self.say(Notice::Stopping);
    }

    pub fn status(&self, text: String) {
        self.say(Notice::Status(text));
    }

    /// The node answers: systemd is told so where it is time.
    pub fn lives(&mut self, now: Instant) {
        if self.watchdog.map_or(false, |pause| now - self.told >= pause.min(Duration::from_secs(5))) {
            self.told = now;
            self.say(Notice::Watchdog);
        }
    }
}

fn tell(from: Receiver<Notice>) {
    for notice in from {
        let state = match &notice {
            Notice::Ready => NotifyState::Ready,
            Notice::Watchdog => NotifyState::Watchdog,
            Notice::Stopping => NotifyState::Stopping,
            Notice::Status(text) => NotifyState::Status(text),
        };
        if let Err(error) = sd_notify::notify(false, &[state]) {
            debug!("systemd can't be told: {error}");
        }
    }
}
