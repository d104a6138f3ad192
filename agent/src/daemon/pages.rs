//! What is shown over HTTP.

use super::requests::MAX_LISTINGS;
use super::leases::Leases;
use super::core::{Core, Ports};
use super::Asker;
use crate::http::{Page, Pages, Response, PAGE, THREADS};
use crate::net::Network;
use crate::node::{Lane, Line};
use crate::protocol::QUEUES;
use serde_json::json;
use std::time::{Duration, Instant};

/// The node is asked for its jobs at most so often for the page.
const PAUSE: Duration = Duration::from_secs(2);

/// The jobs that the node keeps, by queue, when it was last asked for the page.
#[derive(Default)]
pub(super) struct PendingJobs {
    by_queue: [usize; QUEUES as usize],
    asked: Option<Instant>,
}

impl<P: Ports> Core<P> {
    pub(super) fn serve_pages(&mut self, now: Instant) {
        // one that is asked for meanwhile wakes the loop again
        for _ in 0..THREADS {
            let page = match self.http.as_ref().and_then(|http| http.next()) {
                Some(page) => page,
                None => return,
            };
            let response = self.response_to(&page, now);
            page.answer(response);
        }
    }

    fn response_to(&mut self, page: &Page, now: Instant) -> Response {
        let is_alive = self.view.is_ready && self.view.is_alive(now);
        match page.path.as_str() {
            "/healthz" => Response::probe(is_alive, "the node doesn't answer"),
            "/readyz" => Response::probe(is_alive && self.view.is_majority(&self.peers, now), "not at work in a majority"),
            "/status" => Response::json(json!(self.view.status(&self.peers, now)).to_string()),
            "/members" => Response::json(json!(self.view.members(&self.peers, now)).to_string()),
            "/state" => self.state(now),
            "/metrics" => {
                self.metrics.lease_up.set(i64::from(self.leases.as_ref().map_or(false, Leases::is_up)));
                self.metrics.leases_held.set(self.leases.as_ref().map_or(0, |leases| leases.count(self.ports.boot_time())) as i64);
                self.metrics.pending.set(self.fill.pending() as i64);
                self.metrics.pending_max.set(self.fill.most().unwrap_or(0) as i64);
                self.metrics.in_hand.set(self.hand.count() as i64);
                self.metrics.held.set(self.hand.count_held() as i64);
                self.metrics.aside.set(self.hand.count_aside() as i64);
                self.metrics.clients.set(self.clients.count() as i64);
                self.metrics.waiting.set(self.clients.waiting_count() as i64);
                (0..QUEUES).for_each(|queue| self.metrics.wait_for(queue, self.clients.waiting_for(queue)));
                self.metrics.unheld.set(self.hand.unheld(now).as_secs_f64());
                self.metrics.recorded.set(i64::from(self.node.is_recorded()));
                self.metrics.record_wanted.set(i64::from(self.wants_record));
                self.metrics.cut_off.set(self.clients.cut_off as i64);
                self.link.drops().into_iter().for_each(|drops| self.metrics.count_kernel_drops(drops));
                let (content_type, body) = ("text/plain; version=0.0.4", self.metrics.text(&self.view, &self.peers, now));
                // what it is made in is as large as all that the agent has else
                self.ports.give_back_memory();
                Response::page(content_type, body)
            }
            "/" => Response::page("text/html; charset=utf-8", PAGE.to_string()),
            _ => Response::text(404, "no such page"),
        }
    }

    /// All that the page draws.
    fn state(&mut self, now: Instant) -> Response {
        let is_old = self.pending_jobs.asked.map_or(true, |asked| now - asked >= PAUSE);
        if is_old && self.node.has_room(Lane::Local) && self.listings < MAX_LISTINGS {
            self.pending_jobs.asked = Some(now);
            self.listings += 1;
            self.ask(Asker::Page, "jobs".to_string());
        }
        let state = json!({
            "status": self.view.status(&self.peers, now),
            "members": self.view.members(&self.peers, now),
            "past": self.view.past,
            "pending": self.fill.pending(),
            "pending_max": self.fill.most(),
            "pending_by_queue": self.pending_jobs.by_queue,
            "in_hand": self.hand.count(),
            "held": self.hand.count_held(),
            "unheld_ms": self.hand.unheld(now).as_millis() as u64,
            "recorded": self.node.is_recorded(),
            "record_wanted": self.wants_record,
            "lease_ms": self.config.lease_ms,
            "leases": self.leases.as_ref().map_or_else(Vec::new, |leases| leases.rows(self.ports.boot_time())),
        });
        Response::json(state.to_string())
    }

    /// The node said which jobs it keeps.
    pub(super) fn count_jobs(&mut self, lines: &[Line]) {
        self.pending_jobs.by_queue.fill(0);
        for line in lines {
            if let Line::Pending(job) = line {
                if let Some(count) = self.pending_jobs.by_queue.get_mut(usize::from(job.queue)) {
                    *count += 1;
                }
            }
        }
    }
}
