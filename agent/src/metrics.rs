//! Counts and gauges for Prometheus.

use crate::net::Peers;
use crate::node::Phase;
use crate::view::View;
use prometheus::{Counter, Encoder, Gauge, IntCounter, IntCounterVec, IntGauge, IntGaugeVec, Opts, Registry, TextEncoder};
use std::collections::HashMap;
use std::time::Instant;

const VERSION: &str = env!("CARGO_PKG_VERSION");

/// The kinds of messages, by their number.
const KINDS: [&str; 12] = [
    "unknown",
    "AreYouCoordinator",
    "Coordinator",
    "AreYouThere",
    "Here",
    "Invitation",
    "Accept",
    "Ready",
    "ReadyAck",
    "Work",
    "Done",
    "Work",
];

/// By these a node comes to lead others: it looks who else leads, and invites them.
pub const OF_LEADING: [&str; 2] = ["AreYouCoordinator", "Invitation"];

/// Of these the questions that a node in any phase answers at once, and the answers.
pub const QUESTIONS: [&str; 2] = ["AreYouCoordinator", "AreYouThere"];
pub const ANSWERS: [&str; 2] = ["Coordinator", "Here"];

/// Why the node refuses something, and NoMessage for what it can't read.
const REFUSALS: [&str; 10] = [
    "NoMessage",
    "Stranger",
    "Forged",
    "Stale",
    "Down",
    "NotNormal",
    "NotCoordinator",
    "UnknownJob",
    "Full",
    "Exhausted",
];

/// The name of a message's kind.
pub fn kind_of(message: &[u8]) -> &'static str {
    let number = message.get(1).map_or(0, |byte| usize::from(*byte));
    KINDS.get(number).copied().unwrap_or(KINDS[0])
}

/// The node tells no syncs, so what they were for is counted: a group made takes up to three, a job kept or done two. Compactions make more.
const DURABLE: &str =
    "What the node made durable: group (2 or 3 syncs), put or done of a job (2 syncs). Compactions come on top.";

/// Those that are cloned count the same.
#[derive(Clone)]
pub struct Metrics {
    registry: Registry,
    pub messages_in: IntCounterVec,
    pub messages_out: IntCounterVec,
    pub refused: IntCounterVec,
    pub fired: IntCounterVec,
    pub dropped: IntCounterVec,
    pub forwarded: IntCounterVec,
    pub farewells: IntCounterVec,
    pub relayed: IntCounterVec,
    through: IntGauge,
    pub jobs: IntCounterVec,
    pub durable: IntCounterVec,
    pub groups: IntCounter,
    pub leases: IntCounterVec,
    pub lease_messages: IntCounterVec,
    pub lease_up: IntGauge,
    pub leases_held: IntGauge,
    phase: IntGaugeVec,
    pub cut_off: IntGauge,
    up: IntGauge,
    normal: IntGauge,
    coordinator: IntGauge,
    majority: IntGauge,
    members: IntGauge,
    nodes: IntGauge,
    pub in_hand: IntGauge,
    pub held: IntGauge,
    pub aside: IntGauge,
    pub pending: IntGauge,
    pub pending_max: IntGauge,
    pub clients: IntGauge,
    pub waiting: IntGauge,
    waiting_for: IntGaugeVec,
    pub stale: IntCounterVec,
    pub opened: IntCounterVec,
    pub compactions: IntCounter,
    pub compacting: Counter,
    pub recorded: IntGauge,
    pub record_wanted: IntGauge,
    pub unheld: Gauge,
    group_age: Gauge,
}

/// Makes metrics of one registry. A name stands once in this file, so none is registered twice.
struct Maker(Registry);

impl Maker {
    fn counters(&self, name: &str, help: &str, label: &str) -> prometheus::Result<IntCounterVec> {
        let made = IntCounterVec::new(Opts::new(format!("dumgerok_{name}_total"), help), &[label])?;
        self.0.register(Box::new(made.clone()))?;
        Ok(made)
    }

    fn counter(&self, name: &str, help: &str) -> prometheus::Result<IntCounter> {
        let made = IntCounter::with_opts(Opts::new(format!("dumgerok_{name}_total"), help))?;
        self.0.register(Box::new(made.clone()))?;
        Ok(made)
    }

    fn count_of_seconds(&self, name: &str, help: &str) -> prometheus::Result<Counter> {
        let made = Counter::with_opts(Opts::new(format!("dumgerok_{name}_seconds_total"), help))?;
        self.0.register(Box::new(made.clone()))?;
        Ok(made)
    }

    fn gauges(&self, name: &str, help: &str, label: &str) -> prometheus::Result<IntGaugeVec> {
        let made = IntGaugeVec::new(Opts::new(format!("dumgerok_{name}"), help), &[label])?;
        self.0.register(Box::new(made.clone()))?;
        Ok(made)
    }

    fn seconds(&self, name: &str, help: &str) -> prometheus::Result<Gauge> {
        let made = Gauge::with_opts(Opts::new(format!("dumgerok_{name}_seconds"), help))?;
        self.0.register(Box::new(made.clone()))?;
        Ok(made)
    }

    fn gauge(&self, name: &str, help: &str) -> prometheus::Result<IntGauge> {
        let made = IntGauge::with_opts(Opts::new(format!("dumgerok_{name}"), help))?;
        self.0.register(Box::new(made.clone()))?;
        Ok(made)
    }
}

impl Metrics {
    /// Those of an agent of this cluster, whose keys have these names. All have the cluster as a label, so that one Prometheus tells two of them apart.
    pub fn new(cluster: &str, keys: &[String]) -> prometheus::Result<Metrics> {
        let of_cluster = HashMap::from([("cluster".to_string(), cluster.to_string())]);
        let maker = Maker(Registry::new_custom(None, Some(of_cluster))?);
        maker.gauges("build_info", "1, with the version of the agent.", "version")?.with_label_values(&[VERSION]).set(1);
        maker.gauge("sealed", "Whether messages are sealed by a key.")?.set(i64::from(!keys.is_empty()));
        let named = maker.gauges("key", "1 for the name of the key that seals, 2 for one that only opens.", "name")?;
        (1..).zip(keys).for_each(|(place, name)| named.with_label_values(&[name]).set(place));
        let metrics = Metrics {
            messages_in: maker.counters("messages_in", "Messages that the node took, by kind.", "kind")?,
            messages_out: maker.counters("messages_out", "Messages that the node sent, by kind.", "kind")?,
            refused: maker.counters("refused", "What the node refused, by reason.", "reason")?,
            fired: maker.counters("fired", "Timers that fired.", "timer")?,
            dropped: maker.counters("dropped", "Datagrams that were dropped, by reason.", "reason")?,
            forwarded: maker.counters("forwarded", "Submissions between agents, by what came of them.", "event")?,
            farewells: maker.counters("farewells", "What agents said that their nodes end: taken, taken of one that began from a copy of its file, or refused as recorded; and agents whose port was refused: doubted, and found to be killed.", "event")?,
            relayed: maker.counters("relayed", "Datagrams to or of machines that aren't reached by themselves: sent through another one, carried on for others, taken.", "event")?,
            through: maker.gauge("peers_through", "Other machines that are reached through a third one alone.")?,
            jobs: maker.counters("jobs", "Jobs, by what happened to them.", "event")?,
            durable: maker.counters("commands_durable", DURABLE, "command")?,
            groups: maker.counter("groups", "Changes of the node's group or phase.")?,
            opened: maker.counters("opened", "Datagrams that were decrypted, by the name of the key; of none those that came in clear.", "key")?,
            stale: maker.counters("stale", "Messages that the node refused as older than what their sender had said, by sender.", "node")?,
            compactions: maker.counter("compactions", "Compactions of the journal that a client asked for.")?,
            compacting: maker.count_of_seconds("compactions", "How long these took in all.")?,
            leases: maker.counters("leases", "Leases of this machine, by what happened to them.", "event")?,
            lease_messages: maker.counters("lease_messages", "Messages of leases, by their way.", "way")?,
            lease_up: maker.gauge("lease_up", "Whether the process of leases is at work.")?,
            leases_held: maker.gauge("leases_held", "Leases that this machine has.")?,
            phase: maker.gauges("phase", "1 for the phase that the node is in, 0 for the others.", "phase")?,
            cut_off: maker.gauge("clients_cut_off", "Clients that were cut off since they didn't read.")?,
            up: maker.gauge("up", "Whether the node answers.")?,
            normal: maker.gauge("normal", "Whether the node is at work in a group.")?,
            coordinator: maker.gauge("coordinator", "Whether it coordinates its group.")?,
            majority: maker.gauge("majority", "Whether its group has more than half of all nodes, and enough of them were heard lately.")?,
            members: maker.gauge("members", "Members of its group.")?,
            nodes: maker.gauge("nodes", "Nodes of the cluster.")?,
            in_hand: maker.gauge("jobs_in_hand", "Jobs that the node is to work on.")?,
            held: maker.gauge("jobs_held", "Of these, jobs that a client works on.")?,
            aside: maker.gauge("jobs_aside", "Of these, jobs that were put aside until somebody kicks them.")?,
            pending: maker.gauge("jobs_pending", "Jobs that the node keeps and that aren't done.")?,
            pending_max: maker.gauge("jobs_pending_max", "So many of them fit into its journal.")?,
            clients: maker.gauge("clients", "Local clients.")?,
            waiting: maker.gauge("clients_waiting", "Requests of clients that wait for a job.")?,
            waiting_for: maker.gauges("clients_waiting_for", "Of these, those that would take a job of a queue.", "queue")?,
            recorded: maker.gauge("recorded", "Whether the node is recorded.")?,
            record_wanted: maker.gauge("record_wanted", "Whether it is to be recorded.")?,
            unheld: maker.seconds("jobs_unheld", "For how long a job in hand has had nobody who works on it, at most.")?,
            group_age: maker.seconds("group_age", "Since the node's group last changed.")?,
            registry: maker.0,
        };
        metrics.begin_at_zero();
        keys.iter().map(String::as_str).chain(["none"]).for_each(|name| metrics.opened.with_label_values(&[name]).inc_by(0));
        Ok(metrics)
    }

    /// A count that isn't told before it is one has no rate: so those that an alarm may follow are told from the start.
    fn begin_at_zero(&self) {
        let known: [(&IntCounterVec, &[&str]); 11] = [
            (&self.relayed, &["sent", "carried", "taken"]),
            (&self.leases, &["held", "lost", "given_back"]),
            (&self.lease_messages, &["in", "out"]),
            (&self.messages_in, &KINDS),
            (&self.messages_out, &KINDS),
            (&self.refused, &REFUSALS),
            (&self.dropped, &["NoRoom", "NotSent", "Forged", "Empty", "Version", "Kernel", "Down", "Stranger", "Obsolete", "Draining", "Unmet", "Relay"]),
            (&self.forwarded, &["taken", "again"]),
            (&self.farewells, &["taken", "copy", "drained", "refused", "doubted", "killed"]),
            (&self.jobs, &["kept", "gone", "taken", "dropped", "failed", "aside"]),
            (&self.durable, &["group", "put", "done"]),
        ];
        for (counters, labels) in known {
            labels.iter().for_each(|label| counters.with_label_values(&[label]).inc_by(0));
        }
    }

    /// The system dropped so many datagrams until now.
    pub fn count_kernel_drops(&self, drops: u64) {
        let counter = self.dropped.with_label_values(&["Kernel"]);
        counter.inc_by(drops.saturating_sub(counter.get()));
    }

    /// So many requests wait for a job of this queue.
    pub fn wait_for(&self, queue: u8, count: usize) {
        self.waiting_for.with_label_values(&[&queue.to_string()]).set(count as i64);
    }

    /// The text of all, as of now.
    pub fn text(&self, view: &View, peers: &Peers, now: Instant) -> String {
        self.up.set(i64::from(view.is_ready && view.is_alive(now)));
        for phase in Phase::ALL {
            let is_in = i64::from(view.group.phase == phase);
            self.phase.with_label_values(&[&format!("{phase:?}")]).set(is_in);
        }
        self.normal.set(i64::from(view.group.is_normal()));
        self.coordinator.set(i64::from(view.is_coordinator()));
        self.majority.set(i64::from(view.is_majority(peers, now)));
        self.members.set(view.group.members.len() as i64);
        self.through.set(peers.count_through(now) as i64);
        self.nodes.set(view.nodes as i64);
        // a machine may be named later than the agent began; one without others tells it of itself
        peers.others().chain([view.own]).for_each(|node| self.stale.with_label_values(&[&node.to_string()]).inc_by(0));
        self.group_age.set(now.saturating_duration_since(view.changed).as_secs_f64());
        let mut text = Vec::new();
        match TextEncoder::new().encode(&self.registry.gather(), &mut text) {
            Ok(()) => String::from_utf8_lossy(&text).into_owned(),
            Err(error) => format!("# {error}\n"),
        }
    }
}
