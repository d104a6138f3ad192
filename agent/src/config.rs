//! The configuration: a file of TOML, one node of a cluster.

use crate::http::Hosts;
use crate::names::group_number;
use serde::{Deserialize, Deserializer};
use std::collections::BTreeMap;
use std::fs;
use std::net::SocketAddr;
use std::os::unix::ffi::OsStrExt;
use std::path::{Path, PathBuf};
use thiserror::Error;

/// Tags of a machine have so many bytes at most.
const MAX_TAGS: usize = 512;

/// Where the system tells the machine's name.
const HOSTNAME: &str = "/proc/sys/kernel/hostname";

/// A place of `nodes` that has no machine. What is sent there is lost.
pub const EMPTY: &str = "-";

#[derive(Clone, Debug, PartialEq, Eq, Deserialize)]
#[serde(deny_unknown_fields)]
pub struct Config {
    /// The cluster's name: with a key, nodes of clusters of another name don't hear each other.
    pub cluster: String,
    /// The node's number: its place in `nodes`. As "hostname" it is the number at the end of this machine's name.
    #[serde(deserialize_with = "id_of")]
    pub id: u8,
    /// All places in their order, as HOST:PORT, or "-" where there is no machine; the same list on each machine.
    pub nodes: Vec<String>,
    /// Where datagrams are received, if that isn't the node's own entry of `nodes`.
    pub listen: Option<String>,
    /// The node's file, made by `dumgerokctl format`.
    pub file: PathBuf,
    /// The proved program.
    #[serde(default = "default_program")]
    pub program: PathBuf,
    /// A file of 64 hex digits by which messages are sealed; a second line has a key that is only opened by.
    pub key: Option<PathBuf>,
    /// Where local services ask.
    #[serde(default = "default_socket")]
    pub socket: PathBuf,
    /// An address for probes, metrics and the page: of the loopback, or, by `http_anywhere`, of any network.
    pub http: Option<SocketAddr>,
    #[serde(default)]
    pub http_anywhere: bool,
    /// Whether the record is served there, too, with what jobs hold.
    #[serde(default)]
    pub http_record: bool,
    /// Whose members may ask for what changes the machine for all its clients, beside root and the agent's user; else whoever may use the socket.
    pub admin_group: Option<String>,
    /// What a round trip between nodes takes at most, in milliseconds.
    #[serde(default = "default_round_trip")]
    pub round_trip_ms: u64,
    /// For how long a grant of a lease is kept, in milliseconds; 0: this machine has no leases, and votes for none.
    #[serde(default)]
    pub lease_ms: u64,
    /// The file of leases, made by `dumgerokctl format`; else that of the node's name with `.lease` behind it.
    pub lease_file: Option<PathBuf>,
    /// What is told of this machine beside its node; nothing rests on it.
    #[serde(default)]
    pub tags: BTreeMap<String, String>,
    #[serde(default)]
    pub log: LogLevel,
    /// Where what the node is asked and answers is written, from the start; `record on` of a service writes beside the node's file.
    pub record: Option<PathBuf>,
    /// A file of the record holds at most so many megabytes.
    #[serde(default = "default_record_mb")]
    pub record_mb: u64,
    /// So many full files of the record are kept.
    #[serde(default = "default_record_files")]
    pub record_files: u32,
}

#[derive(Clone, Copy, Debug, Default, Deserialize, PartialEq, Eq)]
#[serde(rename_all = "lowercase")]
pub enum LogLevel {
    Error,
    Warning,
    #[default]
    Info,
    Debug,
}

#[derive(Debug, Error)]
pub enum ConfigError {
    #[error("{0}")]
    Unreadable(#[from] std::io::Error),
    #[error("{0}")]
    NoToml(String),
    #[error("{setting}: {why}")]
    Setting { setting: &'static str, why: String },
}

fn default_program() -> PathBuf {
    PathBuf::from("/usr/lib/dumgerok/invite")
}

fn default_socket() -> PathBuf {
    PathBuf::from("/run/dumgerok/agent.sock")
}

fn default_round_trip() -> u64 {
    20
}

fn default_record_mb() -> u64 {
    64
}

fn default_record_files() -> u32 {
    8
}

/// A number, or "hostname".
#[derive(Deserialize)]
#[serde(untagged)]
enum Id {
    Number(u8),
    Word(String),
}

fn id_of<'de, D: Deserializer<'de>>(from: D) -> Result<u8, D::Error> {
    use serde::de::Error;
    match Id::deserialize(from).map_err(|_| D::Error::custom("id: is a number from 0 to 127, or \"hostname\""))? {
        Id::Number(number) => Ok(number),
        Id::Word(word) if word == "hostname" => {
            let name = fs::read_to_string(HOSTNAME).map_err(|why| D::Error::custom(format!("id: {HOSTNAME}: {why}")))?;
            let name = name.trim();
            number_of(name).ok_or_else(|| D::Error::custom(format!("id: this machine's name, {name}, doesn't end with a number behind \"-\"")))
        }
        Id::Word(word) => Err(D::Error::custom(format!("id: is a number, or \"hostname\", and no {word:?}"))),
    }
}

/// The number at the end of a name, as of `dumgerok-2`.
fn number_of(name: &str) -> Option<u8> {
    let (_, number) = name.split('.').next()?.rsplit_once('-')?;
    number.bytes().all(|byte| byte.is_ascii_digit()).then(|| number.parse().ok())?
}

impl Config {
    pub fn read(path: &Path) -> Result<Config, ConfigError> {
        Config::parse(&fs::read_to_string(path)?)
    }

    pub fn parse(text: &str) -> Result<Config, ConfigError> {
        let config: Config = toml::from_str(text).map_err(|error| ConfigError::NoToml(told(text, &error)))?;
        config.check()?;
        Ok(config)
    }

    fn check(&self) -> Result<(), ConfigError> {
        let rows = [
            ("nodes", (1..=128).contains(&self.nodes.len()), "is a list of 1 to 128 strings HOST:PORT, or \"-\" for a place without a machine".to_string()),
            ("id", usize::from(self.id) < self.nodes.len(), format!("is a number below {}", self.nodes.len())),
            ("id", self.has_machine(usize::from(self.id)), format!("is a place of `nodes` that has a machine, and {} has none", self.id)),
            ("cluster", is_name(&self.cluster), "is a name of 1 to 64 bytes, without control characters".to_string()),
            ("http", self.http.map_or(true, |at| self.is_served(at)), "is an address of the loopback with a port; with `http_anywhere = true` another one, too".to_string()),
            ("http_record", !self.http_record || (self.http.is_some() && self.record.is_some()), "goes with `http` and `record`".to_string()),
            ("round_trip_ms", (1..=60_000).contains(&self.round_trip_ms), "is a number from 1 to 60000".to_string()),
            ("lease_ms", self.lease_ms == 0 || (100..=60_000).contains(&self.lease_ms), "is 0, or a number from 100 to 60000".to_string()),
            ("tags", are_tags(&self.tags), format!("is a table of texts, {MAX_TAGS} bytes in all, without control characters")),
            ("record_mb", (1..=4096).contains(&self.record_mb), "is a number from 1 to 4096".to_string()),
            ("record_files", (1..=1000).contains(&self.record_files), "is a number from 1 to 1000".to_string()),
        ];
        if let Some((setting, _, why)) = rows.into_iter().find(|(_, is_right, _)| !is_right) {
            return Err(ConfigError::Setting { setting, why });
        }
        self.check_paths()?;
        if let Some(listen) = &self.listen {
            host_and_port("listen", listen)?;
        }
        for (at, node) in self.nodes.iter().enumerate().filter(|(_, node)| *node != EMPTY) {
            host_and_port("nodes", node)?;
            if self.nodes[..at].contains(node) {
                return Err(ConfigError::Setting { setting: "nodes", why: format!("{node:?} stands there twice") });
            }
        }
        Ok(())
    }

    fn is_served(&self, at: SocketAddr) -> bool {
        (self.http_anywhere || at.ip().is_loopback()) && at.port() != 0
    }

    /// In the name of which hosts the pages may be asked for.
    pub fn page_hosts(&self) -> Hosts {
        if !self.http.map_or(false, |at| !at.ip().is_loopback()) {
            return Hosts::Loopback;
        }
        let own = fs::read_to_string(HOSTNAME).unwrap_or_default().trim().to_string();
        let named = self.nodes.iter().filter_map(|node| node.rsplit_once(':')).map(|(host, _)| host.to_string());
        Hosts::Anywhere(named.chain([own]).collect())
    }

    /// The group of `admin_group`, and its number.
    pub fn admin(&self) -> Result<Option<(String, u32)>, ConfigError> {
        let name = match &self.admin_group {
            Some(name) => name,
            None => return Ok(None),
        };
        let number = group_number(name).ok_or_else(|| ConfigError::Setting { setting: "admin_group", why: format!("there is no group {name}") })?;
        Ok(Some((name.clone(), number)))
    }

    /// Each path names a file: the parts of a record, say, are named after it.
    fn check_paths(&self) -> Result<(), ConfigError> {
        let (key, record) = (self.key.as_deref(), self.record.as_deref());
        let given = [("file", Some(&*self.file)), ("program", Some(&*self.program)), ("socket", Some(&*self.socket))];
        let rows = given.into_iter().chain([("key", key), ("record", record), ("lease_file", self.lease_file.as_deref())]);
        match rows.into_iter().find(|(_, path)| path.map_or(false, |path| !names_file(path))) {
            Some((setting, _)) => Err(ConfigError::Setting { setting, why: "is the path of a file".to_string() }),
            None => Ok(()),
        }
    }

    /// The file of leases.
    pub fn lease_file(&self) -> PathBuf {
        let beside = || {
            let mut name = self.file.clone().into_os_string();
            name.push(".lease");
            name.into()
        };
        self.lease_file.clone().unwrap_or_else(beside)
    }

    /// The node's own address, where datagrams are received.
    pub fn listens_at(&self) -> &str {
        self.listen.as_deref().unwrap_or(&self.nodes[usize::from(self.id)])
    }

    /// The same with so many places as the node's file has: those behind the list are empty.
    pub fn with_places(mut self, places: usize) -> Result<Config, ConfigError> {
        let (listed, file) = (self.nodes.len(), self.file.display());
        if listed > places {
            let why = format!(
                "has {listed} places, and {file} is the file of a node of {places}. One of more is made so at each machine, with all agents stopped: \
                 `dumgerokctl export {file} > jobs`, the file put aside, `dumgerokctl format --places N --jobs jobs`"
            );
            return Err(ConfigError::Setting { setting: "nodes", why });
        }
        self.nodes.resize(places, EMPTY.to_string());
        Ok(self)
    }

    pub fn has_machine(&self, place: usize) -> bool {
        self.nodes.get(place).map_or(false, |node| node != EMPTY)
    }

    /// How many places have a machine.
    pub fn machines(&self) -> usize {
        self.nodes.iter().filter(|node| *node != EMPTY).count()
    }

    /// What of a changed configuration is taken without a restart: which places have a machine, and at which addresses.
    pub fn nodes_of(&self, changed: &Config) -> Result<Vec<String>, ConfigError> {
        if (changed.id, &changed.cluster) == (self.id, &self.cluster) {
            return changed.clone().with_places(self.nodes.len()).map(|changed| changed.nodes);
        }
        let why = "cluster and id stay what they are until the agent is started anew".to_string();
        Err(ConfigError::Setting { setting: "nodes", why })
    }

    /// Whether a changed configuration has other settings, too, which a restart takes: where the agent listens is one.
    pub fn differs_elsewhere(&self, changed: &Config) -> bool {
        let is_moved = changed.listens_at() != self.listens_at();
        is_moved || Config { nodes: self.nodes.clone(), tags: self.tags.clone(), ..changed.clone() } != *self
    }
}

/// What is wrong, and where: the reader of TOML names the first line where it means a setting, or the whole file.
fn told(text: &str, error: &toml::de::Error) -> String {
    let whole = error.to_string();
    let said = whole.rsplit_once(" at line ").map_or(&*whole, |(said, _)| said);
    let quoted = |before: &str| said.split_once(before).and_then(|(_, rest)| rest.split_once('`')).map(|(name, _)| name);
    if let Some(name) = quoted("missing field `") {
        return format!("the setting {name} is missing");
    }
    let unknown = quoted("unknown field `");
    let name = unknown.or_else(|| quoted("duplicate field `")).or_else(|| quoted(" for key `"));
    let line = name.and_then(|name| line_of(text, name)).or_else(|| error.line_col().map(|(line, _)| line + 1));
    let at = line.map_or(String::new(), |line| format!("line {line}: "));
    match (unknown, name) {
        (Some(name), _) => format!("{at}there is no setting {name} (dumgerokd.toml(5) has all)"),
        (_, Some(name)) => format!("{at}{name}: {}", in_words(said.rsplit_once(" for key ").map_or(said, |(said, _)| said))),
        (_, None) => format!("{at}{said}"),
    }
}

/// The line of a setting, or of a table of its name; the last one where there are more.
fn line_of(text: &str, name: &str) -> Option<usize> {
    let is_of = |line: &str| {
        let behind = line.trim_start().trim_start_matches(['[', '"']).strip_prefix(name);
        behind.map_or(false, |rest| rest.trim_start().starts_with(['=', ']', '.', '"']))
    };
    text.lines().collect::<Vec<_>>().iter().rposition(|line| is_of(line)).map(|at| at + 1)
}

/// The kinds of values as an operator knows them.
fn in_words(said: &str) -> String {
    let said = said.replace("invalid socket address syntax", "is an address with a port, as 127.0.0.1:7080");
    ["u8", "u32", "u64"].iter().fold(said, |said, kind| said.replace(&format!("expected {kind}"), "expected a number"))
}

/// It stands in the first line of a record, and is a word of a command line.
fn is_name(cluster: &str) -> bool {
    (1..=64).contains(&cluster.len()) && !cluster.chars().any(char::is_control)
}

/// They travel in one datagram.
fn are_tags(tags: &BTreeMap<String, String>) -> bool {
    let texts = || tags.iter().flat_map(|(name, value)| [name, value]);
    let is_named = tags.keys().all(|name| !name.is_empty());
    is_named && texts().map(|text| text.len()).sum::<usize>() <= MAX_TAGS && !texts().any(|text| text.chars().any(char::is_control))
}

/// Whether a path ends with the name of a file, and not as that of a folder.
fn names_file(path: &Path) -> bool {
    path.file_name().is_some() && !path.as_os_str().as_bytes().ends_with(b"/")
}

fn host_and_port(setting: &'static str, node: &str) -> Result<(), ConfigError> {
    let parts = node.rsplit_once(':').filter(|(host, _)| !host.is_empty());
    match parts.and_then(|(_, port)| port.parse::<u16>().ok()) {
        Some(port) if port > 0 => Ok(()),
        _ => Err(ConfigError::Setting { setting, why: format!("{node:?} is no HOST:PORT") }),
    }
}

#[cfg(test)]
mod tests {
    use super::*;
    use crate::chance::{Chance, TURNS};

    const WHOLE: &str =
        "cluster = \"prod\" # a name\nid = 1\nnodes = [\n  \"a:1\",\n  \"[::1]:2\", # two\n]\nfile = \"/f#1\"\n";

    #[test]
    fn a_whole_one() {
        let config = Config::parse(WHOLE).unwrap();
        assert_eq!((config.id, config.nodes.len(), config.listens_at()), (1, 2, "[::1]:2"));
        assert_eq!((config.lease_ms, config.lease_file()), (0, PathBuf::from("/f#1.lease")));
        assert_eq!((config.round_trip_ms, config.key, config.http), (20, None, None));
        assert_eq!(config.file, Path::new("/f#1"));
    }

    #[test]
    fn faults_are_named() {
        for (more, said) in [
            ("id = 2\n", "line 8: "),
            ("\ntick = 3\n", "line 9: there is no setting tick (dumgerokd.toml(5) has all)"),
            ("log = info\n", "line 8: "),
            ("log = \"loud\"\n", "line 8: log: unknown variant `loud`, expected one of `error`"),
            ("record_mb = \"9\"\n", "line 8: record_mb: invalid type: string \"9\", expected a number"),
            ("http = \"localhost:80\"\n", "line 8: http: is an address with a port, as 127.0.0.1:7080"),
            ("[part]\n", "line 8: there is no setting part"),
            ("[tags]\nrole = 7\n", "role: invalid type"),
            ("tags = { role = \"a\\u001bb\" }\n", "tags: is a table of texts, 512 bytes in all"),
            (&*format!("tags = {{ a = \"{}\" }}\n", "x".repeat(512)), "tags: is a table of texts, 512 bytes in all"),
            ("key \"k\"\n", "line 8: "),
            ("round_trip_ms = 0\n", "round_trip_ms: is a number from 1 to 60000"),
            ("lease_ms = 99\n", "lease_ms: is 0, or a number from 100 to 60000"),
            ("lease_file = \"/f/\"\n", "lease_file: is the path of a file"),
            ("http = \"10.0.0.1:80\"\n", "http: is an address of the loopback"),
            ("http = \"127.0.0.1:0\"\n", "http: is an address of the loopback with a port"),
            ("http_record = true\nhttp = \"127.0.0.1:80\"\n", "http_record: goes with `http` and `record`"),
            ("http_record = true\nrecord = \"r\"\n", "http_record: goes with `http` and `record`"),
            ("record = \"\"\n", "record: is the path of a file"),
            ("record = \"/var/lib/records/\"\n", "record: is the path of a file"),
            ("socket = \"/run/..\"\n", "socket: is the path of a file"),
            ("key = \"/\"\n", "key: is the path of a file"),
            ("listen = \"7000\"\n", "listen: \"7000\" is no HOST:PORT"),
        ] {
            let error = Config::parse(&format!("{WHOLE}{more}")).unwrap_err().to_string();
            assert!(error.contains(said), "{more}: {error}");
        }
        let missing = Config::parse("cluster = \"c\"\n").unwrap_err().to_string();
        assert_eq!(missing, "the setting id is missing");
        for cluster in ["", "a\\nb", "\\u0000", &"x".repeat(65)] {
            let error = Config::parse(&WHOLE.replace("prod", cluster)).unwrap_err().to_string();
            assert!(error.starts_with("cluster: is a name of 1 to 64 bytes"), "{cluster}: {error}");
        }
        let twice = Config::parse(&WHOLE.replace("[::1]:2", "a:1")).unwrap_err().to_string();
        assert_eq!(twice, "nodes: \"a:1\" stands there twice");
        for node in ["a", ":7", "a:0", "a:x", "a:70000"] {
            let text = format!("cluster = \"c\"\nid = 0\nfile = \"f\"\nnodes = [\"{node}\"]\n");
            assert!(Config::parse(&text).unwrap_err().to_string().starts_with("nodes: "), "{node}");
        }
    }

    #[test]
    fn a_number_is_taken_of_the_machines_name() {
        let names = ["dumgerok-2", "a-b-0.dumgerok.svc", "dumgerok", "dumgerok-", "x-300", "x-+3", "-7", "2"];
        assert_eq!(names.map(number_of), [Some(2), Some(0), None, None, None, None, Some(7), None]);
        let said = |id: &str| Config::parse(&WHOLE.replace("id = 1", id)).map_or_else(|why| why.to_string(), |config| config.id.to_string());
        let own = fs::read_to_string(HOSTNAME).unwrap();
        match number_of(own.trim()) {
            Some(number) if number > 1 => assert!(said("id = \"hostname\"").starts_with("id: is a number below 2")),
            Some(number) => assert_eq!(said("id = \"hostname\""), number.to_string()),
            None => assert!(said("id = \"hostname\"").contains("doesn't end with a number"), "{}", said("id = \"hostname\"")),
        }
        assert!(said("id = \"1\"").contains("id: is a number, or \"hostname\", and no \"1\""), "{}", said("id = \"1\""));
        assert!(said("id = 300").contains("id: is a number from 0 to 127"), "{}", said("id = 300"));
    }

    #[test]
    fn places_may_be_empty_and_those_behind_the_list_are() {
        let text = WHOLE.replace("\"a:1\"", "\"-\", \"c:1\"").replace("id = 1", "id = 2").replace("two\n", "two\n  \"-\",\n  \"-\",\n");
        let config = Config::parse(&text).unwrap();
        assert_eq!((config.nodes.len(), config.machines(), config.listens_at()), (5, 2, "[::1]:2"));
        let spread = config.clone().with_places(128).unwrap();
        assert_eq!((spread.nodes.len(), spread.machines(), spread.nodes_of(&config).unwrap()), (128, 2, spread.nodes.clone()));
        assert_eq!([1, 2, 3, 127, 128].map(|place| spread.has_machine(place)), [true, true, false, false, false]);
        let said = config.with_places(4).unwrap_err().to_string();
        assert!(said.starts_with("nodes: has 5 places, and /f#1 is the file of a node of 4. One of more is made so"), "{said}");
        let own = Config::parse(&text.replace("id = 2", "id = 0")).unwrap_err().to_string();
        assert_eq!(own, "id: is a place of `nodes` that has a machine, and 0 has none");
    }

    #[test]
    fn pages_are_served_elsewhere_by_a_setting_of_its_own() {
        let elsewhere = format!("{WHOLE}http = \"[::]:7080\"\nhttp_anywhere = true\n");
        let config = Config::parse(&elsewhere).unwrap();
        match config.page_hosts() {
            Hosts::Anywhere(names) => assert_eq!(names[..2], ["a", "[::1]"]),
            Hosts::Loopback => panic!("at any address"),
        }
        let at_home = Config::parse(&elsewhere.replace("[::]", "[::1]")).unwrap();
        assert_eq!((at_home.page_hosts(), Config::parse(WHOLE).unwrap().page_hosts()), (Hosts::Loopback, Hosts::Loopback));
    }

    #[test]
    fn a_group_of_admins_is_one_that_is_there() {
        let of = |name: &str| Config::parse(&format!("{WHOLE}admin_group = \"{name}\"\n")).unwrap().admin();
        assert_eq!(of("root").unwrap(), Some(("root".to_string(), 0)));
        assert_eq!(of("no such group").unwrap_err().to_string(), "admin_group: there is no group no such group");
        assert_eq!(Config::parse(WHOLE).unwrap().admin().unwrap(), None);
    }

    #[test]
    fn machines_and_addresses_alone_change_without_a_restart() {
        let config = Config::parse(WHOLE).unwrap();
        let moved = Config::parse(&WHOLE.replace("a:1", "b:1")).unwrap();
        assert_eq!(config.nodes_of(&moved).unwrap()[0], "b:1");
        let more = Config::parse(&format!("{WHOLE}log = \"debug\"\n")).unwrap();
        assert!(config.differs_elsewhere(&more) && !config.differs_elsewhere(&moved));
        let tagged = Config::parse(&format!("{WHOLE}tags = {{ role = \"db\", rack = \"7\" }}\n")).unwrap();
        assert!(!config.differs_elsewhere(&tagged) && tagged.tags["rack"] == "7");
        let own_moved = Config::parse(&WHOLE.replace("[::1]:2", "[::1]:3")).unwrap();
        assert!(config.differs_elsewhere(&own_moved), "it listens elsewhere");
        let other = Config::parse(&WHOLE.replace("id = 1", "id = 0")).unwrap();
        assert!(config.nodes_of(&other).is_err());
        let longer = Config::parse(&WHOLE.replace("# two\n", "# two\n  \"d:1\",\n")).unwrap();
        assert!(config.nodes_of(&longer).is_err() && longer.nodes_of(&config).unwrap()[2] == EMPTY);
    }

    #[test]
    fn whatever_a_file_holds_is_read_or_refused() {
        let more = "listen = \"0.0.0.0:1\"\nhttp = \"127.0.0.1:7080\"\nlease_ms = 2000\nlog = \"debug\"\n[tags]\nrack = \"7\"\n";
        let (mut chance, mut taken, right) = (Chance::of(13), 0, format!("{WHOLE}{more}"));
        assert!(Config::parse(&right).is_ok());
        for _ in 0..TURNS {
            match Config::parse(&chance.odd_text(&[&right], 300)) {
                Ok(config) => {
                    taken += 1;
                    assert!(config.nodes.len() <= 128 && !config.listens_at().is_empty() && config.machines() > 0);
                    assert!(config.with_places(128).unwrap().nodes.len() == 128);
                }
                Err(why) => assert!(!why.to_string().is_empty()),
            }
        }
        assert!(taken > 100, "{taken}");
    }
}
