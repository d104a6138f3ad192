//! Records line by line, and what they come to.

use super::*;
use serde_json::{json, Value};

fn values(entries: &str) -> Vec<Value> {
    serde_json::from_str(&format!("[{entries}]")).unwrap()
}

fn begins() -> Arc<[Begin]> {
    Arc::new([Begin { count: 100, id: 5 }])
}

/// What so many lines come to that a record has so far.
fn grown(lines: &str, count: usize) -> Result<History, RecordError> {
    let mut history = History::new(0, begins());
    (2..).zip(lines.lines().take(count)).try_for_each(|(number, line)| history.reads((0, number), line))?;
    Ok(history)
}

fn noted(lines: &str) -> Result<History, RecordError> {
    let mut history = History::noted(0, begins());
    (2..).zip(lines.lines()).try_for_each(|(number, line)| history.reads((0, number), line))?;
    history.end().map(|()| history)
}

/// A whole record. One that grows to it comes to the same in the end, and before to nothing else than its begin.
fn whole(lines: &str) -> Result<History, RecordError> {
    let whole = noted(lines);
    let count = lines.lines().count();
    let ended = grown(lines, count).and_then(|mut history| history.end().map(|()| history));
    match (&whole, &ended) {
        (Ok(whole), Ok(ended)) => assert_eq!((ended.entries(), ended.places()), (whole.entries(), whole.places()), "{lines}"),
        _ => assert_eq!(whole.as_ref().err().map(RecordError::to_string), ended.as_ref().err().map(RecordError::to_string), "{lines}"),
    }
    for so_far in (0..count).map_while(|count| grown(lines, count).ok()) {
        if let Ok(whole) = &whole {
            assert!(whole.entries().starts_with(so_far.entries()) && whole.places().starts_with(so_far.places()), "{lines}");
        }
    }
    whole
}

fn entries(lines: &str) -> Vec<String> {
    values(whole(lines).unwrap().entries()).iter().map(Value::to_string).collect()
}

const START: &str = "start\n> recover\ngroup Normal 0 0:101 0\nkeeps 101 5 0\nok 1\n";

#[test]
fn a_record_begins_with_count_1_and_id_0() {
    let lines = format!("{START}> submit 3 6869\ntake 0 5 3 6869\nok 2 id 5\n> finish 0 5\ngone 5\nok 3\n> tick 9\nfired check\nnext 30\nok 4\n");
    let put = [
        r#"{"do":"submit","payload":"6869","queue":3,"sent":[],"told":{"dropped":"","group":"Normal 0 0:1 0","id":"0","took":"0 0 3 6869;"}}"#,
        r#"{"do":"finish","id":0,"origin":0,"sent":[],"told":{"gone":"0;"}}"#,
        r#"{"do":"check","sent":[]}"#,
    ];
    assert_eq!(entries(&lines), put);
}

/// What is told of the entries of such a record.
fn told(lines: &str) -> Vec<Value> {
    values(whole(lines).unwrap().entries()).iter().map(|entry| entry["told"].clone()).collect()
}

#[test]
fn what_could_be_told_and_was_not_is_told_as_nothing() {
    let group = "Normal 0 0:1 0";
    let lines = format!("{START}> check\nok 2\n> dispatch\nok 3\n> submit 3 -\nok 4\n> finish 1 7\nok 5\n> tick 9\nfired coord\nfired dispatch\ntake 0 5 3 -\nnext 12\nok 6\n> submit 3 -\nrefused 7 Full\n> deliver 0101\nok 8\n");
    let texts = [
        json!({"dropped": "", "group": group}),
        json!({"took": ""}),
        json!({"took": "", "id": ""}),
        json!({"gone": ""}),
        json!({"dropped": "", "group": group}),
        json!({"took": "0 0 3 -;"}),
        Value::Null,
    ];
    assert_eq!(told(&lines), texts);
}

#[test]
fn a_recovery_tells_its_group_and_what_the_file_keeps_behind_what_was_in_doubt() {
    let again = "start\n> recover\ngroup Normal 0 0:102 0\nkeeps 102 7 2\nok 1\n> tick 9\nfired dispatch\ntake 0 5 3 6869\ntake 0 6 4 -\nok 2\n> recover\ngroup Normal 0 0:103 0\ndrop 0 5\ndrop 0 6\nkeeps 103 7 2\nok 3\n";
    let texts = |asked: &str| told(&format!("{START}{asked}{again}"));
    let (recovery, last) = (json!({"dropped": "", "group": "Normal 0 0:2 0", "kept": "2 2 2"}), json!({"dropped": "0 0;0 1;", "group": "Normal 0 0:3 0", "kept": "3 2 2"}));
    let doubtful = "> submit 3 6869\n> submit 4 -\n";
    assert_eq!(texts(doubtful), [Value::Null, Value::Null, Value::Null, recovery.clone(), json!({"took": ""}), last.clone()]);
    let known = "> submit 3 6869\ntake 0 5 3 6869\nok 2 id 5\n> submit 4 -\ntake 0 6 4 -\nok 3 id 6\n";
    assert_eq!(texts(known)[2..], [Value::Null, recovery, json!({"took": "0 0 3 6869;0 1 4 -;"}), last]);
}

#[test]
fn what_is_told_where_no_entry_can_say_it_is_refused() {
    for (lines, why) in [
        ("> tick 9\ntake 0 5 3 -\nnext 12\nok 2\n", "\"take 0 5 3 -\", where no event stands"),
        ("> tick 9\ngone 5\nfired check\nok 2\n", "\"gone 5\", where no event stands"),
        ("> jobs\ndrop 0 5\nok 2\n", "\"drop 0 5\", where no event stands"),
        ("> tick 9\nok 2 id 5\n", "id 5, and \"tick 9\" brings no job"),
        ("> tick 9\nok 3\n", "\"ok 3\" closes the answer to request 2 of its process"),
    ] {
        let refused = whole(&format!("{START}{lines}")).map_or_else(|why| why.to_string(), |_| "nothing".to_string());
        assert!(refused.ends_with(&format!("node 0 told {why}")), "{refused}");
    }
}

/// What a run comes to that a kill ends with these lines, and in which the next process finds these numbers and says these lines.
fn killed(last: &str, keeps: &str, later: &str) -> Result<Vec<String>, String> {
    let lines = format!("{START}{last}start\n> recover\ngroup Normal 0 0:{} 0\nkeeps {keeps}\nok 1\n{later}", keeps.split(' ').next().unwrap());
    let history = whole(&lines).map_err(|why| why.to_string())?;
    Ok(values(history.entries()).iter().map(short).collect())
}

/// An entry in a few words.
fn short(entry: &Value) -> String {
    let word = |name: &str| entry.get(name).map(|value| format!(" {}", value.as_str().map_or_else(|| value.to_string(), str::to_string)));
    assert_eq!(entry["sent"], json!([]));
    entry["do"].as_str().unwrap().to_string() + &["kept", "fault", "queue", "payload", "priority", "origin", "id", "msg"].iter().filter_map(|name| word(name)).collect::<String>()
}

const AGAIN: [&str; 2] = ["crash", "recover false"];

fn again_and(more: &[&str]) -> Result<Vec<String>, String> {
    Ok(AGAIN.iter().chain(more).map(|word| word.to_string()).collect())
}

#[test]
fn what_a_kill_left_in_doubt_is_known_by_what_is_found() {
    assert_eq!(killed("> submit 3 -\n", "102 6 1", ""), again_and(&["submit 3 "]));
    assert_eq!(killed("> submit 3 -\n", "102 5 0", ""), again_and(&[]));
    assert_eq!(killed("", "102 5 0", ""), again_and(&[]));
    // groups that were begun unseen are those of recoveries
    let raised = ["crash", "recover false raise", "recover true raise", "recover true"].map(str::to_string).to_vec();
    assert_eq!(killed("> merge\n> tick 3\n", "104 5 0", ""), Ok(raised));
}

#[test]
fn all_that_was_asked_and_has_no_answer_is_in_doubt() {
    let two = "> submit 3 6869\n> submit 4 - 7\n";
    assert_eq!(killed(two, "102 7 2", ""), again_and(&["submit 3 6869", "submit 4  7"]));
    // an answer of which a part came through is none
    assert_eq!(killed(&format!("{two}take 0 5 3 6869\n"), "102 7 2", ""), again_and(&["submit 3 6869", "submit 4  7"]));
    assert_eq!(killed(&format!("{two}take 0 5 3 6869\nok 2 id 5\n"), "102 7 2", ""), Ok(["submit 3 6869", "crash", "recover false", "submit 4  7"].map(str::to_string).to_vec()));
    // requests of two processes of which none was answered
    assert_eq!(killed("> submit 3 6869\nstart\n> recover\n> submit 4 -\n", "102 7 2", ""), again_and(&["submit 3 6869", "submit 4 "]));
}

#[test]
fn which_ones_counted_is_known_by_what_is_said_of_the_jobs() {
    let asked = "> submit 3 6869\n> submit 4 -\n> submit 3 6868 9\n";
    let said = |line: &str| killed(asked, "102 6 1", &format!("> tick 9\nfired dispatch\n{line}\nok 2\n> tick 10\nfired dispatch\nok 3\n"));
    assert_eq!(said("take 0 5 4 -").unwrap()[2..], ["submit 4 ", "dispatch", "dispatch"]);
    assert_eq!(said("take 0 5 3 6868 9").unwrap()[2..], ["submit 3 6868 9", "dispatch", "dispatch"]);
    assert_eq!(killed(asked, "102 6 1", "> jobs\npending 5 3 6868 9\nok 2\n").unwrap()[2], "submit 3 6868 9");
    assert_eq!(killed(asked, "102 6 1", "").unwrap()[2], "submit 3 6869", "of a job that is never named it may be any");
    let sent = "> state\nsend 1 010b0001001700000000000000006600000000000000050309000268680000\nok 2\n";
    assert_eq!(killed(asked, "102 6 1", sent).unwrap()[2], "submit 3 6868 9");
    let refused = said("take 0 5 7 -").unwrap_err();
    let why = "its file said \"102 6 1\" when it was mounted, which nothing that stands before can have brought about, unless lines are lost there, as by a loss of power";
    assert!(refused.ends_with(why), "{refused}");
}

#[test]
fn ends_of_jobs_in_doubt_that_counted() {
    let kept = |last: &str| format!("> submit 3 -\nok 2 id 5\n> submit 4 -\nok 3 id 6\n> submit 5 -\nok 4 id 7\n{last}");
    let ended = |last: &str, keeps: &str, later: &str| killed(&kept(last), keeps, later).map(|entries| entries[5..].to_vec());
    let done = "> deliver 010a010000080000000000000006\n";
    assert_eq!(ended(done, "102 8 2", "").unwrap(), ["deliver 010a010000080000000000000001"]);
    assert_eq!(ended(done, "102 8 3", "").unwrap(), [""; 0]);
    // what it finished itself was in hand before it ended; behind that it has none
    for asked in ["{done}{done}> finish 0 5\n> finish 1 7\n", "> finish 0 5\n{done}"] {
        let entries = killed(&kept(&asked.replace("{done}", done)), "102 8 1", "").unwrap();
        assert_eq!(entries[3..], ["finish 0 0", "crash", "recover false", "deliver 010a010000080000000000000001"]);
    }
    // one that is named later on was still pending
    let both = format!("{done}> finish 0 5\n> submit 1 -\n");
    let later = "> tick 9\nfired dispatch\ntake 0 6 4 -\ntake 0 7 5 -\ntake 0 8 1 -\nok 2\n";
    assert_eq!(killed(&kept(&both), "102 9 3", later).unwrap()[3..7], ["finish 0 0", "crash", "recover false", "submit 1 "]);
    assert!(ended(done, "102 8 1", "").is_err() && ended("", "102 8 2", "").is_err(), "nobody ended two, or one");
}

#[test]
fn a_record_that_grows_waits_where_it_is_open_which_requests_counted() {
    let lines = |keeps: &str| {
        let again = format!("start\n> recover\ngroup Normal 0 0:102 0\nkeeps {keeps}\nok 1\n");
        let (event, line) = match keeps {
            "102 5 0" => ("dispatch", "send 1 010100010000"),
            "102 7 2" => ("check", "send 1 010100010000"),
            _ => ("dispatch", "take 0 5 4 -"),
        };
        format!("{START}> submit 3 6869\n> submit 4 -\n{again}> tick 9\nfired check\nok 2\n> tick 10\nfired {event}\n{line}\nok 3\n")
    };
    // none before the recovery's last line, which is the twelfth; then so many by that one, by the next answer, and by the one in which the node dispatches
    for (keeps, counts) in [("102 5 0", [2, 3, 4]), ("102 7 2", [4, 5, 6]), ("102 6 1", [0, 0, 5])] {
        let lines = lines(keeps);
        let at = |count: usize| grown(&lines, count).unwrap();
        assert_eq!([11, 12, 14, 15, 18, 19].map(|count| at(count).places().len()), [0, counts[0], counts[0], counts[1], counts[1], counts[2]], "{keeps}");
        assert_eq!([11, 12, 18, 19].map(|count| at(count).is_waiting()), [false, counts[0] == 0, counts[0] == 0, false], "{keeps}");
    }
    let lines = lines("102 6 1");
    assert_eq!(grown(&lines, 13).unwrap().bytes(), "> tick 9".len());
    assert_eq!(whole(&lines).unwrap().places(), [(0, 13), (0, 13), (0, 13), (0, 16), (0, 20)]);
}

#[test]
fn lines_that_wait_are_killed_again() {
    let again = |keeps: &str| format!("start\n> recover\ngroup Normal 0 0:{} 0\nkeeps {keeps}\nok 1\n", keeps.split(' ').next().unwrap());
    let asked = ["> submit 3 6869\n> submit 4 -\n", "> submit 5 -\n> submit 6 -\n"];
    let lines = format!("{START}{}{}{}{}", asked[0], again("102 6 1"), asked[1], again("103 7 2"));
    let put = |later: &str| values(whole(&format!("{lines}{later}")).unwrap().entries()).iter().map(short).collect::<Vec<_>>();
    let dispatched = "> tick 9\nfired dispatch\ntake 0 5 4 -\ntake 0 6 6 -\nok 2\n";
    assert_eq!(put(dispatched), ["crash", "recover false", "submit 4 ", "crash", "recover false", "submit 6 ", "dispatch"]);
    assert_eq!(put(""), ["crash", "recover false", "submit 3 6869", "crash", "recover false", "submit 5 "]);
}

#[test]
fn a_clock_that_fell_back_or_jumped_orders_no_turn_before_an_earlier_one() {
    let tick = |ms: u64, number: u8| format!("> tick {ms}\nfired check\nok {number}\n");
    let again = |ms: u64| format!("start {ms}\n> recover\nkeeps 102 5 0\nok 1\n");
    for (second, times) in [
        (1000, [5009, 5009, 5009, 5009]),
        (4000, [5009, 5009, 5009, 5900]),
        (90_000, [5009, 90_001, 90_001, 91_900]),
    ] {
        let lines = START.replace("start", "start 5000") + &tick(9, 2) + &again(second) + &tick(1, 2) + &tick(1900, 3);
        let history = whole(&lines).unwrap();
        let entries = values(history.entries());
        let since = history.into_since();
        let seen: Vec<(&str, u64)> = entries.iter().zip(since.times()).map(|(entry, time)| (entry["do"].as_str().unwrap(), time)).collect();
        let what = ["check", "crash", "recover", "check", "check"];
        assert_eq!(seen.iter().map(|(what, _)| *what).collect::<Vec<_>>(), what);
        let seen: Vec<u64> = seen.iter().map(|(_, time)| *time).collect();
        assert_eq!([seen[0], seen[2], seen[3], seen[4]], times, "{second}");
    }
}

#[test]
fn numbers_that_nothing_in_doubt_brings_about_are_refused() {
    for keeps in ["18446744073709551615 5 0", "119 5 0", "101 5 0", "102 4 0", "102 5 1", "102 6 1", "102 5"] {
        assert!(killed("> merge\n", keeps, "").is_err(), "{keeps}");
    }
    assert!(killed("> merge\n", "118 5 0", "").is_ok() && killed("", "103 5 0", "").is_err(), "no more groups than requests can begin");
}

#[test]
fn a_failed_device_leaves_its_event_in_doubt() {
    let lines = |keeps: &str| format!("{START}> submit 3 -\ngroup Down\nfault 2 Device\nstart\n> recover\ngroup Normal 0 0:102 0\nkeeps {keeps}\nok 1\n");
    let told = |kept: &str| format!(r#","sent":[],"told":{{"dropped":"","group":"Normal 0 0:2 0","kept":"{kept}"}}}}"#);
    assert_eq!(entries(&lines("102 5 0")), [r#"{"do":"crash","sent":[]}"#.to_string(), r#"{"do":"recover","kept":false"#.to_string() + &told("2 0 0")]);
    assert_eq!(entries(&lines("102 6 1"))[2], r#"{"do":"submit","payload":"","queue":3"#.to_string() + &told("2 1 1"));
}

/// A leader that checks and finds nobody, and is asked by a member, so many times.
fn steady(times: usize) -> String {
    let mut lines = START.to_string();
    for (turn, number) in (0..times).zip((2..).step_by(4)) {
        lines += &format!("> tick {turn}0\nfired check\nsend 1 010100010000\nok {number}\n> deliver 01020100000100\nok {}\n", number + 1);
        lines += &format!("> deliver 010301000009000000000000000001\nsend 1 01040001000a00000000000000000101\nok {}\n> tick {turn}5\nfired merge\nok {}\n", number + 2, number + 3);
    }
    lines
}

/// Two nodes, of which the first begins with count 101.
fn of_two(lines: &str) -> History {
    let mut history = History::new(0, Arc::new([Begin { count: 100, id: 5 }, Begin::default()]));
    (2..).zip(lines.lines()).try_for_each(|(number, line)| history.reads((0, number), line)).unwrap();
    history
}

fn done(history: &History) -> Vec<String> {
    values(history.entries()).iter().map(|entry| entry["do"].as_str().unwrap().to_string()).collect()
}

#[test]
fn what_repeats_is_forgotten_once_it_was_judged() {
    let mut history = of_two(&steady(3));
    history.forget(3);
    assert_eq!((done(&history).len(), history.forgotten()), (11, 1), "the answer of nobody leaves it as it is");
    for _ in 0..2 {
        history.forget(11);
        // the last check was the same as the first: it sent the same, and behind it the node stands as behind that
        assert_eq!((done(&history), history.forgotten()), (["check", "deliver", "merge"].map(str::to_string).to_vec(), 9));
        assert_eq!([0, 1, 2, 3].map(|entry| history.number(entry)), [0, 2, 11, 12]);
    }
    assert_eq!(history.places(), [(0, 10), (0, 15), (0, 42)]);
    assert!(history.bytes() < of_two(&steady(3)).bytes() / 2);
}

#[test]
fn in_steps_the_same_is_forgotten_as_at_once() {
    let check = |number: u8| format!("> tick {number}\nfired check\nsend 1 010100010000\nok {number}\n");
    let lines = format!("{}> submit 3 -\nsend 1 0109\nok 14 id 5\n{}> tick 16\nfired merge\nok 16\n{}", steady(3), check(15), check(17));
    let whole = || of_two(&lines);
    let count = whole().places().len();
    let at_once = |history: &mut History| history.forget(usize::MAX);
    let mut kept = whole();
    at_once(&mut kept);
    assert_eq!(done(&kept), ["check", "deliver", "merge", "submit", "check"], "behind what changes its jobs all is new");
    for first in 0..count {
        for second in 0..count {
            let mut history = whole();
            [first, second].iter().for_each(|taken| history.forget(*taken));
            at_once(&mut history);
            assert_eq!((history.entries(), history.places()), (kept.entries(), kept.places()), "{first} {second}");
        }
    }
}

#[test]
fn what_sends_something_new_or_changes_a_group_stays() {
    for (lines, stays) in [
        ("> deliver 010301000009000000000000000002\nsend 1 01040001000a00000000000000000201\nok 14\n", true),
        ("> deliver 010301000009000000000000000001\nsend 1 01040001000a00000000000000000101\nok 14\n", false),
        ("> deliver 01020100000101\nok 14\n", true),
        ("> deliver 01020100000100\nok 14\n", false),
        ("> deliver 010601000009000000000000000001\nok 14\n", true),
        ("> recover\ngroup Normal 0 0:102 0\nok 14\n", true),
    ] {
        let mut history = of_two(&format!("{}{lines}", steady(3)));
        history.forget(usize::MAX);
        assert_eq!(done(&history).len(), 3 + usize::from(stays), "{lines}");
    }
}

#[test]
fn what_stays_tells_what_it_told() {
    let group = "> recover\ngroup Normal 0 0:102 0\nkeeps 102 5 0\nok 14\n> tick 99\nfired check\nsend 1 010100010000\nok 15\n";
    let mut history = of_two(&format!("{}{group}", steady(3)));
    history.forget(usize::MAX);
    let texts: Vec<Value> = values(history.entries()).iter().map(|entry| entry["told"].clone()).collect();
    let first = json!({"dropped": "", "group": "Normal 0 0:1 0"});
    assert_eq!(texts, [first, Value::Null, Value::Null, json!({"dropped": "", "group": "Normal 0 0:2 0", "kept": "2 0 0"}), Value::Null]);
}
