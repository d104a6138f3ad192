//! What an entry makes of its node's state, as the table of events says it (docs/PROTOCOL.md), so far as that is known without the state. What changes the group, the
//! task or the jobs has a line of its own in the answer; what changes none of these changes at most what the node found by a check, and whether it asked its
//! coordinator.

/// What a node asked its coordinator about: who that is, and the group, as digits.
pub(super) type Question = (String, String);

#[derive(Debug, PartialEq, Eq)]
pub(super) enum Effect {
    Nothing,
    /// Nobody is found, and a check begins.
    Checks,
    /// A check ends by which nobody was found, if one goes on.
    Ends,
    /// The coordinator is asked.
    Asks(Question),
    /// And says yes.
    Hears(Question),
    Other,
}

/// The lines of an answer that say nothing of a change.
const QUIET: [&str; 3] = ["send", "fired", "next"];

/// What an event may make a node tell, by the table of events, where it sends something or nothing: of these keys its entry says something, though no line does. In
/// all other events the node tells nothing, or its sendings would differ, too.
pub(super) fn keys_of(name: &str, request: &str, has_sent: bool) -> &'static [&'static str] {
    const GROUP: &[&str] = &["group", "dropped"];
    let digits = request.split(' ').nth(1).filter(|_| name == "deliver").unwrap_or_default();
    match (name, digits.get(KIND).unwrap_or_default()) {
        ("check", _) | ("deliver", "01" | "02" | "03" | "06") => &[],
        ("merge", _) | ("deliver", "05" | "07") => if has_sent { GROUP } else { &[] },
        ("coord", _) => if has_sent { &[] } else { GROUP },
        ("deliver", "04") => if is_yes(digits) { &[] } else { GROUP },
        ("accept" | "ready" | "recover", _) | ("deliver", "08") => GROUP,
        ("dispatch", _) | ("deliver", "09" | "0b") => &["took"],
        ("finish", _) | ("deliver", "0a") => &["gone"],
        ("submit", _) => &["took", "id"],
        _ => &["group", "took", "dropped", "gone", "id"],
    }
}

/// Of a Here, whether it says yes.
fn is_yes(digits: &str) -> bool {
    digits.get(BODY + GROUP..BODY + GROUP + 2) == Some("01")
}

/// The places of a message's kind, sender, receiver and body in its digits. A group has so many.
const KIND: std::ops::Range<usize> = 2..4;
const SENDER: std::ops::Range<usize> = 4..6;
const RECEIVER: std::ops::Range<usize> = 6..8;
const BODY: usize = 12;
const GROUP: usize = 18;

/// Of an event with the lines of its answer, at a node that `has_others` beside it. What its hand has is asked of its lines where `is_hand_known`.
pub(super) fn effect_of(name: &str, request: &str, lines: &[&str], is_hand_known: bool, has_others: bool) -> Effect {
    if lines.iter().any(|line| !QUIET.contains(&line.split(' ').next().unwrap_or_default())) {
        return Effect::Other;
    }
    let sent: Vec<&str> = lines.iter().filter_map(|line| line.strip_prefix("send ")?.split(' ').nth(1)).collect();
    match (name, sent.as_slice()) {
        ("check", []) if has_others => Effect::Nothing,
        ("check", [_, ..]) => Effect::Checks,
        ("merge", []) => Effect::Ends,
        ("coord", []) | ("accept", []) | ("ready", []) => Effect::Nothing,
        ("coord", [question]) => question_in(question, "03", RECEIVER).map_or(Effect::Other, Effect::Asks),
        ("dispatch", _) if is_hand_known => Effect::Nothing,
        ("deliver", _) => request.split(' ').nth(1).map_or(Effect::Other, |digits| effect_of_message(digits, is_hand_known)),
        _ => Effect::Other,
    }
}

/// Of a message that came, by which nothing was told to have changed.
fn effect_of_message(digits: &str, is_hand_known: bool) -> Effect {
    match (digits.get(KIND), digits.get(BODY..)) {
        // a question is answered; an Invitation that is followed, a Ready of which a task is made, and a Here that says no to one who asked, change the group
        (Some("01" | "03" | "05" | "07"), _) => Effect::Nothing,
        (Some("02"), Some(body)) if body.starts_with("00") => Effect::Nothing,
        (Some("04"), Some(body)) if body.get(GROUP..GROUP + 2) == Some("00") => Effect::Nothing,
        (Some("04"), _) => question_in(digits, "04", SENDER).map_or(Effect::Other, Effect::Hears),
        (Some("09" | "0b"), _) if is_hand_known => Effect::Nothing,
        _ => Effect::Other,
    }
}

/// What is asked or answered by a message of this kind, with the coordinator at this place.
fn question_in(digits: &str, kind: &str, coordinator: std::ops::Range<usize>) -> Option<Question> {
    let group = digits.get(BODY..BODY + GROUP).filter(|_| digits.get(KIND) == Some(kind))?;
    Some((digits.get(coordinator)?.to_string(), group.to_string()))
}

/// How a node stands within an era: while its group, its task and its jobs stay as they are.
#[derive(Clone, Debug, Default, PartialEq, Eq)]
pub(super) struct Standing {
    looks: Looks,
    asks: Asks,
}

/// What it found by checks, and whether one goes on.
#[derive(Clone, Copy, Debug, Default, PartialEq, Eq)]
enum Looks {
    /// As when the era began.
    #[default]
    AsBefore,
    /// The same, but that no check goes on.
    AsBeforeAndEnded,
    Checking,
    Ended,
}

/// Whether its coordinator was asked and didn't answer yet.
#[derive(Clone, Debug, Default, PartialEq, Eq)]
enum Asks {
    #[default]
    AsBefore,
    Asked(Question),
    Answered,
}

impl Standing {
    /// How it stands behind an entry; none where another era begins.
    pub fn after(&self, effect: &Effect) -> Option<Standing> {
        let (mut looks, mut asks) = (self.looks, self.asks.clone());
        match (effect, &self.asks) {
            (Effect::Nothing, _) => {}
            (Effect::Checks, _) => looks = Looks::Checking,
            (Effect::Ends, _) if looks == Looks::AsBefore => looks = Looks::AsBeforeAndEnded,
            (Effect::Ends, _) if looks == Looks::Checking => looks = Looks::Ended,
            (Effect::Ends, _) => {}
            (Effect::Asks(question), _) => asks = Asks::Asked(question.clone()),
            (Effect::Hears(_), Asks::AsBefore) | (Effect::Other, _) => return None,
            (Effect::Hears(answered), Asks::Asked(question)) if answered == question => asks = Asks::Answered,
            // nobody asked that
            (Effect::Hears(_), _) => {}
        }
        Some(Standing { looks, asks })
    }
}

#[cfg(test)]
mod tests {
    use super::*;

    const ASKS: &str = "send 0 010301000009000000000000000001ab";

    fn question() -> Question {
        ("00".to_string(), "000000000000000001".to_string())
    }

    #[test]
    fn what_is_known_without_the_state_to_leave_it_as_it_is() {
        let here = |agreed: &str| format!("deliver 01040001000a000000000000000001{agreed}ff");
        let (yes, no) = (here("01"), here("00"));
        for (name, request, lines, effect) in [
            ("check", "tick 9", vec!["fired check"], Effect::Nothing),
            ("check", "tick 9", vec!["fired check", "send 1 010100010000"], Effect::Checks),
            ("merge", "tick 9", vec!["fired merge", "next 7"], Effect::Ends),
            ("merge", "tick 9", vec!["fired merge", "group Election 0 0:2 -", "send 1 01"], Effect::Other),
            ("coord", "tick 9", vec!["fired coord", ASKS], Effect::Asks(question())),
            ("coord", "tick 9", vec!["fired coord", "group Normal 1 1:2 1"], Effect::Other),
            ("dispatch", "tick 9", vec!["fired dispatch", "send 1 0109"], Effect::Nothing),
            ("dispatch", "tick 9", vec!["fired dispatch", "take 0 5 3 -"], Effect::Other),
            ("deliver", "deliver 010100010000", vec!["send 0 01020100000100"], Effect::Nothing),
            ("deliver", "deliver 01020001000100", vec![], Effect::Nothing),
            ("deliver", "deliver 01020001000101", vec![], Effect::Other),
            ("deliver", &yes, vec![], Effect::Hears(question())),
            ("deliver", &no, vec![], Effect::Nothing),
            ("deliver", &no, vec!["group Normal 1 1:2 1"], Effect::Other),
            ("deliver", "deliver 010601000009000000000000000001", vec![], Effect::Other),
            ("deliver", "deliver 010801000009000000000000000001", vec![], Effect::Other),
            ("deliver", "deliver 010a01000008000000000000000001", vec![], Effect::Other),
            ("submit", "submit 3 -", vec!["send 1 0109"], Effect::Other),
            ("finish", "finish 0 5", vec![], Effect::Other),
        ] {
            assert_eq!(effect_of(name, request, &lines, true, true), effect, "{name} {request} {lines:?}");
        }
        let unknown = |name, request| effect_of(name, request, &[], false, false);
        assert_eq!([unknown("check", "tick 9"), unknown("dispatch", "tick 9"), unknown("deliver", "deliver 01090001001f")], [Effect::Other, Effect::Other, Effect::Other]);
    }

    #[test]
    fn what_an_event_may_make_a_node_tell() {
        let here = |agreed: &str| format!("deliver 01040001000a000000000000000001{agreed}ff");
        let (yes, no) = (here("01"), here("00"));
        let (group, all): (&[&str], &[&str]) = (&["group", "dropped"], &["group", "took", "dropped", "gone", "id"]);
        for (name, request, has_sent, keys) in [
            ("check", "tick 9", false, &[][..]),
            ("merge", "tick 9", true, group),
            ("merge", "tick 9", false, &[]),
            ("coord", "tick 9", true, &[]),
            ("coord", "lost 1", false, group),
            ("accept", "tick 9", false, group),
            ("ready", "tick 9", false, group),
            ("recover", "recover", false, group),
            ("dispatch", "tick 9", true, &["took"]),
            ("submit", "submit 3 -", true, &["took", "id"]),
            ("finish", "finish 0 5", true, &["gone"]),
            ("deliver", "deliver 010101000000", true, &[]),
            ("deliver", "deliver 0102010000010000", false, &[]),
            ("deliver", &yes, false, &[]),
            ("deliver", &no, false, group),
            ("deliver", "deliver 01050100000900", true, group),
            ("deliver", "deliver 01050100000900", false, &[]),
            ("deliver", "deliver 01070100000900", true, group),
            ("deliver", "deliver 01080100000900", false, group),
            ("deliver", "deliver 01090100000900", false, &["took"]),
            ("deliver", "deliver 010b0100000900", false, &["took"]),
            ("deliver", "deliver 010a0100000900", false, &["gone"]),
            ("deliver", "deliver 010c0100000900", false, all),
            ("deliver", "deliver", false, all),
        ] {
            assert_eq!(keys_of(name, request, has_sent), keys, "{name} {request} {has_sent}");
        }
    }

    /// The cells of the rows of a table in a page, which has these heads.
    fn table(page: &str, heads: &str) -> Vec<Vec<String>> {
        let path = concat!(env!("CARGO_MANIFEST_DIR"), "/../../../docs/").to_string() + page;
        let text = std::fs::read_to_string(&path).unwrap_or_else(|why| panic!("{path}: {why}"));
        let rows = text.lines().skip_while(|line| !line.starts_with(heads)).skip(2).take_while(|line| line.starts_with('|'));
        rows.map(|row| row.split('|').skip(1).map(|cell| cell.trim().to_string()).collect()).collect()
    }

    #[test]
    fn each_event_may_tell_what_it_changes_by_the_table_of_events() {
        let (yes, no) = ("000a00000000000000000101", "000a00000000000000000100");
        let kinds = table("FORMATS.md", "| Kind | Name | Body |");
        let events = table("PROTOCOL.md", "| Event | Guard | Effect |");
        assert_eq!((kinds.len(), events.len()), (11, 19));
        for (event, effect) in events.iter().map(|row| (row[0].split([' ', '(']).next().unwrap(), &row[2])) {
            let digits: Vec<&str> = kinds.iter().filter(|row| row[1] == event).map(|row| row[0].as_str()).collect();
            let timer = event.strip_suffix("Timer").unwrap_or(event).to_lowercase();
            let mut may_tell = std::collections::BTreeSet::new();
            for has_sent in [false, true] {
                let brought = digits.iter().flat_map(|kind| [yes, no].map(|body| format!("deliver 01{kind}0100{body}")));
                brought.for_each(|request| may_tell.extend(keys_of("deliver", &request, has_sent)));
                if digits.is_empty() {
                    may_tell.extend(keys_of(&timer, "tick 9", has_sent));
                }
            }
            let says = |words: &[&str]| words.iter().any(|words| effect.contains(*words));
            let changes = [
                (&["group", "dropped"][..], says(&["recovery", "stop work", "; Normal", ": Normal", "or Normal"])),
                (&["took"], says(&["taken in hand", "the hand gains"])),
                (&["gone"], says(&["marked as done"])),
                (&["id"], says(&["gives its id"])),
            ];
            let expected = changes.iter().filter(|(_, changes)| *changes).flat_map(|(keys, _)| keys.iter());
            assert_eq!(may_tell, expected.collect(), "{event}: {effect}");
        }
    }

    #[test]
    fn where_a_node_stands_again() {
        let walk = |effects: &[Effect]| effects.iter().try_fold(Standing::default(), |standing, effect| standing.after(effect));
        let (asks, hears, others) = (|| Effect::Asks(question()), || Effect::Hears(question()), || Effect::Hears(("01".to_string(), String::new())));
        let same = |one: &[Effect], other: &[Effect]| walk(one).is_some() && walk(one) == walk(other);
        assert!(same(&[asks(), hears()], &[asks(), hears(), Effect::Nothing, asks(), others(), hears(), hears()]));
        assert!(same(&[Effect::Checks, Effect::Ends], &[Effect::Ends, Effect::Checks, Effect::Checks, Effect::Ends, Effect::Ends]));
        assert!(same(&[Effect::Ends], &[Effect::Ends, Effect::Ends]));
        assert!(same(&[asks()], &[asks(), others()]), "an answer about another group is none");
        // a check that found nobody isn't what stood before, nor one that goes on
        for (one, other) in [
            (vec![], vec![Effect::Ends]),
            (vec![Effect::Ends], vec![Effect::Checks, Effect::Ends]),
            (vec![Effect::Checks], vec![Effect::Checks, Effect::Ends]),
            (vec![asks()], vec![asks(), others(), Effect::Nothing, hears()]),
        ] {
            assert!(!same(&one, &other) && walk(&other).is_some(), "{one:?} {other:?}");
        }
        assert_eq!((walk(&[hears()]), walk(&[Effect::Other])), (None, None));
    }
}
