//! How the nodes of a run stand, and how long.

/// How a node that is up stands, in the words of the program.
#[derive(Clone, Debug, PartialEq, Eq)]
pub struct Stand {
    pub phase: String,
    pub group: String,
    pub coordinator: usize,
    pub members: String,
}

impl Stand {
    /// As each node begins in a trace: alone in the group of its own number and count 1.
    fn first(node: usize) -> Stand {
        Stand { phase: "Normal".to_string(), group: format!("{node}:1"), coordinator: node, members: node.to_string() }
    }
}

/// From one turn on until another, which isn't included, a node stands so.
#[derive(Debug, PartialEq, Eq)]
pub struct Stay {
    pub node: usize,
    pub since: usize,
    pub until: usize,
    pub stand: Stand,
    /// The colour of its group.
    pub colour: usize,
}

/// The longest spans in which these nodes are up and stand the same way, by the node of each turn and how it stands then; none is empty.
pub fn stays(nodes: usize, turns: &[(usize, Option<Stand>)]) -> Vec<Stay> {
    let mut now: Vec<(usize, Option<Stand>)> = (0..nodes).map(|node| (0, Some(Stand::first(node)))).collect();
    let mut all = Vec::new();
    let mut end = |node: usize, (since, stand): (usize, Option<Stand>), until: usize| {
        all.extend(stand.filter(|_| since < until).map(|stand| Stay { node, since, until, stand, colour: 0 }));
    };
    for (turn, (node, stand)) in turns.iter().enumerate() {
        if now[*node].1 != *stand {
            let before = std::mem::replace(&mut now[*node], (turn, stand.clone()));
            end(*node, before, turn);
        }
    }
    for (node, last) in now.into_iter().enumerate() {
        end(node, last, turns.len());
    }
    all
}

#[cfg(test)]
mod tests {
    use super::*;

    #[test]
    fn a_stay_ends_where_another_begins() {
        let second = Stand { group: "0:2".to_string(), ..Stand::first(0) };
        let turns = [(0, Some(Stand::first(0))), (0, None), (1, Some(Stand::first(1))), (0, Some(second.clone())), (0, Some(second.clone()))];
        let stay = |node, since, until, stand| Stay { node, since, until, stand, colour: 0 };
        assert_eq!(stays(2, &turns), [stay(0, 0, 1, Stand::first(0)), stay(0, 3, 5, second), stay(1, 0, 5, Stand::first(1))]);
        // what ends at the turn at which it began is none
        assert_eq!(stays(1, &[(0, None)]), []);
        assert_eq!(stays(1, &[]), []);
    }
}
