//! Where things stand in the picture of a run, in the units of the SVG.

/// How far apart two turns stand, and how far from the left the first one does.
pub const STEP: usize = 26;
const FIRST: usize = 110;

/// What stays free behind the last turn.
const FREE: usize = 70;

/// How wide a letter is at most, of those that stand in reasons: they are digits mostly.
const LETTER: usize = 7;

/// How wide the legend is.
const LEGEND: usize = 880;

/// How far apart the lines of two nodes are.
const ROW: usize = 110;

/// How far from the left a turn stands.
pub fn across(turn: usize) -> usize {
    turn * STEP + FIRST
}

/// How far from the left a stay begins.
pub fn edge(turn: usize) -> usize {
    across(turn) - STEP / 2
}

/// How far from the top a node's line is, its band begins, and its name stands again.
pub fn down(node: usize) -> usize {
    node * ROW + 160
}

pub fn band_top(node: usize) -> usize {
    node * ROW + 140
}

pub fn below(node: usize) -> usize {
    node * ROW + 211
}

/// How wide the picture is of so many turns, with a reason of so many letters behind them.
pub fn width(turns: usize, letters: usize) -> usize {
    LEGEND.max(across(turns) + FREE + letters * LETTER)
}

pub fn height(nodes: usize) -> usize {
    nodes * ROW + 116
}
