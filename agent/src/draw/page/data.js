"use strict";
// the run, as page.rs writes it, and what follows from it
const data = JSON.parse(document.getElementById("data").textContent);
const [NODE, INDEX, LOOK, NAME, FROM, PLACE, SURE, CAME, SENT, UNTAKEN, JOB, AT, FIELDS] = Array(13).keys();
const [WORDS, KIND, DIGITS, RECEIVER, OF_JOB, ALL_WORDS] = Array(6).keys();
const { turns, nodes, messages } = data, left = [...document.querySelectorAll("header li")];
const [canvas, strip, told, hint, snapshot, word] = ["picture", "strip", "told", "hint", "sight", "word"].map(id => document.getElementById(id));
const FAR = 400;

// of each node its turns, of which the place is the index of the entry, and its stays; of each turn the later ones that were brought what it sent; those that are
// far from it
const own = Array.from({ length: nodes }, () => []), stays = own.map(() => []), goes = turns.map(() => []), long = [];
turns.forEach((turn, at) => {
    own[turn[NODE]].push(at);
    if (turn[FROM] < 0) return;
    goes[turn[FROM]].push(at);
    if (at - turn[FROM] > FAR) long.push(at);
});
data.stays.forEach(stay => stays[stay[0]].push(stay));
const hasTime = turns.some(turn => turn[AT] !== null), begin = turns.reduce((least, turn) => Math.min(least, turn[AT] ?? least), Infinity);

// each job has a lane in which no other is at the same time
const jobs = new Map(data.jobs.map(job => [job[0], { name: job[0], begin: job[1], end: job[2], turns: job[3] }])), lanes = [];
for (const job of jobs.values()) {
    let lane = lanes.findIndex(lane => (lane[lane.length - 1].end ?? Infinity) < job.begin);
    if (lane < 0) lane = lanes.push([]) - 1;
    lanes[lane].push(job);
    if (lanes.length > 40) break;
}

// the first place of a list that passes the test; all behind it do
function search(list, test) {
    let low = 0, high = list.length;
    while (low < high) {
        const middle = (low + high) >> 1;
        if (test(list[middle])) high = middle; else low = middle + 1;
    }
    return low;
}
const stayAt = (node, turn) => [stays[node][search(stays[node], stay => stay[2] > turn)]].find(stay => stay && stay[1] <= turn);
const stands = stay => stay ? `${stay[3]} in group ${stay[4]}, coordinator ${stay[5]}, members ${stay[6]}` : "down";
const came = turn => messages[turn[CAME]], digits = turn => came(turn) ? came(turn)[DIGITS] : "";
const seconds = at => ((at - begin) / 1000).toFixed(3);

// a payload in words, where it is text
function text(payload) {
    const bytes = (payload.match(/../g) || []).map(digits => parseInt(digits, 16));
    return bytes.length && bytes.every(byte => byte > 31 && byte < 127) ? String.fromCharCode(...bytes) : "";
}

// what a turn depends on, and what depends on it: of each node how many of its turns, and from which of its turns on
function cone(chosen) {
    const past = new Uint8Array(turns.length), future = new Uint8Array(turns.length);
    past[chosen] = future[chosen] = 1;
    const before = turn => own[turn[NODE]][turn[INDEX] - 1] ?? -1;
    for (let at = chosen; at >= 0; at--) {
        if (!past[at]) continue;
        for (const earlier of [before(turns[at]), turns[at][FROM]]) if (earlier >= 0) past[earlier] = 1;
    }
    for (let at = chosen + 1; at < turns.length; at++)
        if ([before(turns[at]), turns[at][FROM]].some(earlier => earlier >= 0 && future[earlier])) future[at] = 1;
    return { past: own.map(list => search(list, at => !past[at])), future: own.map(list => search(list, at => future[at])) };
}
