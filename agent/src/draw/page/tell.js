// What is said of an entry, and how entries are found.
function element(name, ...parts) {
    const made = document.createElement(name);
    made.append(...parts);
    return made;
}
const button = (text, act) => {
    const made = element("button", text);
    made.type = "button";
    made.onclick = act;
    return made;
};
const link = at => button(`turn ${at}`, () => choose(at));
const jobLink = name => button(`job ${name}`, () => chooseJob(name));
const section = (...lines) => element("section", ...lines.map(parts => element("p", ...parts, "\n")));

function fields(turn) {
    return Object.entries(turn[FIELDS]).map(([key, value]) => {
        const said = () => Object.entries(value).flatMap(([what, words]) => words ? [`${what} ${words}`] : []).join(" ");
        const words = key === "payload" ? `${value || "-"}${text(value) && ` "${text(value)}"`}` : key === "told" ? said() || "nothing" : value;
        return `${key} ${words}`;
    }).join(", ");
}
function moment(turn) {
    const before = turns[own[turn[NODE]][turn[INDEX] - 1]], since = before && before[AT] !== null ? `, ${((turn[AT] - before[AT]) / 1000).toFixed(3)} s behind the entry before it` : "";
    return `${new Date(turn[AT]).toISOString().replace("T", " ").replace("Z", "")} UTC${since}`;
}
function entry(at) {
    const turn = turns[at], from = turns[turn[FROM]], failed = turn[LOOK] === "fail" && turn[NAME] !== "crash", lines = [];
    lines.push([`turn ${at}: node ${turn[NODE]}, entry ${turn[INDEX]}: ${turn[NAME]}${failed ? ", its disk failed" : ""}`]);
    if (fields(turn)) lines.push([fields(turn)]);
    if (turn[AT] !== null) lines.push([moment(turn)]);
    if (from) lines.push(["sent by ", link(turn[FROM]), `, entry ${from[INDEX]} of node ${from[NODE]}${turn[SURE] ? "" : ", or perhaps by another turn"}`]);
    if (came(turn)) lines.push([`${came(turn)[ALL_WORDS]}; its bytes: ${digits(turn)}`]);
    if (turn[JOB]) lines.push(["about ", jobLink(turn[JOB]), jobs.has(turn[JOB]) ? "" : ", which no turn submitted"]);
    return section(...lines);
}
// each message that it sent, and the turns that were brought it
function sendings(at) {
    const ends = turns[at][SENT].map(() => []);
    goes[at].forEach(end => ends[turns[end][PLACE]].push(end));
    const lines = turns[at][SENT].map((message, place) => {
        const to = ends[place].flatMap(end => [" ", link(end), turns[end][SURE] ? "" : " perhaps"]);
        return [`sent ${messages[message][ALL_WORDS]}:`, ...(to.length ? to : [" no turn was brought it"])];
    });
    if (turns[at][UNTAKEN] !== "-") lines.push([`no turn was brought what it sent to ${turns[at][UNTAKEN]}`]);
    return section(...(lines.length ? lines : [["it sent nothing"]]));
}
function standing(at) {
    const turn = turns[at], before = own[turn[NODE]][turn[INDEX] - 1] === undefined && !stayAt(turn[NODE], 0) ? stayAt(turn[NODE], at) : stayAt(turn[NODE], at - 1) ?? (at === 0 ? first_(turn[NODE]) : undefined);
    const behind = stayAt(turn[NODE], at), [old, now] = [before, behind].map(stands), lines = [];
    if (old === now) lines.push([`before and behind it, then it is ${now}`]);
    else lines.push([`before it is ${old}`], ["then it is ", element("b", now)]);
    const near = cones ?? cone(at), count = list => list.reduce((sum, one) => sum + one, 0);
    const later = own.reduce((sum, list, node) => sum + list.length - near.future[node], 0) - 1;
    lines.push([`${count(near.past) - 1} entries are in its past, ${later} in its future, and ${turns.length - count(near.past) - later} in neither`]);
    return section(...lines);
}
// how a node begins in each trace
const first_ = node => [node, 0, 0, "Normal", `${node}:1`, node, `${node}`, 0];
function journal(span) {
    const words = at => `${turns[at][NAME] === "deliver" ? came(turns[at])[KIND] : turns[at][NAME]} at node ${turns[at][NODE]} in `;
    const end = span.end === null ? "; its origin keeps it at the end" : "";
    const most = span.turns.length > 40 ? [...span.turns.slice(0, 20), ...span.turns.slice(-20)] : span.turns;
    return section([`job ${span.name}: `, ...most.flatMap((at, place) => [place ? ", " : "", words(at), link(at)]), end]);
}
function tell(at) {
    const span = jobs.get(job);
    told.replaceChildren(entry(at), sendings(at), standing(at), ...(span ? [journal(span)] : []));
}
function choose(at) {
    if (!turns[at]) return;
    chosen = at;
    if (cones) cones = cone(at);
    step = Math.max(step, 26);
    if (size.row < LEAST) height = LEAST;
    if (turns[at][JOB]) job = turns[at][JOB];
    if (at < first + 1 || at > first + size.wide / step - 2) first = at - size.wide / step / 2;
    const y = line(turns[at][NODE]);
    if (y < RULER + 20 || y > RULER + size.rows - 20) down += y - center();
    tell(at);
    show();
}
// the next turn of a job behind the one that is chosen, or its first
function chooseJob(name) {
    const span = jobs.get(name);
    if (!span) return;
    const at = span.turns.find(at => job === name && at > chosen) ?? span.turns[0];
    job = name;
    choose(at);
}
function nothing() {
    [chosen, job, cones] = [-1, "", null];
    told.textContent = "";
    show();
}
function toggleCone() {
    cones = cones || chosen < 0 ? null : cone(chosen);
    show();
}
const isRed = at => turns[at][LOOK] === "fail";
const chooseNext = (test, from) => choose([...turns.keys()].map(past => (from + 1 + past) % turns.length).find(test));

// a turn, a node and its entry, a job's next turn, or the next turn behind the one that is chosen, from the first on again, that has the word: in what was
// done, in the message that came or its digits, in its fields, or in how the node stands from there on; the number of a group is sought as a whole
function find(sought) {
    if (!sought) return;
    const [, turn] = /^(?:turn )?(0|[1-9]\d*)$/i.exec(sought) || [], [, node, index] = /^(?:node )?(\d+)[ ,]+(?:entry )?(\d+)$/i.exec(sought) || [];
    const [, name] = /^job (\d+:\d+)$/i.exec(sought) || [], group = /^\d+:\d+$/.test(sought) && new RegExp(`(^|\\D)${sought}(?!\\d)`);
    const has = part => group ? group.test(part) : part.toLowerCase().includes(sought.toLowerCase());
    const begun = at => {
        const [node, index] = turns[at], stay = stayAt(node, at);
        return stay && !(own[node][index - 1] >= stay[1]) ? `${stay[3]} in group ${stay[4]}` : "";
    };
    const says = at => [turns[at][NAME], came(turns[at]) ? came(turns[at])[WORDS] : "", digits(turns[at]), group ? "" : fields(turns[at]), begun(at)].some(has);
    let at = turn;
    if (name) at = jobs.has(name) ? (jobs.get(name).turns.find(at => job === name && at > chosen) ?? jobs.get(name).turns[0]) : undefined;
    else if (node !== undefined) at = (own[node] || [])[index];
    else if (turn === undefined || +turn >= turns.length) at = [...turns.keys()].map(past => (chosen + 1 + past) % turns.length).find(says);
    if (name && turns[at]) job = name;
    if (turns[at]) choose(+at); else told.textContent = `nothing is found for ${sought}`;
}
// the turn that is nearest to a point, of the node in whose row it is
function nearest(x, y) {
    const node = Math.floor((y - RULER + down) / size.row), at = first + (x - size.margin) / step;
    if (!own[node] || y > RULER + size.rows) return -1;
    const place = search(own[node], turn => turn >= at), off = turn => Math.abs(turn - at) * step;
    return own[node].slice(Math.max(0, place - 1), place + 1).sort((a, b) => off(a) - off(b)).find(turn => off(turn) < 12) ?? -1;
}
// a few words beside the pointer
function hover(x, y) {
    const at = nearest(x, y), bar = jobAt(x, y), turn = turns[at];
    hint.hidden = !turn && !bar;
    if (turn) hint.textContent = `turn ${at}: node ${turn[NODE]}, entry ${turn[INDEX]}: ${turn[NAME]}${came(turn) ? `\n${came(turn)[ALL_WORDS].slice(0, 160)}` : ""}\n${stands(stayAt(turn[NODE], at))}`;
    else if (bar) hint.textContent = `job ${bar.name}: from turn ${bar.begin} ${bar.end === null ? "on" : `to turn ${bar.end}`}`;
    hint.style.left = `${Math.min(x + 14, size.across - hint.offsetWidth - 4)}px`;
    hint.style.top = `${canvas.offsetTop + (y + 20 + hint.offsetHeight > size.high ? y - hint.offsetHeight - 8 : y + 16)}px`;
}
