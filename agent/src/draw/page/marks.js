// What stands on the bands: jobs, entries, words, rulers.
const CROSS = [[-1, -1], [1, 1], [-1, 1], [1, -1]], STUB = [[2, 3], [8, 13], [4, 13], [12, 13], [8, 9], [8, 17]];
// the names of kinds, shorter and shorter
const SHORT = {
    AreYouCoordinator: ["AreYouCoord", "AYC"], Coordinator: ["Coord", "C"], AreYouThere: ["AYT"], Here: ["H"], Invitation: ["Invite", "In"], Accept: ["Acc", "A"],
    Ready: ["Rdy", "R"], ReadyAck: ["RdyAck", "RA"], Work: ["W"], Done: ["D"], submit: ["sub"], finish: ["fin"], dispatch: ["disp", "dis"], recover: ["rec"],
    check: ["chk"], merge: ["mrg"], accept: ["acc"], ready: ["rdy"], coord: ["co"], crash: [],
};
const shape = (corners, x, y, scale, color, thick) => stroke(color, thick, [], ...corners.map(([right, low]) => [x + right * scale, y + low * scale]));
function dot(x, y, radius, color) {
    pen.fillStyle = color;
    if (radius < 2) return pen.fillRect(x - 1, y - 1.5, 2, 3);
    pen.beginPath();
    pen.arc(x, y, radius, 0, 7);
    pen.fill();
}
function slant(text, x, y, color) {
    pen.save();
    pen.translate(x + 3, y - 7);
    pen.rotate(-0.61);
    halo(text, 0, 0, color, "10px sans-serif");
    pen.restore();
}
// what is written at an entry, from the longest to the shortest
function labels(turn) {
    const [name, answer = ""] = came(turn) ? came(turn)[KIND].split(" ") : [turn[NAME]];
    if (name === "none") return [];
    const all = [name, ...(SHORT[name] ?? [])].map(name => answer ? `${name} ${answer}` : name);
    if (answer) all.push(`${(SHORT[name] ?? [name]).slice(-1)}${answer === "yes" ? "+" : "-"}`);
    return turn[JOB] ? [`${all[0]} ${turn[JOB]}`, ...all] : all;
}
function label(turn, at, x, y) {
    const gap = ((own[turn[NODE]][turn[INDEX] + 1] ?? turns.length + 4) - at) * step - 9;
    if (size.row < 20 || gap < 5) return;
    const color = came(turn) ? ink.arrow : ink.ink, font = `${size.row < 28 ? 9 : 10}px sans-serif`, all = labels(turn), isRoomy = step >= 14 && size.row >= 60;
    const text = fits(isRoomy ? size.isTall ? [] : all.slice(0, turn[JOB] ? 2 : 1) : all, gap, font);
    if (text) halo(text, x + 5, y - 3, color, font);
    else if (isRoomy && all.length) slant(all[size.isTall ? 0 : Math.min(1, all.length - 1)], x, y, color);
}
function mark(turn, at, x, y) {
    const radius = Math.max(1.5, Math.min(4, step / 3, size.row / 5)), color = { done: ink.ink, rest: ink.rest, fail: ink.fail, rise: ink.rise }[turn[LOOK]];
    dot(x, y, radius, color);
    if (turn[NAME] === "crash") shape(CROSS, x, y, Math.min(8, 3 + step / 4, size.row / 3), ink.fail, 2);
    if (turn[UNTAKEN] !== "-" && step >= 10 && size.row >= 40) shape(STUB, x, y, 1, ink.stub, 1.4);
    else if (turn[UNTAKEN] !== "-" && step >= 4 && size.row >= 20) shape(STUB, x, y, 0.55, ink.stub, 1.2);
    if (job && turn[JOB] === job) {
        [pen.strokeStyle, pen.lineWidth] = [ink.job, 2];
        pen.setLineDash([]);
        pen.beginPath();
        pen.arc(x, y, radius + 3, 0, 7);
        pen.stroke();
    }
    const digits = 6 * String(turn[INDEX]).length;
    if (size.row >= 60 && step > digits + 4) write(turn[INDEX], x - 4 - digits, y + 14, ink.faint);
    label(turn, at, x, y);
}
function marks(from, until) {
    const last = new Array(nodes).fill(-1);
    for (let at = from; at < until; at++) {
        const turn = turns[at], x = across(at), pixel = Math.floor(x);
        if (pixel === last[turn[NODE]] && turn[NAME] !== "crash" || !isSeen(turn[NODE])) continue;
        last[turn[NODE]] = pixel;
        mark(turn, at, x, line(turn[NODE]));
    }
    left.forEach(item => {
        const x = across(turns.length), y = line(+item.dataset.node), isWrong = item.className === "wrong";
        if (!isSeen(+item.dataset.node)) return;
        dot(x, y, isWrong ? 6 : 4, ink.fail);
        halo(item.textContent.trim(), x + 10, y + 4, ink.fail, isWrong ? "bold 10px sans-serif" : "10px sans-serif");
    });
}

// the job that is chosen: where it is kept, where it is worked on, and its messages
function journey() {
    const span = jobs.get(job), right = turn => Math.min(size.across, Math.max(size.margin, across(turn)));
    if (!span) return;
    pen.globalAlpha = 0.45;
    const end = span.end ?? turns.length, home = turns[span.begin][NODE], hands = new Map();
    stroke(ink.job, 7, [], [right(span.begin), line(home)], [right(end), line(home)]);
    for (const at of span.turns) {
        const turn = turns[at], message = came(turn);
        if (message) stroke(ink.job, 5, [], [across(turn[FROM]), line(turns[turn[FROM]][NODE])], [across(at), line(turn[NODE])]);
        if (message && message[KIND] === "Work") hands.set(turn[NODE], hands.get(turn[NODE]) ?? at);
        if (turn[NAME] === "finish" && hands.has(turn[NODE])) {
            stroke(ink.job, 5, [], [right(hands.get(turn[NODE])), line(turn[NODE])], [right(at), line(turn[NODE])]);
            hands.delete(turn[NODE]);
        }
    }
    pen.globalAlpha = 1;
}
// a bar for each job that is in view, below the rows
function lanesBelow(from, until) {
    const top = size.high - size.track;
    if (!size.track) return;
    pen.fillStyle = ink.ground;
    pen.fillRect(0, top, size.across, size.track);
    stroke(ink.faint, 1, [], [0, top], [size.across, top]);
    for (let lane = 0; lane < size.lanesShown; lane++) {
        const y = top + 4 + lane * LANE, list = lanes[lane];
        let last = -1;
        for (let place = search(list, span => (span.end ?? turns.length) >= from); place < list.length && list[place].begin <= until; place++) {
            const { name, begin, end } = list[place], x = Math.max(size.margin, across(begin)), right = Math.min(size.across, across(end ?? turns.length));
            if (Math.floor(right) <= last) continue;
            last = Math.floor(right);
            pen.globalAlpha = name === job ? 1 : 0.4;
            pen.fillStyle = ink.job;
            pen.fillRect(x, y, Math.max(2, right - x - 1), LANE - 3);
            pen.globalAlpha = 1;
            write(fits([name], right - x - 4, "9px sans-serif"), x + 3, y + 9, name === job ? ink.ground : ink.ink, "9px sans-serif");
        }
    }
    write(size.margin < 60 ? "jobs" : lanes.length > size.lanesShown ? "jobs (some)" : "jobs", 4, top + 14, ink.faint);
}
// the job whose bar is at a point
function jobAt(x, y) {
    const lane = lanes[Math.floor((y - size.high + size.track - 4) / LANE)], at = first + (x - size.margin) / step;
    return y > size.high - size.track && lane ? lane.find(span => span.begin <= at + 2 / step && (span.end ?? turns.length) >= at - 2 / step) : undefined;
}

function margins(from, until) {
    const bold = "bold 11px sans-serif";
    pen.fillStyle = ink.ground;
    pen.fillRect(0, 0, size.margin, size.high - size.track);
    pen.fillRect(0, 0, size.across, RULER);
    for (let node = 0; node < nodes; node++)
        if (isSeen(node) && line(node) > RULER && (size.row >= 11 || node % Math.ceil(11 / size.row) === 0))
            write(fits([`node ${node}`, `n${node}`, node], size.margin - 10, bold), 6, line(node) + 4, ink.ink, bold);
    const apart = [1, 2, 5].map(part => part * 10 ** Math.floor(Math.log10(Math.max(1, 64 / step)))).concat(10 ** Math.ceil(Math.log10(Math.max(1, 64 / step)))).find(apart => apart * step >= 60) ?? 1;
    for (let at = Math.ceil(from / apart) * apart; at < until; at += apart) {
        if (across(at) < size.margin) continue;
        write(at, across(at) - 4, 12, ink.faint);
        stroke(ink.faint, 1, [], [across(at), RULER - 3], [across(at), RULER]);
        if (hasTime && turns[at][AT] !== null) write(`${seconds(turns[at][AT])} s`, across(at) - 4, 26, ink.faint);
    }
    write("turn", 6, 12, ink.faint);
    if (hasTime) write(size.margin < 60 ? "s" : "time", 6, 26, ink.faint);
}

function draw() {
    waiting = false;
    measure();
    const dots = devicePixelRatio || 1, [from, until] = inView();
    [canvas.width, canvas.height] = [size.across * dots, size.high * dots];
    pen.scale(dots, dots);
    pen.fillStyle = ink.ground;
    pen.fillRect(0, 0, size.across, size.high);
    const shown = bands(from, until);
    shade();
    pen.fillStyle = ink.veil;
    if (chosen >= 0) pen.fillRect(across(chosen) - Math.max(4, step) / 2, RULER, Math.max(4, step), size.rows);
    const [each, passing] = arrows(from, until);
    journey();
    shown.forEach(standWords);
    marks(from, until);
    margins(from, until);
    lanesBelow(from, until);
    overview();
    snapshot.textContent = turns.length === 0 ? "no turns" :
        `turns ${from} to ${until - 1} of ${turns.length}` + (each > 1 ? `; one arrow of ${each} is drawn` : "") + (passing ? `; ${passing} more pass` : "");
}
