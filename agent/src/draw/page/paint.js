// The ground of the picture: bands, cones, arrows and the overview.
const pen = canvas.getContext("2d"), DASHES = { Normal: [], Election: [2, 4], Reorganization: [9, 4] };
const MOST = 3000, FEW = 800, PASSING = 200, PLAIN = 24, NAMES = ["ground", "ink", "faint", "rest", "arrow", "doubt", "fail", "rise", "stub", "job", "down", "veil", "past", "future", "line"];
let ink = {}, fills = [], backdrop = null;

// the colours of the page, and those of groups: where it is dark they are as the light ones, but dark
function mix() {
    const isDark = !isPrinted && matchMedia("(prefers-color-scheme: dark)").matches;
    document.documentElement.classList.toggle("dark", isDark);
    const style = getComputedStyle(document.documentElement), sample = document.createElementNS("http://www.w3.org/2000/svg", "path");
    ink = Object.fromEntries(NAMES.map(name => [name, style.getPropertyValue("--" + name).trim()]));
    document.querySelector("header svg").appendChild(sample);
    fills = Array.from({ length: PLAIN }, (_, number) => {
        sample.setAttribute("class", "g" + number);
        const light = getComputedStyle(sample).fill;
        return isDark ? darkened(light) : light;
    });
    for (let kind = 0; kind < 5; kind++) for (let number = 0; number < PLAIN; number++) fills.push(hatched(fills[number], kind));
    sample.remove();
    backdrop = null;
}
function darkened(light) {
    const [red, green, blue] = light.match(/\d+/g).map(part => part / 255), most = Math.max(red, green, blue), least = Math.min(red, green, blue);
    const parts = most === red ? (green - blue) / (most - least) : most === green ? 2 + (blue - red) / (most - least) : 4 + (red - green) / (most - least);
    const isGrey = most - least < 0.06;
    return `hsl(${60 * (isGrey ? 0 : parts)} ${isGrey ? 6 : 42}% ${most + least > 1.68 ? 26 : 40}%)`;
}
const HATCHES = [[0, 8, 8, 0], [0, 0, 8, 8], [0, 4, 8, 4], [4, 0, 4, 8], [2, 2, 6, 6]];
function hatched(fill, kind) {
    const tile = document.createElement("canvas"), brush = tile.getContext("2d"), [x, y, right, low] = HATCHES[kind];
    tile.width = tile.height = 8;
    brush.fillStyle = fill;
    brush.fillRect(0, 0, 8, 8);
    brush.strokeStyle = ink.faint;
    brush.moveTo(x, y);
    brush.lineTo(right, low);
    brush.stroke();
    return pen.createPattern(tile, "repeat");
}
const fill = stay => fills[stay[7] % fills.length];

function stroke(color, thick, dashes, ...points) {
    [pen.strokeStyle, pen.lineWidth] = [color, thick];
    pen.setLineDash(dashes);
    pen.beginPath();
    points.forEach(([x, y], place) => place % 2 ? pen.lineTo(x, y) : pen.moveTo(x, y));
    pen.stroke();
}
const widths = new Map();
function width(text, font) {
    pen.font = font;
    const key = font + text;
    if (!widths.has(key)) widths.set(key, pen.measureText(text).width);
    return widths.get(key);
}
function write(text, x, y, color, font = "10px sans-serif") {
    [pen.fillStyle, pen.font] = [color, font];
    pen.fillText(text, x, y);
}
// the first of some texts that is no wider; a last one that is too wide isn't written
const fits = (texts, most, font) => texts.find(text => width(text, font) <= most) ?? "";

// text that can be read on what lies below it
function halo(text, x, y, color, font, ground = ink.ground) {
    [pen.strokeStyle, pen.lineWidth, pen.font] = [ground, 2.5, font];
    pen.setLineDash([]);
    pen.strokeText(text, x, y);
    write(text, x, y, color, font);
}
// the group of a stay and its members, where they fit
function standWords([stay, x, right]) {
    const [node, , , , group, coordinator, members] = stay, y = line(node), most = right - x - 5, high = size.row < 28 ? 9 : 10;
    if (most < 14 || size.row < 20) return;
    const bold = `bold ${high}px sans-serif`, plain = `${high}px sans-serif`, name = fits([group], most, bold);
    const who = [`${coordinator} of ${members}`, `${coordinator} of ${members.split(",").length} nodes`, `by ${coordinator}`];
    const [right_, low] = size.isTall ? [0, [26, 37]] : [width(name, bold) + 8, [high + 1, high + 1]];
    if (name) halo(name, x + 3, y + low[0], ink.ink, bold, fill(stay));
    const rest = name && fits(who, most - right_, plain);
    if (rest) halo(rest, x + 3 + right_, y + low[1], ink.ink, plain, fill(stay));
}
// a stay, from the pixel at which it begins on; those that begin at a pixel which another has taken are left out
function stayBand(stay, last, shown) {
    const [node, since, end, phase] = stay, x = Math.max(size.margin, across(since - 0.5)), right = Math.min(size.across, across(end - 0.5));
    if (right <= x || Math.floor(right) <= last) return last;
    const [top, tall] = band(node), from = Math.floor(x), wide = Math.max(1, Math.round(right) - from);
    pen.fillStyle = fill(stay);
    pen.fillRect(from, top, wide, tall);
    if (wide > 1) stroke(ink.line, 2, DASHES[phase], [x, line(node)], [right, line(node)]);
    if (wide > 18) {
        stroke(ink.ground, 1, [], [from + 0.5, top], [from + 0.5, top + tall]);
        shown.push([stay, x, right]);
    }
    return from + wide - 1;
}
function bands(from, until) {
    const shown = [];
    for (let node = 0; node < nodes; node++) {
        if (!isSeen(node)) continue;
        const [top, tall] = band(node), left = Math.max(size.margin, across(-0.5)), right = Math.min(size.across, across(turns.length - 0.5));
        pen.fillStyle = ink.down;
        pen.fillRect(left, top, Math.max(0, right - left), tall);
        const list = stays[node];
        let last = -1, bound = -1;
        for (let place = search(list, stay => stay[2] > from); place < list.length && list[place][1] <= until; place++) {
            if (list[place][2] < bound) continue;
            last = stayBand(list[place], last, shown);
            // what ends before this turn ends in a pixel that is taken
            bound = first + (last + 1 - size.margin) / step + 0.5;
        }
    }
    return shown;
}

// what is in the past of the chosen turn, what in its future, and what in neither
function shade() {
    if (!cones) return;
    for (let node = 0; node < nodes; node++) {
        const list = own[node], [top, tall] = band(node), last = list[cones.past[node] - 1] ?? -1, next = list[cones.future[node]] ?? turns.length;
        const [end, again] = [across(last + 0.5), across(next - 0.5)].map(x => Math.max(size.margin, Math.min(size.across, x)));
        pen.fillStyle = ink.veil;
        pen.fillRect(end, top, Math.max(0, again - end), tall);
        pen.fillStyle = ink.past;
        pen.fillRect(size.margin, top + tall - 3, Math.max(0, end - size.margin), 3);
        pen.fillStyle = ink.future;
        pen.fillRect(again, top + tall - 3, size.across - again, 3);
    }
}
const isNear = at => !cones || turns[at][INDEX] < cones.past[turns[at][NODE]] || turns[turns[at][FROM]][INDEX] >= cones.future[turns[turns[at][FROM]][NODE]];

// the arrows of which an end is in view, and those that only pass
function arrowsIn(from, until) {
    const ending = [], passing = [];
    for (let at = from; at < until; at++) if (turns[at][FROM] >= 0) ending.push(at);
    for (let at = Math.max(0, until - FAR); at < until; at++)
        for (const end of at < from ? [] : goes[at]) if (end >= until && end - at <= FAR) ending.push(end);
    for (let at = Math.max(0, from - FAR); at < from; at++)
        for (const end of goes[at]) if (end >= until && end - at <= FAR) passing.push(end);
    for (const at of long) if (at >= until && turns[at][FROM] < until) (turns[at][FROM] < from ? passing : ending).push(at);
    return [ending, passing];
}
function arrowPaths(list, color, thick, hasHeads) {
    const heads = new Path2D();
    [pen.strokeStyle, pen.lineWidth, pen.fillStyle] = [color, thick, color];
    pen.setLineDash([]);
    pen.beginPath();
    for (const at of list) {
        const x = across(turns[at][FROM]), y = line(turns[turns[at][FROM]][NODE]), tip = across(at), end = line(turns[at][NODE]);
        pen.moveTo(x, y);
        pen.lineTo(tip, end);
        if (hasHeads) head(heads, x, y, tip, end);
    }
    pen.stroke();
    pen.fill(heads);
}
function head(heads, x, y, tip, end) {
    const long = size.row < 40 ? 8 : 12, angle = Math.atan2(end - y, tip - x);
    const back = (far, turned) => [tip - far * Math.cos(angle + turned), end - far * Math.sin(angle + turned)];
    heads.moveTo(...back(4, 0));
    heads.lineTo(...back(long, 0.25));
    heads.lineTo(...back(long, -0.25));
}
// draws the arrows that are in view, or where they are too many some; answers for how many one stands, and how many pass that aren't drawn
function arrows(from, until) {
    const [ending, passing] = arrowsIn(from, until), each = Math.max(1, Math.ceil(ending.length / (step < 2 ? FEW : MOST)));
    const some = ending.filter((_, place) => place % each === 0), hasHeads = step >= 6 || some.length < 400;
    pen.globalAlpha = Math.max(0.12, Math.min(1, step / 4)) * 0.3;
    if (passing.length <= PASSING) arrowPaths(passing, ink.arrow, 0.8, false);
    if (cones) arrowPaths(some.filter(at => !isNear(at)), ink.arrow, 0.8, false);
    pen.globalAlpha = Math.max(0.12, Math.min(1, step / 4));
    const near = cones ? some.filter(isNear) : some;
    arrowPaths(near.filter(at => !turns[at][SURE]), ink.doubt, 0.8, hasHeads);
    arrowPaths(near.filter(at => turns[at][SURE]), ink.arrow, 1.2, hasHeads);
    pen.globalAlpha = 1;
    return [each, passing.length > PASSING ? passing.length : 0];
}

// the whole run above the picture, once for each size of the page
function overview() {
    const [wide, high, dots] = [strip.clientWidth, strip.clientHeight, devicePixelRatio || 1], brush = strip.getContext("2d"), scale = (wide - size.margin) / (turns.length + 1);
    const at = turn => size.margin + (turn + 1) * scale;
    if (!backdrop || backdrop.width !== Math.round(wide * dots) || !strip.width) {
        [strip.width, strip.height] = [wide * dots, high * dots];
        brush.scale(dots, dots);
        const tall = (high - 8) / nodes;
        for (let node = 0; node < nodes; node++) {
            let last = -1;
            for (const stay of stays[node]) {
                const x = at(stay[1] - 0.5), right = at(stay[2] - 0.5);
                if (Math.floor(right) <= last) continue;
                brush.fillStyle = fill(stay);
                brush.fillRect(Math.floor(x), 4 + node * tall, Math.max(1, right - Math.floor(x)), Math.max(0.5, tall - (tall > 3 ? 1 : 0)));
                last = Math.floor(right);
            }
        }
        brush.fillStyle = ink.fail;
        let last = -9;
        turns.forEach((turn, place) => {
            if (turn[LOOK] !== "fail" || at(place) - last < 1) return;
            last = at(place);
            brush.fillRect(last - 0.75, 0, 1.5, 4);
            brush.fillRect(last - 0.75, 4 + turn[NODE] * tall, 1.5, Math.max(2, tall));
        });
        left.forEach(item => brush.fillRect(wide - 5, 4 + item.dataset.node * tall, 5, Math.max(2, tall)));
        backdrop = document.createElement("canvas");
        [backdrop.width, backdrop.height] = [strip.width, strip.height];
        backdrop.getContext("2d").drawImage(strip, 0, 0);
    }
    brush.setTransform(1, 0, 0, 1, 0, 0);
    brush.clearRect(0, 0, strip.width, strip.height);
    brush.drawImage(backdrop, 0, 0);
    brush.scale(dots, dots);
    const span = jobs.get(job);
    brush.fillStyle = ink.job;
    if (span) brush.fillRect(at(span.begin), high - 4, Math.max(2, at(span.end ?? turns.length) - at(span.begin)), 4);
    brush.fillStyle = ink.ink;
    if (chosen >= 0) brush.fillRect(at(chosen) - 0.5, 0, 1, high);
    [brush.strokeStyle, brush.lineWidth] = [ink.ink, 1.5];
    brush.strokeRect(at(first), 1, Math.min(wide - at(first) - 1, (size.across - size.margin) * scale / step), high - 2);
}
