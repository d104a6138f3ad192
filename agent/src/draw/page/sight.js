// What is in view: the turn at the margin, how wide a turn is, how far down all is moved, how high a row is (0: as fits), the turn and the job that are
// chosen, and the cone of the turn where it is shown.
let first = -1, step = 26, down = 0, height = 0, chosen = -1, job = "", cones = null, areJobsShown = true, isPrinted = false, waiting = false;
const RULER = hasTime ? 32 : 18, LANE = 14, LEAST = 20, MOST_ROW = 170;
// how large all is; to ask the page for it takes longer than to draw
let size = {};
function measure() {
    const [across, high] = [canvas.clientWidth, canvas.clientHeight], lanesShown = areJobsShown ? Math.min(lanes.length, high > 420 ? 5 : 2) : 0;
    const margin = across < 600 ? 30 : 78, track = lanesShown ? lanesShown * LANE + 6 : 0, rows = high - RULER - track;
    const row = height || Math.max(LEAST, Math.min(110, rows / nodes));
    size = { across, high, lanesShown, margin, track, rows, row, wide: across - margin, isTall: row >= 90 };
}
const across = turn => size.margin + (turn - first) * step;
const above = node => RULER + size.row * node - down, line = node => above(node) + (size.isTall ? size.row - 41 : size.row / 2);
// of a row the part that the band takes
const band = node => size.isTall ? [line(node) - 20, 61] : [above(node) + size.row * 0.08, size.row * 0.84];
const isSeen = node => above(node) + size.row > RULER && above(node) < RULER + size.rows;
const inView = () => {
    const until = Math.min(turns.length, Math.ceil(first + size.wide / step) + 1);
    return [Math.max(0, Math.floor(first) - 1), Math.max(0, until)];
};

function show() {
    measure();
    const least = Math.min(26, size.wide / (turns.length + 2));
    step = Math.max(least, Math.min(80, step));
    first = Math.max(-1, Math.min(turns.length + 1 - (left.length ? 0.4 : 1) * size.wide / step, first));
    if (height) height = Math.max(Math.min(LEAST, size.rows / nodes), Math.min(MOST_ROW, height));
    measure();
    down = Math.max(0, Math.min(size.row * nodes + 6 - size.rows, down));
    if (!waiting) requestAnimationFrame(draw);
    waiting = true;
}
const zoom = (times, x) => {
    const at = first + (x - size.margin) / step;
    step *= times;
    show();
    first = at - (x - size.margin) / step;
    show();
};
// rows grow about a point
const zoomRows = (times, y) => {
    const at = (y - RULER + down) / size.row;
    height = size.row * times;
    show();
    down = at * size.row - (y - RULER);
    show();
};
const move = (turns, rows) => { [first, down] = [first + turns * size.wide / step, down + rows * size.row]; show(); };
function whole() {
    height = size.rows / nodes < LEAST ? size.rows / nodes : 0;
    [step, first, down] = [0, -1, 0];
    show();
}
const middle = () => size.margin + size.wide / 2, center = () => RULER + size.rows / 2;
