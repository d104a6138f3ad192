// Keys, pointer, printing.
const KEYS = {
    ArrowLeft: () => move(-0.2, 0), ArrowRight: () => move(0.2, 0), ArrowUp: () => move(0, -1), ArrowDown: () => move(0, 1),
    PageUp: () => move(-1, 0), PageDown: () => move(1, 0), Home: () => move(-1e9, 0), End: () => move(1e9, 0),
    "+": () => zoom(1.5, middle()), "=": () => zoom(1.5, middle()), "-": () => zoom(1 / 1.5, middle()), 0: whole,
    "]": () => zoomRows(1.25, center()), "[": () => zoomRows(0.8, center()),
    n: () => choose(chosen + 1), p: () => choose(chosen - 1),
    ".": () => chosen >= 0 && choose(own[turns[chosen][NODE]][turns[chosen][INDEX] + 1]), ",": () => chosen >= 0 && choose(own[turns[chosen][NODE]][turns[chosen][INDEX] - 1]),
    s: () => chosen >= 0 && choose(turns[chosen][FROM]), d: () => chosen >= 0 && choose(goes[chosen][0]),
    j: () => chooseJob(job), r: () => chooseNext(isRed, chosen), c: toggleCone,
    l: () => { areJobsShown = !areJobsShown; show(); }, Escape: nothing,
};
addEventListener("keydown", event => {
    if (event.target === word || event.ctrlKey || event.altKey || event.metaKey || !KEYS[event.key]) return;
    // lists that have the focus are scrolled by these keys
    if (event.target.closest && event.target.closest("ul, footer") && /^(Arrow|Page|Home|End)/.test(event.key)) return;
    event.preventDefault();
    KEYS[event.key]();
});
for (const [id, key] of Object.entries({ before: "p", after: "n", nearer: "+", farther: "-", taller: "]", lower: "[", whole: "0", cone: "c", red: "r" }))
    document.getElementById(id).onclick = KEYS[key];
document.getElementById("search").onsubmit = event => { event.preventDefault(); find(word.value.trim()); };
left.forEach(item => item.onclick = () => {
    first = turns.length - size.wide / step / 2;
    down += line(+item.dataset.node) - center();
    show();
});

let held = null;
canvas.onpointerdown = event => { held = [event.clientX, event.clientY, first, down]; canvas.setPointerCapture(event.pointerId); hint.hidden = true; };
canvas.onpointerup = event => {
    if (held && Math.abs(event.clientX - held[0]) + Math.abs(event.clientY - held[1]) < 4) {
        const bar = jobAt(event.offsetX, event.offsetY);
        if (bar) chooseJob(bar.name); else choose(nearest(event.offsetX, event.offsetY));
    }
    held = null;
};
canvas.onpointermove = event => {
    if (!held) return hover(event.offsetX, event.offsetY);
    [first, down] = [held[2] - (event.clientX - held[0]) / step, held[3] - (event.clientY - held[1])];
    show();
};
canvas.onpointerleave = () => { hint.hidden = true; };
canvas.addEventListener("wheel", event => {
    event.preventDefault();
    if (event.shiftKey) zoomRows(Math.exp(-(event.deltaY || event.deltaX) / 400), event.offsetY);
    else if (event.deltaX) move(event.deltaX / 1000, 0);
    else zoom(Math.exp(-event.deltaY / 400), event.offsetX);
}, { passive: false });
// the overview moves to where it is pressed
const jump = event => {
    if (event.type === "pointermove" && !event.buttons) return;
    first = (event.offsetX - size.margin) / (strip.clientWidth - size.margin) * (turns.length + 1) - 1 - size.wide / step / 2;
    show();
};
strip.onpointerdown = strip.onpointermove = jump;

// on paper all rows are there, in light colours
function printed(is) {
    isPrinted = is;
    canvas.style.flex = is ? "none" : "";
    canvas.style.height = is ? `${RULER + size.track + Math.max(size.row, 30) * nodes + 8}px` : "";
    mix();
    down = 0;
    show();
    draw();
}
addEventListener("beforeprint", () => printed(true));
addEventListener("afterprint", () => printed(false));
matchMedia("(prefers-color-scheme: dark)").addEventListener("change", () => { mix(); show(); });
addEventListener("resize", () => { backdrop = null; show(); });
mix();
show();
