"""Traces, and the picture of each to the byte. What is expected was written by hand, from docs/SIMULATION.md."""
import os

DRAW = os.path.join(os.path.dirname(os.path.abspath(__file__)), "../../agent/src/draw")

ASKED = r'{"nodes":2,"histories":[[{"do":"check","sent":["010100010000"]},{"do":"deliver","msg":"01020100000101","sent":[]}],[{"do":"deliver","msg":"010100010000","sent":["01020100000101"]}]]}'
NOBODY_ASKED = r'{"nodes":2,"histories":[[],[{"do":"deliver","msg":"010100010000","sent":["01020100000101"]}]]}'


def constant(name):
    """What stands in all pictures alike, which nothing else says: how they are drawn, and their legend."""
    with open(os.path.join(DRAW, name), encoding="utf-8") as file:
        return file.read()


def pictured(height, lines, left="", width=880):
    """The picture that has these lines, in an order that wasn't recorded; the narrowest is as wide as its legend."""
    head = f'<svg xmlns="http://www.w3.org/2000/svg" width="{width}" height="{height}" font-family="DejaVu Sans, Verdana, sans-serif" font-size="10" fill="#222">\n'
    order = '<text x="16" y="19" font-size="11">Time goes right, by turns, in an order in which they can have come: no order was recorded.</text>\n'
    said = '<g font-size="11" class="left"><circle cx="691" cy="35" r="5"/><text x="700" y="39">left: can\'t be, or waits</text></g>\n' if left else ""
    return f"{head}<style>\n{constant('picture.css')}</style>\n{constant('legend.svg')}{order}{said}{lines}"


# Traces, how high their pictures are, and what stands in these behind the legend: bands, names, arrows, marks.
PICTURES = [
    # turns at 110, 136 and 162, lines at 160 and 270
    (
        "a question and its answer",
        ASKED,
        336,
        r"""<svg x="97" y="140" width="78" height="61"><title>node 0, from turn 0 until turn 3: Normal in group 0:1, coordinator 0, members 0</title><rect width="100%" height="100%" class="g0"/><line x2="100%" y1="20" y2="20" class="normal"/><text x="3" y="46" class="group">0:1</text><text x="3" y="57">0 of 0</text></svg>
<svg x="97" y="250" width="78" height="61"><title>node 1, from turn 0 until turn 3: Normal in group 1:1, coordinator 1, members 1</title><rect width="100%" height="100%" class="g1"/><line x2="100%" y1="20" y2="20" class="normal"/><text x="3" y="46" class="group">1:1</text><text x="3" y="57">1 of 1</text></svg>
<text class="name" x="88" y="160">node 0</text>
<text class="name" x="88" y="270">node 1</text>
<path class="message" d="M110 160L136 270"><title>0 to 1: AreYouCoordinator</title></path>
<path class="message" d="M136 270L162 160"><title>1 to 0: Coordinator yes</title></path>
<g transform="translate(110 160)"><title>turn 0: node 0, entry 0: check</title><circle r="4" class="done"/><text x="-3" y="14" class="entry">0</text><text class="deed">check</text></g>
<g transform="translate(136 270)"><title>turn 1: node 1, entry 0: deliver</title><circle r="4" class="done"/><text x="-3" y="14" class="entry">0</text><text class="deed kind">AreYouCoordinator</text></g>
<g transform="translate(162 160)"><title>turn 2: node 0, entry 1: deliver</title><circle r="4" class="done"/><text x="-3" y="14" class="entry">1</text><text class="deed kind">Coordinator yes</text></g>
</svg>
""",
    ),
    # a node crashes, and comes back in its second group; it recovers while it is up, in its third; then it is refused something
    (
        "a crash and recoveries",
        r'{"nodes":1,"histories":[[{"do":"crash","sent":[]},{"do":"recover","kept":false,"sent":[]},{"do":"recover","kept":false,"sent":[]},{"do":"none","sent":[]}]]}',
        226,
        r"""<svg x="123" y="140" width="26" height="61"><title>node 0, from turn 1 until turn 2: Normal in group 0:2, coordinator 0, members 0</title><rect width="100%" height="100%" class="g0"/><line x2="100%" y1="20" y2="20" class="normal"/><text x="3" y="46" class="group">0:2</text><text x="3" y="57">0 of 0</text></svg>
<svg x="149" y="140" width="52" height="61"><title>node 0, from turn 2 until turn 4: Normal in group 0:3, coordinator 0, members 0</title><rect width="100%" height="100%" class="g1"/><line x2="100%" y1="20" y2="20" class="normal"/><text x="3" y="46" class="group">0:3</text><text x="3" y="57">0 of 0</text></svg>
<text class="name" x="88" y="160">node 0</text>
<g transform="translate(110 160)"><title>turn 0: node 0, entry 0: crash</title><circle r="4" class="fail"/><path class="crash" d="M-8 -8L8 8M-8 8L8 -8"/><text x="-3" y="14" class="entry">0</text><text class="deed">crash</text></g>
<g transform="translate(136 160)"><title>turn 1: node 0, entry 1: recover</title><circle r="4" class="rise"/><text x="-3" y="14" class="entry">1</text><text class="deed">recover</text></g>
<g transform="translate(162 160)"><title>turn 2: node 0, entry 2: recover</title><circle r="4" class="rise"/><text x="-3" y="14" class="entry">2</text><text class="deed">recover</text></g>
<g transform="translate(188 160)"><title>turn 3: node 0, entry 3: none</title><circle r="4" class="rest"/><text x="-3" y="14" class="entry">3</text></g>
</svg>
""",
    ),
    # what was done stands at each mark but of what was refused; a node that is down has no band, and a raise that is found counts
    (
        "each kind of entry",
        r'{"nodes":1,"histories":[[{"do":"none","sent":[]},{"do":"check","sent":[]},{"do":"merge","sent":[]},{"do":"accept","sent":[]},{"do":"ready","sent":[]},{"do":"coord","sent":[]},{"do":"dispatch","sent":[]},'
        r'{"do":"submit","queue":3,"priority":255,"payload":"6869","sent":[]},{"do":"finish","origin":0,"id":0,"sent":[]},{"do":"submit","queue":0,"payload":"","fault":"device","sent":[]},'
        r'{"do":"recover","kept":false,"fault":"mount","sent":[]},{"do":"recover","kept":false,"fault":"raise","sent":[]},{"do":"crash","sent":[]},{"do":"recover","kept":true,"sent":[]}]]}',
        226,
        r"""<svg x="97" y="140" width="234" height="61"><title>node 0, from turn 0 until turn 9: Normal in group 0:1, coordinator 0, members 0</title><rect width="100%" height="100%" class="g0"/><line x2="100%" y1="20" y2="20" class="normal"/><text x="3" y="46" class="group">0:1</text><text x="3" y="57">0 of 0</text></svg>
<svg x="435" y="140" width="26" height="61"><title>node 0, from turn 13 until turn 14: Normal in group 0:3, coordinator 0, members 0</title><rect width="100%" height="100%" class="g1"/><line x2="100%" y1="20" y2="20" class="normal"/><text x="3" y="46" class="group">0:3</text><text x="3" y="57">0 of 0</text></svg>
<text class="name" x="88" y="160">node 0</text>
<g transform="translate(110 160)"><title>turn 0: node 0, entry 0: none</title><circle r="4" class="rest"/><text x="-3" y="14" class="entry">0</text></g>
<g transform="translate(136 160)"><title>turn 1: node 0, entry 1: check</title><circle r="4" class="done"/><text x="-3" y="14" class="entry">1</text><text class="deed">check</text></g>
<g transform="translate(162 160)"><title>turn 2: node 0, entry 2: merge</title><circle r="4" class="done"/><text x="-3" y="14" class="entry">2</text><text class="deed">merge</text></g>
<g transform="translate(188 160)"><title>turn 3: node 0, entry 3: accept</title><circle r="4" class="done"/><text x="-3" y="14" class="entry">3</text><text class="deed">accept</text></g>
<g transform="translate(214 160)"><title>turn 4: node 0, entry 4: ready</title><circle r="4" class="done"/><text x="-3" y="14" class="entry">4</text><text class="deed">ready</text></g>
<g transform="translate(240 160)"><title>turn 5: node 0, entry 5: coord</title><circle r="4" class="done"/><text x="-3" y="14" class="entry">5</text><text class="deed">coord</text></g>
<g transform="translate(266 160)"><title>turn 6: node 0, entry 6: dispatch</title><circle r="4" class="done"/><text x="-3" y="14" class="entry">6</text><text class="deed">dispatch</text></g>
<g transform="translate(292 160)"><title>turn 7: node 0, entry 7: submit</title><circle r="4" class="done"/><text x="-3" y="14" class="entry">7</text><text class="deed">submit</text></g>
<g transform="translate(318 160)"><title>turn 8: node 0, entry 8: finish</title><circle r="4" class="done"/><text x="-3" y="14" class="entry">8</text><text class="deed">finish</text></g>
<g transform="translate(344 160)"><title>turn 9: node 0, entry 9: submit</title><circle r="4" class="fail"/><text x="-3" y="14" class="entry">9</text><text class="deed">submit</text></g>
<g transform="translate(370 160)"><title>turn 10: node 0, entry 10: recover</title><circle r="4" class="fail"/><text x="-3" y="14" class="entry">10</text><text class="deed">recover</text></g>
<g transform="translate(396 160)"><title>turn 11: node 0, entry 11: recover</title><circle r="4" class="fail"/><text x="-3" y="14" class="entry">11</text><text class="deed">recover</text></g>
<g transform="translate(422 160)"><title>turn 12: node 0, entry 12: crash</title><circle r="4" class="fail"/><path class="crash" d="M-8 -8L8 8M-8 8L8 -8"/><text x="-3" y="14" class="entry">12</text><text class="deed">crash</text></g>
<g transform="translate(448 160)"><title>turn 13: node 0, entry 13: recover</title><circle r="4" class="rise"/><text x="-3" y="14" class="entry">13</text><text class="deed">recover</text></g>
</svg>
""",
    ),
    # of two questions that are the same, the arrow comes from the later one, perhaps; the earlier one came to none, and so did the answer
    (
        "the last sender",
        r'{"nodes":2,"histories":[[{"do":"check","sent":["010100010000"]},{"do":"check","sent":["010100010000"]}],[{"do":"deliver","msg":"010100010000","sent":["01020100000101"]}]]}',
        336,
        r"""<svg x="97" y="140" width="78" height="61"><title>node 0, from turn 0 until turn 3: Normal in group 0:1, coordinator 0, members 0</title><rect width="100%" height="100%" class="g0"/><line x2="100%" y1="20" y2="20" class="normal"/><text x="3" y="46" class="group">0:1</text><text x="3" y="57">0 of 0</text></svg>
<svg x="97" y="250" width="78" height="61"><title>node 1, from turn 0 until turn 3: Normal in group 1:1, coordinator 1, members 1</title><rect width="100%" height="100%" class="g1"/><line x2="100%" y1="20" y2="20" class="normal"/><text x="3" y="46" class="group">1:1</text><text x="3" y="57">1 of 1</text></svg>
<text class="name" x="88" y="160">node 0</text>
<text class="name" x="88" y="270">node 1</text>
<path class="unsure" d="M136 160L162 270"><title>0 to 1: AreYouCoordinator, perhaps from another turn</title></path>
<g transform="translate(110 160)"><title>turn 0: node 0, entry 0: check</title><circle r="4" class="done"/><text x="-3" y="14" class="entry">0</text><text class="deed">check</text><g class="untaken"><title>no turn was brought what it sent to 1</title><path d="M2 3L8 13M4 13L12 13M8 9L8 17"/></g></g>
<g transform="translate(136 160)"><title>turn 1: node 0, entry 1: check</title><circle r="4" class="done"/><text x="-3" y="14" class="entry">1</text><text class="deed">check</text></g>
<g transform="translate(162 270)"><title>turn 2: node 1, entry 0: deliver</title><circle r="4" class="done"/><text x="-3" y="14" class="entry">0</text><text class="deed kind">AreYouCoordinator</text><g class="untaken"><title>no turn was brought what it sent to 0</title><path d="M2 3L8 13M4 13L12 13M8 9L8 17"/></g></g>
</svg>
""",
    ),
]

# No run: nothing is taken, and what is left stands behind the names.
LEFT = r"""<text class="name" x="88" y="160">node 0</text>
<text class="name" x="88" y="270">node 1</text>
<g class="left" transform="translate(110 270)"><title>node 1: entry 0 waits for 010100010000</title><circle r="5"/><text x="10" y="4">node 1: entry 0 waits for 010100010000</text></g>
</svg>
"""

# A node of forty asks all others at once, and is said to have asked none: of that nothing may be cut off.
SILENT = '{"nodes":40,"histories":[[{"do":"check","sent":[]}]' + ",[]" * 39 + "]}"
LONG = "node 0: entry 0 (check) can't be: it would send" + "".join(f" 010100{node:02x}0000" for node in range(1, 40))
LONG_LEFT = "".join(f'<text class="name" x="88" y="{110 * node + 160}">node {node}</text>\n' for node in range(40)) + (
    f'<g class="left" transform="translate(110 160)"><title>{LONG}</title><circle r="5"/><text x="10" y="4">{LONG}</text></g>\n</svg>\n'
)


def all_rows():
    """Of each the name, the trace, the status, the picture, and what standard error says."""
    for name, trace, height, lines in PICTURES:
        yield name, trace, 0, pictured(height, lines), ""
    yield "nobody asked", NOBODY_ASKED, 1, pictured(336, LEFT, left=True), "invite: no order takes all entries: each that is left waits for a message that none sent\nnode 1: entry 0 waits for 010100010000\n"
    # seven for each letter, behind the first turn's place and what stays free
    long = pictured(4516, LONG_LEFT, left=True, width=180 + 7 * len(LONG))
    yield "a long reason", SILENT, 1, long, f"invite: no order takes all entries: look first at node 0, entry 0\n{LONG}\n"
    yield "no trace", '{"nodes":1,"histories":[[{"do":"none"}]]}', 1, "bad trace 0 0\n", ""
    yield "no JSON", "{", 1, "bad trace\n", ""
