"""Makes the pictures of docs/pictures that show no roll: crates.svg, by crates.txt, and
network.svg. The others are those of `vaqsider draw` for the example of their name.
`tests/gate/docs.py --write` writes both, and test_docs.py compares them."""

from html import escape

from tests import TOP

HERE = TOP / "docs" / "pictures"

WIDE, HIGH, ROW = 136, 26, 52
# What the gate needs, and no product.
OF_THE_GATE = {"dnssec_tests", "callers"}


def svg(width, height, title, words, parts):
    head = (f'<svg xmlns="http://www.w3.org/2000/svg" width="{width}" height="{height}" '
            'font-family="sans-serif" font-size="12">')
    white = '<rect width="100%" height="100%" fill="white"/>'
    named = f"<title>{escape(title)}</title><desc>{escape(words)}</desc>"
    return "\n".join([head, named, white, *parts, "</svg>"]) + "\n"


def text(x, y, words, anchor="start"):
    return f'<text x="{x}" y="{y}" text-anchor="{anchor}">{escape(words)}</text>'


def line(x1, y1, x2, y2, dash=""):
    more = f' stroke-dasharray="{dash}"' if dash else ""
    return f'<line x1="{x1}" y1="{y1}" x2="{x2}" y2="{y2}" stroke="black"{more}/>'


def box(x, y, width, fill="white"):
    return (f'<rect x="{x}" y="{y}" width="{width}" height="{HIGH}" fill="{fill}" '
            'stroke="black"/>')


# ---- the crates


def stands_on():
    """Each crate of the product with those below it that it names."""
    found = {}
    for row in (TOP / "crates.txt").read_text().splitlines():
        words = row.partition("#")[0].replace(":", " ").replace(",", " ").split()
        if words and words[0] not in OF_THE_GATE:
            found[words[0]] = words[1:]
    return {name: [it for it in below if it in found] for name, below in found.items()}


def direct(crates):
    """The same without those that another one stands on."""
    def all_below(name):
        return {it for below in crates[name] for it in {below, *all_below(below)}}

    for name, below in crates.items():
        hidden = {it for one in below for it in all_below(one)}
        yield name, [it for it in below if it not in hidden]


def levels(crates):
    def level(name):
        return 1 + max(map(level, crates[name]), default=-1)

    return {name: level(name) for name in crates}


def crates_picture():
    crates = dict(direct(stands_on()))
    level = levels(crates)
    rows = [[it for it in crates if level[it] == n] for n in range(max(level.values()) + 1)]
    widest = max(map(len, rows))
    width, height = 40 + widest * (WIDE + 24), 20 + len(rows) * ROW
    place = {}
    for n, row in enumerate(rows):
        left = (width - len(row) * (WIDE + 24) + 24) / 2
        for k, name in enumerate(row):
            place[name] = left + k * (WIDE + 24), height - ROW * (n + 1)
    parts = [line(place[name][0] + WIDE / 2, place[name][1] + HIGH,
                  place[it][0] + WIDE / 2, place[it][1])
             for name, below in crates.items() for it in below]
    for name, (x, y) in place.items():
        parts += [box(x, y, WIDE), text(x + WIDE / 2, y + 17, name, "middle")]
    words = "; ".join(f"{name} stands on {', '.join(below) or 'std'}"
                      for name, below in crates.items())
    return svg(width, height, "The crates, each above those that it stands on", words, parts)


# ---- the network

# The rows: name, moments at which the new set comes and at which the old one is gone.
SERVERS = (("server 1", 150), ("server 2", 230), ("last server", 310))
GOT, GONE = 300, 520
WORDS = (
    "Three servers give the old set and then, one after the other, the new set. A cache asks the "
    "last server just before it changes, and may hold the old set for the set's TTL and a second "
    "more. The report says that all servers have the new set, with that TTL. The wait is over once "
    "the TTL has passed since the report: by then no cache holds the old set."
)


def network_picture():
    parts = []
    for number, (name, at) in enumerate(SERVERS):
        y = 20 + number * 36
        parts += [text(8, y + 17, name), box(100, y, at - 100, "lightgrey"), box(at, y, 580 - at)]
        parts += [text(106, y + 17, "old set"), text(at + 6, y + 17, "new set")]
    y = 128
    parts += [text(8, y + 17, "a cache"), box(GOT, y, GONE - GOT, "lightgrey"),
              box(GONE, y, 580 - GONE), text(GOT + 6, y + 17, "may be held: TTL and a second"),
              text(GONE + 6, y + 17, "new set")]
    for at, words in ((SERVERS[-1][1], "report: all have it"), (GONE, "wait is over")):
        parts += [line(at, 12, at, 176, "4"), text(at, 192, words, "middle")]
    return svg(600, 204, "What servers give, and what caches may hold", WORDS, parts)


PICTURES = {"crates.svg": crates_picture, "network.svg": network_picture}


def differing():
    """The pictures that aren't as they would be made."""
    for name, made in PICTURES.items():
        path = HERE / name
        if not path.is_file() or path.read_text() != made():
            yield f"docs/pictures/{name} isn't what tests/gate/pictures.py makes"


def write():
    for name, made in PICTURES.items():
        (HERE / name).write_text(made())
