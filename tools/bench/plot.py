"""Draws the time for a byte as manifests grow, from the table in docs/BENCHMARKS.md, to docs/growth.svg.

    python3 tools/bench/plot.py

The table is the one headed 'as a plant grows', as tools/bench/run prints it.
"""
import os

PAPER = os.path.join(os.path.dirname(os.path.abspath(__file__)), "../../docs/BENCHMARKS.md")
PLOT = os.path.join(os.path.dirname(PAPER), "growth.svg")
WIDTH, HEIGHT, LEFT, TOP, RIGHT, BOTTOM = 720, 400, 70, 30, 150, 50
COLOURS = {"plant": "#1b6ca8", "shuffled": "#c0561b"}


def rows(text):
    """(shape, MiB, ours, the Rust's or None): nanoseconds a byte."""
    table = text.split("| as a plant grows |")[1].split("\n\n")[0].split("\n")[2:]
    for line in table:
        name, mb, ms, each, rust = [cell.strip() for cell in line.strip("|").split("|")][:5]
        shape, size = name.split(", ")
        theirs = float(rust) / float(mb) if rust[:1].isdigit() else None
        yield shape, int(size.split()[0]), float(each), theirs


def place(i, value, most):
    x = LEFT + (WIDTH - LEFT - RIGHT) * i / 6
    y = TOP + (HEIGHT - TOP - BOTTOM) * (1 - value / most)
    return x, y


def line(points, colour, dash, name):
    path = " ".join("%.1f,%.1f" % p for p in points)
    dots = "".join('<circle cx="%.1f" cy="%.1f" r="3" fill="%s"/>' % (*p, colour) for p in points)
    x, y = points[-1]
    style = 'fill="none" stroke="%s" stroke-width="2"%s' % (colour, ' stroke-dasharray="6 4"' if dash else "")
    return '<polyline points="%s" %s/>%s<text x="%.1f" y="%.1f" fill="%s">%s</text>' % (
        path, style, dots, x + 8, y + 4, colour, name)


def drawn(table):
    sizes = sorted({size for _, size, _, _ in table})
    most = 1 + int(max(max(ours, theirs or 0) for _, _, ours, theirs in table))
    out = []
    for i, size in enumerate(sizes):
        x, _ = place(i, 0, most)
        out.append('<text x="%.1f" y="%d" text-anchor="middle">%d</text>' % (x, HEIGHT - BOTTOM + 20, size))
    for value in range(0, most + 1):
        _, y = place(0, value, most)
        out.append('<line x1="%d" x2="%d" y1="%.1f" y2="%.1f" stroke="#ddd"/>' % (LEFT, WIDTH - RIGHT, y, y))
        out.append('<text x="%d" y="%.1f" text-anchor="end">%d</text>' % (LEFT - 8, y + 4, value))
    for shape, colour in COLOURS.items():
        ours = [place(sizes.index(size), each, most) for s, size, each, _ in table if s == shape]
        theirs = [place(sizes.index(size), each, most) for s, size, _, each in table if s == shape and each]
        out.append(line(ours, colour, False, "proved, " + shape))
        if theirs:
            out.append(line(theirs, colour, True, "Rust, " + shape))
    out.append('<text x="%d" y="%d">nanoseconds a byte</text>' % (LEFT, TOP - 12))
    out.append('<text x="%d" y="%d" text-anchor="middle">MiB of manifest</text>' % ((LEFT + WIDTH - RIGHT) // 2, HEIGHT - 8))
    frame = '<svg xmlns="http://www.w3.org/2000/svg" width="%d" height="%d" font-family="sans-serif" font-size="12">' % (WIDTH, HEIGHT)
    return "\n".join([frame, '<rect width="100%" height="100%" fill="white"/>', *out, "</svg>", ""])


def main():
    with open(PAPER) as paper:
        table = list(rows(paper.read()))
    with open(PLOT, "w") as plot:
        plot.write(drawn(table))


if __name__ == "__main__":
    main()
