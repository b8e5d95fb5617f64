#!/usr/bin/env python3
"""Draws the memory map of an image that valex found to match: reads the report of a yes from standard input, and writes an SVG
to standard output.

    valex check LAYOUT IMAGE UNIT... | tools/memory_map.py > map.svg

Loaded addresses stand to scale from the top down, and each gap between them is folded into a break that tells its size. What
an address belongs to is told by colour, by a label where there is room, and by the title that a browser shows under the pointer.
Items that are less than a pixel high are drawn together with their neighbours, and addresses between two gaps are at least
some pixels high. Ends with 1 where the input is no such report."""
import argparse
import sys
from xml.sax.saxutils import escape

COLOURS = {"function": "#0072b2", "table": "#009e73", "variable": "#e69f00", "padding": "#d9d9d9", "foreign": "#cc79a7"}
COUNTS = ["functions", "tables", "variables", "externals", "padding", "foreign", "loaded"]
GREY = "#888888"
OWNER_WORDS = {"function": 2, "table": 3, "variable": 2, "padding": 0, "foreign": 0}

MARGIN = 24
ADDRESS_WIDTH = 80
BAR_WIDTH = 150
LABEL_GAP = 34  # from the bar to the labels
LINE = 13  # between two labels
BREAK = 30  # the height of a folded gap
LEAST_BLOCK = 4  # pixels
TEXT_STYLE = 'font-family="DejaVu Sans Mono, Menlo, Consolas, monospace" font-size="11"'


class NoReport(Exception):
    """The input is not the report of a yes."""


class Span:
    """Neighbouring addresses of one owner, or of several that are too small to be drawn apart."""

    def __init__(self, first, end, kind, label, items=1):
        self.first, self.end, self.kind, self.label, self.items = first, end, kind, label, items

    def size(self):
        return self.end - self.first

    def title(self):
        items = f", items {self.items}" if self.items > 1 else ""
        return f"{self.first:08x} to {self.end:08x}: {self.label}{items}, bytes {self.size()}"


def read_span(line):
    words = line.split(" ")
    if len(words) < 3 or OWNER_WORDS.get(words[2]) != len(words) - 3:
        raise NoReport(f"no span: {line}")
    return Span(int(words[0], 16), int(words[1], 16), words[2], " ".join(words[2:]))


def read_report(lines):
    """The seven lines of counts, and the spans."""
    if not lines or lines[0] != "yes":
        raise NoReport(f"its first line is not yes: {lines[0] if lines else ''}")
    head, rest = lines[1 : 1 + len(COUNTS)], lines[1 + len(COUNTS) :]
    if [line.split(" ")[0] for line in head] != COUNTS:
        raise NoReport("its lines of counts are others")
    spans = [read_span(line) for line in rest]
    if not spans:
        raise NoReport("nothing is loaded")
    return dict(line.split(" ", 1) for line in head), spans


def blocks_of(spans):
    """Lists of spans without a gap, in the order of their addresses."""
    blocks = []
    for span in spans:
        if blocks and blocks[-1][-1].end == span.first:
            blocks[-1].append(span)
        else:
            blocks.append([span])
    return blocks


def joined(block, least):
    """The block, with runs of spans of less than `least` bytes joined until they have as many."""
    whole, small = [], []

    def close():
        if len(small) > 1:
            sizes = {}
            for span in small:
                sizes[span.kind] = sizes.get(span.kind, 0) + span.size()
            kind = max(sizes, key=sizes.get)
            label = f"{small[0].label} to {small[-1].label}"
            whole.append(Span(small[0].first, small[-1].end, kind, label, len(small)))
        else:
            whole.extend(small)
        small.clear()

    for span in block:
        if span.size() >= least:
            close()
            whole.append(span)
            continue
        small.append(span)
        if small[-1].end - small[0].first >= least:
            close()
    close()
    return whole


def spread(wanted, low, high):
    """Places at least a line apart, near the wanted ones, which are in ascending order."""
    places = []
    for place in wanted:
        places.append(max(place, places[-1] + LINE if places else low))
    limit = high
    for i in reversed(range(len(places))):
        places[i] = min(places[i], limit)
        limit = places[i] - LINE
    return places


def text(x, y, words, more=""):
    return f'<text x="{x:.1f}" y="{y:.1f}"{more}>{escape(words)}</text>'


def titled(shape, title):
    return f"<g>{shape}<title>{escape(title)}</title></g>"


class Picture:
    def __init__(self, counts, spans, height):
        self.counts, self.height = counts, height
        loaded = sum(span.size() for span in spans)
        self.scale = height / loaded
        self.blocks = [joined(block, 1 / self.scale) for block in blocks_of(spans)]
        self.bar = MARGIN + ADDRESS_WIDTH
        self.top = MARGIN + LINE * (len(COLOURS) + 3)
        self.parts, self.drawn = [], []
        self.legend(spans, loaded)
        self.bottom = self.draw_blocks()
        self.labels()

    def legend(self, spans, loaded):
        y = MARGIN + LINE
        externals = self.counts["externals"]
        self.parts.append(text(MARGIN, y, f"loaded bytes: {loaded}; externals: {externals}", ' font-weight="bold"'))
        for kind, colour in COLOURS.items():
            y += LINE + 2
            own = [span for span in spans if span.kind == kind]
            self.parts.append(f'<rect x="{MARGIN}" y="{y - 9}" width="14" height="10" fill="{colour}"/>')
            self.parts.append(text(MARGIN + 20, y, f"{kind}: spans {len(own)}, bytes {sum(span.size() for span in own)}"))

    def draw_blocks(self):
        y, before = self.top, None
        for block in self.blocks:
            if before is not None:
                self.gap(Span(before, block[0].first, "gap", "gap"), y)
                y += BREAK
            y = self.block(block, y)
            before = block[-1].end
        return y

    def block(self, block, y):
        start, scale = y, max(self.scale, LEAST_BLOCK / (block[-1].end - block[0].first))
        for span in block:
            tall = span.size() * scale
            border = ' stroke="white" stroke-width="0.6"' if tall > 2 else ""
            shape = f'<rect x="{self.bar}" y="{y:.2f}" width="{BAR_WIDTH}" height="{tall:.2f}" fill="{COLOURS[span.kind]}"{border}/>'
            self.parts.append(titled(shape, span.title()))
            self.drawn.append((span, y + tall / 2))
            y += tall
        right = ' text-anchor="end"'
        self.parts.append(text(self.bar - 8, start + 9, f"{block[0].first:08x}", right))
        if y - start > 2 * LINE:
            self.parts.append(text(self.bar - 8, y, f"{block[-1].end:08x}", right))
        return y

    def gap(self, gap, y):
        x, middle = self.bar, y + BREAK / 2
        points = " ".join(f"{x + k * BAR_WIDTH / 10:.1f},{middle + (3 if k % 2 else -3):.1f}" for k in range(11))
        line = f'<polyline points="{points}" fill="none" stroke="{GREY}" stroke-dasharray="3 2"/>'
        self.parts.append(titled(line, gap.title()))
        self.drawn.append((gap, middle))

    def labels(self):
        """Labels the gaps and the largest of the items that are drawn apart, as many as there are lines."""
        room = max(0, int((self.bottom - self.top) / LINE) - len(self.blocks))
        owned = [span for span, _ in self.drawn if span.kind not in ("gap", "padding") and span.items == 1]
        chosen = set(sorted(owned, key=Span.size, reverse=True)[:room])
        rows = [(span, y) for span, y in self.drawn if span.kind == "gap" or span in chosen]
        places = spread([y for _, y in rows], self.top, max(self.bottom, self.top + LINE * len(rows)))
        self.bottom = max([self.bottom] + places)
        x, end = self.bar + BAR_WIDTH, self.bar + BAR_WIDTH + LABEL_GAP
        for (span, y), place in zip(rows, places):
            points = f"{x},{y:.1f} {x + 10},{y:.1f} {end - 10},{place:.1f} {end - 4},{place:.1f}"
            self.parts.append(f'<polyline points="{points}" fill="none" stroke="{COLOURS.get(span.kind, GREY)}"/>')
            self.parts.append(titled(text(end, place + 4, f"{span.first:08x} {span.label}, {span.size()}"), span.title()))

    def svg(self):
        longest = max([len(span.label) for span, _ in self.drawn] + [30])
        width = self.bar + BAR_WIDTH + LABEL_GAP + 7 * (longest + 20) + MARGIN
        height = self.bottom + MARGIN
        head = f'<svg xmlns="http://www.w3.org/2000/svg" width="{width:.0f}" height="{height:.0f}" viewBox="0 0 {width:.0f} {height:.0f}" shape-rendering="crispEdges" {TEXT_STYLE}>'
        return "\n".join([head, "<title>Memory map</title>", '<rect width="100%" height="100%" fill="white"/>', *self.parts, "</svg>", ""])


def main():
    parser = argparse.ArgumentParser(description="Draws the report of a yes, read from standard input, as an SVG.")
    parser.add_argument("--height", type=int, default=1000, help="pixels for all loaded bytes together")
    options = parser.parse_args()
    try:
        counts, spans = read_report(sys.stdin.read().splitlines())
        picture = Picture(counts, spans, options.height)
    except (NoReport, ValueError) as fault:
        print(f"memory_map: the input is no report of a yes; {fault}", file=sys.stderr)
        return 1
    sys.stdout.write(picture.svg())
    return 0


if __name__ == "__main__":
    sys.exit(main())
