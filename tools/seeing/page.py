"""The page of a run: a picture as SVG, with a legend, the table and what is worth a look. It holds its own style and
script (page.css, page.js), and shows the whole picture without the script too."""
import html
import pathlib

from seeing import columns, handler_rows
from seeing.handler_rows import milliseconds
from seeing.page_symbols import SYMBOLS, legend

HERE = pathlib.Path(__file__).resolve().parent
MOST_SHAPES = 8000
MOST_LOOKS = 40
WIDTH, GUTTER, MARGIN, TOP = 1180, 168, 28, 30
SEQUENCER_HEIGHT, LANE_HEIGHT, MISS_HEIGHT, AXIS_HEIGHT = 30, 46, 30, 36
# Top and height of a box in its lane.
PLACES = {"own": (8, 14), "raised": (2, 11), "run": (13, 17), "preempted": (13, 17), "waiting": (31, 9)}


def escape(text):
    return html.escape(str(text), quote=True)


def digits(number):
    """A number with blanks between its thousands."""
    return "{:,}".format(number).replace(",", " ")


class Drawing:
    """The SVG of a picture, as parts of a text."""

    def __init__(self, picture):
        self.picture, self.out = picture, []
        self.columns = columns.Columns(picture) if picture.count() > MOST_SHAPES else None
        self.span = max(8, picture.behind - picture.first)
        self.tops, top = [], TOP
        for lane in picture.lanes:
            self.tops.append(top)
            top += self.height(lane)
        self.bottom = top

    def height(self, lane):
        return LANE_HEIGHT if lane.row else SEQUENCER_HEIGHT if lane is self.picture.lanes[0] else MISS_HEIGHT

    def x(self, unit):
        return GUTTER + (unit - self.picture.first) * (WIDTH - GUTTER - MARGIN) / self.span

    def middle(self, lane, kind):
        """Where a mark that isn't an arrow stands in its lane."""
        if self.picture.lanes[lane].row is None:
            return 15
        return {"print": 26, "lost": 36, "drop": 36}.get(kind, 21)

    # ---- parts

    def rect(self, kind, first, behind, top, height, title):
        a, b = max(self.x(first), GUTTER - 20), min(self.x(behind), WIDTH + 20)
        self.out.append('<rect class="%s" data-a="%d" data-b="%d" x="%.2f" y="%s" width="%.2f" height="%s">%s</rect>\n' % (
            kind, first, behind, a, number(top), max(0.8, b - a), number(height), titled(title)))

    def text(self, kind, first, behind, top, text, shown):
        a, b = max(self.x(first), GUTTER), min(self.x(behind), WIDTH - MARGIN)
        hidden = "" if b - a > len(text) * 6.3 + 6 else ' style="display:none"'
        self.out.append('<text class="%s" data-a="%d" data-b="%d" x="%.1f" y="%d" text-anchor="middle"%s>%s</text>\n' % (
            kind, first, behind, (a + b) / 2, top, hidden, escape(text) if shown else ""))

    def use(self, kind, unit, top, title, behind=None):
        """A mark; `behind` is where the release of an arrow is over."""
        over = "" if behind is None else ' class="arrival" data-b="%d"' % behind
        self.out.append('<use href="#m-%s"%s data-a="%s" x="%.2f" y="%d">%s</use>\n' % (
            kind, over, number(unit), self.x(unit), top, titled(title)))

    # ---- the whole

    def draw(self):
        picture, height = self.picture, self.bottom + AXIS_HEIGHT
        self.out.append(
            '<svg id="picture" role="img" aria-label="The schedule of the run" tabindex="0" width="%d" height="%d" data-gutter="%d" '
            'data-margin="%d" data-first="%d" data-behind="%d">\n<defs>%s<clipPath id="inside"><rect id="clip" x="%d" y="0" '
            'width="%d" height="%d"/></clipPath></defs>\n<rect id="ground" x="%d" y="0" width="%d" height="%d" fill="transparent"/>\n' % (
                WIDTH, height, GUTTER, MARGIN, picture.first, picture.behind, SYMBOLS, GUTTER - 5, WIDTH - GUTTER - MARGIN + 10, height,
                GUTTER, WIDTH - GUTTER - MARGIN, height))
        self.draw_names()
        self.out.append('<g clip-path="url(#inside)">\n')
        self.draw_missions()
        self.out.append("</g>\n")
        self.draw_axis()
        self.out.append('<g clip-path="url(#inside)">\n')
        self.draw_lines()
        if self.columns:
            self.draw_columns()
        else:
            self.draw_shapes()
        self.out.append("</g>\n</svg>\n")
        return "".join(self.out)

    def draw_names(self):
        for lane, top in zip(self.picture.lanes, self.tops):
            middle = top + self.height(lane) // 2
            name = lane.name if len(lane.name) <= 22 else lane.name[:21] + "…"
            detail = lane.detail if len(lane.detail) <= 27 else lane.detail[:26] + "…"
            self.out.append('<g><title>%s, %s</title><text class="name" x="8" y="%d">%s</text><text class="faint" x="8" y="%d">%s</text></g>\n' % (
                escape(lane.name), escape(lane.detail), middle - 2, escape(name), middle + 12, escape(detail)))

    def draw_missions(self):
        """Each mission as a band behind the lanes, and its phases in the strip above them."""
        picture = self.picture
        missions = [mission for mission in picture.run.missions if picture.meets(mission.began, mission.until)]
        if len(missions) > MOST_SHAPES // 8:
            return
        for count, mission in enumerate(missions):
            self.rect("mission" if count % 2 else "mission odd", mission.began, mission.until, 0, self.bottom, None)
        for phase, name, first, behind, lines in picture.bands():
            what = "mission %s, %s: units %d to %d" % (name, phase, first, behind - 1)
            self.rect("phase " + phase, first, behind, 4, 20, [what] + lines)
            self.text("phase-name", first, behind, 18, "%s: %s" % (name, phase), True)

    def draw_lines(self):
        for top in self.tops + [self.bottom]:
            self.out.append('<line class="lane wide" x1="0" x2="%d" y1="%d" y2="%d"/>\n' % (WIDTH - MARGIN, top, top))
        for mission in self.picture.run.missions:
            if mission.asked is not None and self.picture.first <= mission.asked < self.picture.behind:
                self.out.append('<line class="asked" data-a="%d" x1="%.2f" x2="%.2f" y1="4" y2="%d">%s</line>\n' % (
                    mission.asked, self.x(mission.asked), self.x(mission.asked), self.bottom,
                    titled(["the end of mission %s is asked" % mission.name, self.picture.line(mission.asked_line)])))

    def draw_axis(self):
        picture = self.picture
        step = columns.nice(-(-self.span * 95 // (WIDTH - GUTTER - MARGIN)))
        self.out.append('<g id="axis" data-y="%d" data-top="%d">' % (self.bottom, TOP))
        for unit in range(-(-picture.first // step) * step, picture.first + self.span + 1, step):
            at = self.x(unit)
            self.out.append(
                '<line class="grid" x1="%.1f" x2="%.1f" y1="%d" y2="%d"/><text x="%.1f" y="%d" text-anchor="middle">%s</text>'
                '<text class="faint" x="%.1f" y="%d" text-anchor="middle">%s ms</text>' % (
                    at, at, TOP, self.bottom, at, self.bottom + 15, digits(unit), at, self.bottom + 30, milliseconds(unit)))
        self.out.append("</g>\n")

    def draw_shapes(self):
        raised = []
        for box in self.picture.boxes():
            top, height = PLACES[box.kind]
            units = box.behind - box.first
            title = ["%s: units %d to %d (%d)" % (box.what, box.first, box.behind - 1, units)] + list(box.lines)
            self.rect(box.kind, box.first, box.behind, self.tops[box.lane] + top, height, title)
            if box.kind == "raised":
                raised.append(box)
        for box in raised:
            self.text("on", box.first, box.behind, self.tops[box.lane] + 11, str(box.note), True)
        for mark in self.picture.marks():
            is_arrival = mark.kind in ("period", "fire", "release")
            top = self.tops[mark.lane] + (0 if is_arrival else self.middle(mark.lane, mark.kind))
            self.use(mark.kind, mark.unit if is_arrival else mark.unit + 0.5, top, [mark.what] + mark.lines, mark.behind)

    def draw_columns(self):
        """Bars whose heights are the shares of a column."""
        for lane, first, behind, cell, said in self.columns.drawn():
            top, height = self.tops[lane], self.height(self.picture.lanes[lane]) - 8
            kinds = [kind for kind in ("own",) + columns.KINDS if kind in cell]
            shares = [min(1, cell[kind] / (behind - first)) for kind in kinds]
            at, scale = top + 4 + height, height / max(1, sum(shares))
            for kind, share in zip(kinds, shares):
                at -= max(1.0, scale * share)
                self.rect(kind + " bar", first, behind, at, max(1.0, scale * share), None)
            self.rect("cell", first, behind, top, height + 8, ["%s, units %d to %d" % (
                self.picture.lanes[lane].name, first, behind - 1), said])
            for kind in ("fault", "lost", "drop", "miss"):
                if kind in cell:
                    self.use(kind, (first + behind) / 2, top + self.middle(lane, kind), ["%d %s in units %d to %d" % (
                        cell[kind], columns.WORDS[kind], first, behind - 1)])


def number(value):
    return ("%.1f" % value).rstrip("0").rstrip(".") if isinstance(value, float) else str(value)


def titled(lines):
    return "" if lines is None else "<title>%s</title>" % escape("\n".join(lines))


# ---- around the picture


def table(picture):
    """The table of the whole run; the greatest values lead to their releases."""
    several = len({row.handler.mission.name for row in picture.rows}) > 1
    heads = ["mission"] if several else []
    heads += ["handler", "priority", "releases", "lost", "dropped", "faults", "least<br>response", "mean<br>response",
              "greatest<br>response", "most units<br>of its own", "longest<br>wait", "preempted", "most waiting<br>(of 64)"]
    out = ['<div class="scroll"><table>\n<tr>%s</tr>\n' % "".join("<th>%s</th>" % head for head in heads)]
    ordered = [lane.row for lane in picture.lanes if lane.row]
    for row in ordered:
        handler = row.handler
        cells = ["<td>%s</td>" % escape(handler.mission.name)] if several else []
        cells.append('<td class="left">%d %s</td>' % (handler.number, escape(handler.name)))
        cells += ["<td>%d</td>" % value for value in (handler.priority, row.releases)]
        cells += ['<td%s>%d</td>' % (' class="wrong"' if value else "", value) for value in (row.lost, row.dropped, row.faults)]
        for kept in (row.least, row.mean(), row.greatest, row.own, row.wait):
            cells.append("<td>%s</td>" % (link(picture, kept) if isinstance(kept, tuple) else "-" if kept is None else kept))
        out.append("<tr>%s<td>%d</td><td>%d</td></tr>\n" % ("".join(cells), row.preemptions, row.waiting))
    return "".join(out) + "</table></div>\n"


def link(picture, kept):
    """A value with a button that shows its release, where that lies in the picture."""
    value, release = kept
    behind = release.until(picture.run.until)
    if release.ready < picture.first or behind > picture.behind:
        return "%d" % value
    return '<button class="see" data-from="%d" data-to="%d" title="release %d">%d</button>' % (
        release.ready, behind, release.number, value)


def looks(picture):
    """What is worth a look: faults, losses, misses and drops, with their lines."""
    run, found = picture.run, []
    for unit, line, name, file, number, release in run.faults:
        found.append((line, unit, ""))
    for unit, line, name, mission in run.misses:
        found.append((line, unit, ""))
    for handler in run.handlers():
        found += [(line, unit, handler.name) for unit, line in handler.lost]
        found += [(mission_line(run, release), release.dropped, handler.name) for release in handler.releases
                  if release.dropped is not None]
    if not found:
        return "<p>No fault, no loss, no miss, no drop.</p>\n"
    out = ['<ol class="marks">\n']
    for line, unit, name in sorted(found)[:MOST_LOOKS]:
        text, wide = "<code>%s</code>" % escape(picture.line(line)), (max(0, unit - 30), unit + 30)
        if picture.first <= unit < picture.behind:
            text = '<button class="see" data-from="%d" data-to="%d">%s</button>' % (wide + (text,))
        out.append("<li>%s %s</li>\n" % (text, escape(name)))
    if len(found) > MOST_LOOKS:
        out.append("<li>and %d more</li>\n" % (len(found) - MOST_LOOKS))
    return "".join(out) + "</ol>\n"


def mission_line(run, release):
    """The line of a release's drop: one behind that of the end that was asked."""
    wanted = b"%d drop %s" % (release.dropped, release.name().encode())
    at = release.handler.mission.asked_line
    while run.lines[at - 1] != wanted:
        at += 1
    return at


def page(picture, title, notes):
    """The whole page."""
    drawing = Drawing(picture)
    svg = drawing.draw()
    run = picture.run
    if drawing.columns:
        notes = notes + ["More happens in these units than a page can hold: each column sums up %s units, and a bar is as high as its "
                         "share of them. --from and --to show a part whole." % digits(drawing.columns.width)]
    part = ""
    if picture.first > 0 or picture.behind < run.until:
        part = "<p>The picture shows the units %d to %d (%s ms) of the run; the table is that of the whole run.</p>\n" % (
            picture.first, picture.behind - 1, milliseconds(picture.behind - picture.first))
    folds = ("", "") if drawing.columns else (
        '<button id="fold" data-key="f" title="key f" aria-pressed="false">fold idle time</button>', ", <kbd>f</kbd> folds idle time")
    style, script = (HERE / "page.css").read_text(), (HERE / "page.js").read_text()
    return (
        '<!DOCTYPE html>\n<html lang="en">\n<head>\n<meta charset="utf-8">\n<meta name="viewport" content="width=device-width, '
        'initial-scale=1">\n<meta name="color-scheme" content="light dark">\n<title>%s</title>\n<style>\n%s</style>\n</head>\n<body>\n'
        "<h1>%s</h1>\n<p>%s. %s.</p>\n%s%s"
        '<div class="buttons"><button data-key="+" title="key +">zoom in</button><button data-key="-" title="key -">zoom out</button>'
        '<button data-key="ArrowLeft" title="left arrow">◀</button><button data-key="ArrowRight" title="right arrow">▶</button>'
        '<button data-key="p" title="key p">previous release</button><button data-key="n" title="key n">next release</button>'
        '<button data-key="0" title="key 0">whole</button>%s<span id="where" class="faint"></span></div>\n'
        '<div class="frame">\n%s</div>\n<div id="lines" aria-live="polite">Point at something in the picture: its lines of the trace '
        'stand here.</div>\n%s'
        '<p class="faint keys">Mouse: wheel zooms, dragging pans, a double click zooms in. Keys: <kbd>+</kbd> <kbd>-</kbd> zoom, <kbd>←</kbd> '
        "<kbd>→</kbd> pan, <kbd>n</kbd> <kbd>p</kbd> next and previous release, <kbd>0</kbd> the whole%s.</p>\n"
        "<h2>Handlers</h2>\n%s<p class=\"faint\">Responses, own units and waits are units of the run, a microsecond each; an underlined one leads to its "
        "release.</p>\n<h2>Worth a look</h2>\n%s<script>\n%s</script>\n</body>\n</html>\n" % (
            escape(title), style, escape(title), escape(handler_rows.totals_of(run, picture.rows)),
            escape(handler_rows.load_of(run, picture.rows)), part,
            "".join('<p class="note">%s</p>\n' % escape(note[0].upper() + note[1:]) for note in notes), folds[0], svg, legend(),
            folds[1], table(picture), looks(picture), script))
