"""A sounding as a picture, as people draw it: pressure down a logarithmic axis, beside each other a panel for each of
the other columns. Several runs lie on each other, the first wide and pale, so that a curve on top of it hides nothing;
what watches printed are marks at their level, of another shape for each domain. It can be read without its colours.
The picture is SVG."""
import math
from html import escape

from .printable import printable
from .sounding import DECODER, DEW_POINT, Unreadable

# Sizes, in pixels.
HEIGHT, PANEL, GAP, LEFT, TOP, LINE = 640, 330, 26, 64, 50, 20
TICK, LABEL_DISTANCE, SAMPLE, MARK_SIZE, MARK_SPACING = 5, 13, 34, 3.5, 9

# What is left above the panels where there is no title.
TOP_WITHOUT_TITLE = 16

# Pressures that have a line, in hectopascals: the standard levels; and one below the ground, where the axis may end.
BELOW_GROUND = 1050
LEVELS = (1000, 925, 850, 700, 500, 400, 300, 250, 200, 150, 100, 70, 50, 30, 20, 10, 7, 5, 3, 2, 1)

UNITS = {"pressure": "hPa", "temperature": "°C", "humidity": "%"}

# The colour of a column's curve: pale and full. In grey the pale ones are light and the full ones dark.
COLOURS = {"temperature": ("#f4b6ae", "#a01c14"), "humidity": ("#a9cdf2", "#12407a"), DEW_POINT: ("#b5dcb9", "#1d6a2f")}

# What is drawn in the panel of another column, with dashes of its own.
OVERLAYS = {"temperature": DEW_POINT}
DEW_DASHES = "5 2 1 2"
OTHER = ("#c9c9c9", "#333333")
GRID, ZERO, FRAME = "#dddddd", "#999999", "#555555"

# The width and the dashes of each run's curve; the last ones stand for all further runs.
STYLES = ((6, ""), (1.3, ""), (1.3, "6 3"), (1.3, "2 2"))

# The outline of a mark for each domain of watches, 1 to 15, around its place: diamond, square, triangle, saltire, cross,
# triangle on its head, circle, triangles to the sides, hourglass, bow, upright bar, lying bar, house, half circle.
SHAPES = ("M0 -{0}L{0} 0L0 {0}L-{0} 0z", "M-{0} -{0}L{0} -{0}L{0} {0}L-{0} {0}z", "M0 -{0}L{0} {0}L-{0} {0}z",
          "M-{0} -{0}L{0} {0}M-{0} {0}L{0} -{0}", "M0 -{0}L0 {0}M-{0} 0L{0} 0", "M0 {0}L{0} -{0}L-{0} -{0}z",
          "M-{0} 0A{0} {0} 0 1 0 {0} 0A{0} {0} 0 1 0 -{0} 0z", "M-{0} 0L{0} -{0}L{0} {0}z", "M{0} 0L-{0} -{0}L-{0} {0}z",
          "M-{0} -{0}L{0} -{0}L-{0} {0}L{0} {0}z", "M-{0} -{0}L-{0} {0}L{0} -{0}L{0} {0}z", "M-1 -{0}L1 -{0}L1 {0}L-1 {0}z",
          "M-{0} -1L{0} -1L{0} 1L-{0} 1z", "M-{0} {0}L-{0} -1L0 -{0}L{0} -1L{0} {0}z", "M-{0} 1A{0} {0} 0 0 1 {0} 1z")

# A curve is broken where more frames than this are missing.
LONGEST_BRIDGE = 3

LONGEST_TEXT = 90


def with_unit(name):
    return f"{name} ({UNITS[name]})" if name in UNITS else name


def shown(text):
    """A text that does not run out of the picture, without signs that no picture may have."""
    text = printable(text)
    return text if len(text) <= LONGEST_TEXT else text[:LONGEST_TEXT - 1] + "…"


class Axis:
    """A range of values on a range of pixels; logarithmic or not."""

    def __init__(self, low, high, start, end, function=float):
        self.low, self.high, self.start, self.end, self.function = low, high, start, end, function

    def at(self, value):
        low, high = self.function(self.low), self.function(self.high)
        return self.start + (self.function(value) - low) / (high - low) * (self.end - self.start)


def pressure_axis(pressures):
    """From the standard level above all pressures to the one below them."""
    low, high = min(pressures), max(pressures)
    top = max((p for p in LEVELS if p < low), default=low * 0.9)
    bottom = min((p for p in (BELOW_GROUND, *LEVELS) if p > high), default=high * 1.1)
    return Axis(top, bottom, TOP, TOP + HEIGHT, math.log)


def step_of(span):
    """A round step that makes some six parts of a span."""
    power = 10 ** math.floor(math.log10(span / 6))
    return next(n * power for n in (1, 2, 5, 10) if n * power >= span / 6)


def value_axis(values, start):
    """The axis of a column, from a round number to a round number, and its ticks."""
    low, high = min(values), max(values)
    step = step_of(max(high - low, 1)) if low < high else 1
    first, last = math.floor(low / step), math.ceil(high / step)
    if low == high:
        first, last = first - 1, last + 1  # so that a constant does not lie on the frame
    return Axis(first * step, last * step, start, start + PANEL), [n * step for n in range(first, last + 1)]


def line(x1, y1, x2, y2, colour):
    return f'<line x1="{x1:.1f}" y1="{y1:.1f}" x2="{x2:.1f}" y2="{y2:.1f}" stroke="{colour}"/>'


def words(x, y, text, anchor="middle", more=""):
    return f'<text x="{x:.1f}" y="{y:.1f}" text-anchor="{anchor}"{more}>{escape(shown(text))}</text>'


def pressure_scale(axis):
    """The numbers and ticks beside the first panel; a number that would touch the one below it is left out."""
    drawn, last = [], math.inf
    for p in LEVELS:
        y = axis.at(p)
        if not TOP <= y <= TOP + HEIGHT:
            continue
        drawn.append(line(LEFT - TICK, y, LEFT, y, FRAME))
        if last - y >= LABEL_DISTANCE:
            drawn.append(words(LEFT - TICK - 3, y + 4, str(p), "end"))
            last = y
    middle = TOP + HEIGHT / 2
    turned = f' transform="rotate(-90 16 {middle:.1f})"'
    return drawn + [words(16, middle, with_unit("pressure"), more=turned)]


def grid(x, ticks, y, name):
    """The lines of a panel with the numbers below it, and its frame."""
    drawn = [line(x.start, y.at(p), x.end, y.at(p), GRID) for p in LEVELS if y.low < p < y.high]
    for tick in ticks:
        at, below = x.at(tick), TOP + HEIGHT
        drawn += [line(at, TOP, at, below, GRID if tick else ZERO), line(at, below, at, below + TICK, FRAME),
                  words(at, below + TICK + 13, f"{tick:g}")]
    drawn.append(words(x.start + PANEL / 2, TOP + HEIGHT + 40, with_unit(name)))
    return drawn + [f'<rect x="{x.start}" y="{TOP}" width="{PANEL}" height="{HEIGHT}" fill="none" stroke="{FRAME}"/>']


def curves(sounding, name, x, y):
    """The points of a column's curve, broken where frames are missing."""
    parts, before = [], None
    for level, value, p in zip(sounding.levels, sounding.values(name), sounding.values("pressure")):
        if p <= 0 or value is None:
            continue
        if before is None or level.frame - before > 1 + LONGEST_BRIDGE:
            parts.append([])
        parts[-1].append(f"{x.at(value):.1f},{y.at(p):.1f}")
        before = level.frame
    return parts


def style(n, count, name):
    """How the curve of the n-th of so many runs is drawn; one that is alone is not wide."""
    width, dashes = STYLES[min(n + (count == 1), len(STYLES) - 1)]
    dashes = DEW_DASHES if name == DEW_POINT and not dashes and width < STYLES[0][0] else dashes
    pale, full = COLOURS.get(name, OTHER)
    colour = pale if width == STYLES[0][0] else full
    dashed = f' stroke-dasharray="{dashes}"' if dashes else ""
    return f'fill="none" stroke="{colour}" stroke-width="{width}" stroke-linecap="round" stroke-linejoin="round"{dashed}'


def polyline(points, how):
    """A curve; one point alone is a dot."""
    points = points * 2 if len(points) == 1 else points
    return f'<polyline points="{" ".join(points)}" {how}/>'


def mark(x, y, domain, said=""):
    """The shape of a domain at a place, with a title of what was printed."""
    shape = SHAPES[domain - 1].format(MARK_SIZE)
    title = f"<title>{escape(said)}</title>" if said else ""
    return (f'<path transform="translate({x:.1f} {y:.1f})" d="{shape}" fill="white" stroke="black" stroke-width="0.8">'
            f"{title}</path>")


def marks(sounding, name, x, y):
    """A shape for each domain whose watches printed at a level, beside each other."""
    drawn = []
    for level, value, p in zip(sounding.levels, sounding.values(name), sounding.values("pressure")):
        for n, domain in enumerate(sorted({domain for domain, _ in level.marks}) if p > 0 else ()):
            numbers = ", ".join(str(number) for by, number in level.marks if by == domain)
            said = f"frame {level.frame}: domain {domain} printed {numbers}"
            drawn.append(mark(x.at(value) + n * MARK_SPACING, y.at(p), domain, said))
    return drawn


def curves_of_panel(soundings, name):
    """What the panel of a column shows: the column, and what follows from it, if there is something of it."""
    other = OVERLAYS.get(name)
    if not other or not soundings[0].has("temperature", "humidity"):
        return [name]
    known = any(v is not None for s in soundings for v in s.values(other))
    return [other, name] if known else [name]


def panel(soundings, name, start, y):
    """One column of all soundings: the wide curve, then the marks, then the thin curves on top."""
    together = curves_of_panel(soundings, name)
    x, ticks = value_axis([v for s in soundings for own in together for v in s.values(own) if v is not None], start)
    drawn = [[polyline(points, style(n, len(soundings), own)) for own in together for points in curves(s, own, x, y)]
             for n, s in enumerate(soundings)]
    dots = [shape for s in soundings for shape in marks(s, name, x, y)]
    below, above = (drawn[:1], drawn[1:]) if len(soundings) > 1 else ([], drawn)
    return [*grid(x, ticks, y, name), *sum(below, []), *dots, *sum(above, [])]


def legend(soundings, names):
    """A line for each run, with a sample of its curve in each panel, and one for each domain that printed something."""
    drawn, y = [], TOP + HEIGHT + 40 + LINE
    for n, s in enumerate(soundings):
        y += LINE
        for i, name in enumerate(names):
            x = LEFT + i * SAMPLE
            drawn.append(polyline([f"{x},{y - 4}", f"{x + SAMPLE - 10},{y - 4}"], style(n, len(soundings), name)))
        drawn.append(words(LEFT + len(names) * SAMPLE, y, f"{s.name}: {len(s.levels)} levels", "start"))
    if any(DEW_POINT in curves_of_panel(soundings, name) for name in names):
        y += LINE
        sample = style(0, 1, DEW_POINT)
        drawn += [polyline([f"{LEFT},{y - 4}", f"{LEFT + SAMPLE - 10},{y - 4}"], sample),
                  words(LEFT + len(names) * SAMPLE, y, "dew point, from temperature and humidity", "start")]
    for domain in sorted({domain for s in soundings for e in s.levels for domain, _ in e.marks} - {DECODER}):
        y += LINE
        count = max(sum(any(by == domain for by, _ in e.marks) for e in s.levels) for s in soundings)
        drawn += [mark(LEFT + SAMPLE / 2, y - 4, domain),
                  words(LEFT + len(names) * SAMPLE, y, f"a watch of domain {domain} printed: {count} levels", "start")]
    return drawn, y + LINE


def profile(soundings, title=""):
    """The picture of soundings that have the same columns."""
    pressures = [p for s in soundings for p in s.values("pressure") if p > 0]
    if not pressures:
        raise Unreadable("no level has a pressure above 0")
    y, others = pressure_axis(pressures), [c.name for c in soundings[0].columns if c.name != "pressure"]
    if not others:
        raise Unreadable("there is no column beside the pressure: name one with --columns")
    drawn = [*([words(LEFT, 28, title, "start", ' font-size="16"')] if title else []), *pressure_scale(y)]
    for n, name in enumerate(others):
        drawn += panel(soundings, name, LEFT + n * (PANEL + GAP), y)
    told, height = legend(soundings, others)
    width = LEFT + max(2, len(others)) * (PANEL + GAP)  # also for one panel, so that the texts fit
    top = 0 if title else TOP - TOP_WITHOUT_TITLE
    height -= top
    return (f'<svg xmlns="http://www.w3.org/2000/svg" width="{width}" height="{height}" viewBox="0 {top} {width} {height}" '
            f'font-family="sans-serif" font-size="12">\n<rect y="{top}" width="100%" height="100%" fill="white"/>\n'
            + "\n".join([*drawn, '<g id="legend">', *told, "</g>"]) + "\n</svg>\n")
