"""Draws what `usage` prints as an SVG: for each pool a row of days, each with a bar up to its peak and a dot for its denials.

    licence_main usage LICENCE OPTIONS LOG | python3 usage_svg.py > usage.svg
"""

import re
import sys
from xml.sax.saxutils import escape

POOL = re.compile(r"USAGE (\d+) (\S+) (\S+)")
DAY = re.compile(r"DAY (\S+) PEAK (\d+) SECONDS \d+ DENIED (\d+) NOSEAT (\d+) GRANTS \d+")
LEFT, STEP, BAR, HIGH, GAP = 60, 26, 14, 80, 80


def pools(lines):
    """Each pool as its title and its days, each with its peak and the number of its requests that were turned away."""
    found = []
    for line in lines:
        if pool := POOL.fullmatch(line.rstrip("\n")):
            found.append(("pool {} {} {}".format(*pool.groups()), []))
        elif day := DAY.fullmatch(line.rstrip("\n")):
            name, peak, denied, noseat = day.groups()
            found[-1][1].append((name, int(peak), int(denied) + int(noseat)))
        else:
            sys.exit(f"usage_svg: no line of usage: {line!r}")
    return found


def text(x, y, words, more=""):
    return f'<text x="{x:.1f}" y="{y:.1f}" {more}>{escape(str(words))}</text>'


def drawn_day(at, floor, scale, name, peak, refused):
    """A bar for the peak, a dot as high as the requests that were turned away, and the day's name on end."""
    left, middle = LEFT + at * STEP, LEFT + at * STEP + BAR / 2
    if peak:
        yield f'<rect x="{left}" y="{floor - peak * scale:.1f}" width="{BAR}" height="{peak * scale:.1f}" fill="#4878a8"/>'
    if refused:
        yield f'<circle cx="{middle}" cy="{floor - refused * scale:.1f}" r="4" fill="#c03030"/>'
    yield text(middle, floor + 8, name, f'transform="rotate(60 {middle} {floor + 8})"')


def drawn_pool(top, title, days):
    """A pool's row, whose scale ends at its highest number."""
    highest = max((max(peak, refused) for _, peak, refused in days), default=0)
    floor, width = top + HIGH, max(len(days), 1) * STEP
    yield text(LEFT, top - 12, title, 'font-weight="bold"')
    yield f'<line x1="{LEFT - 4}" y1="{floor}" x2="{LEFT + width}" y2="{floor}" stroke="black"/>'
    yield text(LEFT - 8, floor, 0, 'text-anchor="end"')
    if highest:
        yield text(LEFT - 8, top + 4, highest, 'text-anchor="end"')
    for at, day in enumerate(days):
        yield from drawn_day(at, floor, HIGH / max(highest, 1), *day)


def drawing(found):
    wide = LEFT + max((len(days) for _, days in found), default=0) * STEP + 180
    high = 60 + len(found) * (HIGH + GAP + 20)
    yield f'<svg xmlns="http://www.w3.org/2000/svg" width="{wide}" height="{high}" font-family="sans-serif" font-size="10">'
    yield text(LEFT, 20, "Bars: the most licences in use. Dots: requests that were denied or found no seat.")
    for row, (title, days) in enumerate(found):
        yield from drawn_pool(60 + row * (HIGH + GAP + 20), title, days)
    yield "</svg>"


print("\n".join(drawing(pools(sys.stdin))))
