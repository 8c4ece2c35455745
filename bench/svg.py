"""Pictures of measurements as SVG: lines over a number, and bars beside one another."""

import html
import math

WIDTH, HEIGHT = 640, 360
LEFT, RIGHT, TOP, BOTTOM = 70, 150, 56, 50
COLOURS = "#1b6ca8", "#d1495b", "#66a182", "#8d6a9f", "#edae49", "#444444"
FONT = 'font-family="sans-serif" font-size="12"'


def steps_of(most):
    """Where lines are drawn, from 0 to at least the most: 1, 2 or 5 times a power of ten apart."""
    most = most or 1
    rough = most / 5
    power = 10 ** math.floor(math.log10(rough))
    step = next(power * it for it in (1, 2, 5, 10) if power * it >= rough * 0.999)
    return [step * i for i in range(math.ceil(most / step * 0.999) + 1)]


def plain(number):
    return f"{number:,.6f}".rstrip("0").rstrip(".")


def text(x, y, words, anchor="middle", more=""):
    return f'<text x="{x:.1f}" y="{y:.1f}" text-anchor="{anchor}" {FONT}{more}>{html.escape(words)}</text>'


def line(x1, y1, x2, y2, colour="#ccc", width=1):
    return f'<line x1="{x1:.1f}" y1="{y1:.1f}" x2="{x2:.1f}" y2="{y2:.1f}" stroke="{colour}" stroke-width="{width}"/>'


class Picture:
    """Axes with a title, and below it when and where it was measured; y grows upwards from 0."""

    def __init__(self, title, note, x_title, y_title, most):
        self.steps = steps_of(most)
        self.parts = [
            f'<svg xmlns="http://www.w3.org/2000/svg" width="{WIDTH}" height="{HEIGHT}" viewBox="0 0 {WIDTH} {HEIGHT}">',
            f'<rect width="{WIDTH}" height="{HEIGHT}" fill="white"/>',
            text(LEFT, 22, title, "start", ' font-weight="bold"'),
            text(LEFT, 40, note, "start", ' fill="#666"'),
            text((LEFT + WIDTH - RIGHT) / 2, HEIGHT - 10, x_title),
            text(14, (TOP + HEIGHT - BOTTOM) / 2, y_title,
                 more=f' transform="rotate(-90 14 {(TOP + HEIGHT - BOTTOM) / 2:.1f})"'),
        ]
        for step in self.steps:
            self.parts += [line(LEFT, self.y(step), WIDTH - RIGHT, self.y(step)),
                           text(LEFT - 6, self.y(step) + 4, plain(step), "end")]

    def y(self, value):
        return HEIGHT - BOTTOM - (HEIGHT - BOTTOM - TOP) * value / self.steps[-1]

    def legend(self, names):
        for number, name in enumerate(names):
            y = TOP + 10 + 20 * number
            self.parts += [f'<rect x="{WIDTH - RIGHT + 14}" y="{y - 9}" width="12" height="12" fill="{COLOURS[number]}"/>',
                           text(WIDTH - RIGHT + 32, y + 2, name, "start")]

    def done(self):
        return "\n".join([*self.parts, "</svg>", ""])


def lines(title, note, x_title, y_title, series):
    """Of each name its points (x, y); the x that occur stand at even distances. Without a point there is no picture."""
    series = {name: points for name, points in series.items() if points}
    if not series:
        return None
    places = sorted({x for points in series.values() for x, _ in points})
    picture = Picture(title, note, x_title, y_title, max(y for points in series.values() for _, y in points))
    room = WIDTH - LEFT - RIGHT

    def at(x):
        return LEFT + room * (places.index(x) + 0.5) / len(places)

    for x in places:
        picture.parts.append(text(at(x), HEIGHT - BOTTOM + 18, plain(x)))
    for colour, points in zip(COLOURS, series.values()):
        where = [(at(x), picture.y(y)) for x, y in sorted(points)]
        path = " ".join(f"{x:.1f},{y:.1f}" for x, y in where)
        picture.parts.append(f'<polyline points="{path}" fill="none" stroke="{colour}" stroke-width="2"/>')
        picture.parts += [f'<circle cx="{x:.1f}" cy="{y:.1f}" r="3" fill="{colour}"/>' for x, y in where]
    picture.legend(series)
    return picture.done()


def bars(title, note, y_title, groups):
    """Of each group its values by name."""
    groups = {group: values for group, values in groups.items() if values}
    if not groups:
        return None
    names = list(dict.fromkeys(name for values in groups.values() for name in values))
    picture = Picture(title, note, "", y_title, max(it for values in groups.values() for it in values.values()))
    room = (WIDTH - LEFT - RIGHT) / len(groups)
    for place, (group, values) in enumerate(groups.items()):
        left = LEFT + room * place
        picture.parts.append(text(left + room / 2, HEIGHT - BOTTOM + 18, group))
        wide = room * 0.8 / len(names)
        for number, name in enumerate(names):
            if name in values:
                y = picture.y(values[name])
                x = left + room * 0.1 + wide * number
                picture.parts.append(f'<rect x="{x:.1f}" y="{y:.1f}" width="{wide * 0.9:.1f}" '
                                     f'height="{HEIGHT - BOTTOM - y:.1f}" fill="{COLOURS[number]}"/>')
                picture.parts.append(text(x + wide * 0.45, y - 4, plain(round(values[name], 2))))
    picture.legend(names)
    return picture.done()
