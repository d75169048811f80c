"""A plot of curves in panels, as SVG: one panel for each count that grows, a line for the unit and one for the fast version in Rust."""
import math

WIDTH, HEIGHT, LEFT, TOP, RIGHT, BOTTOM = 420, 280, 62, 34, 16, 44
COLOURS = [("unit", "#b5451b"), ("spans (in Rust)", "#1f5fa8")]


def step(most):
    """A round step by which an axis to so much has at most six marks."""
    power = 10 ** math.floor(math.log10(most / 5)) if most > 0 else 1
    return next(power * times for times in (1, 2, 5, 10) if most / (power * times) <= 6)


def words(x, y, text, anchor="middle", size=11, more=""):
    return f'<text x="{x:.1f}" y="{y:.1f}" font-size="{size}" text-anchor="{anchor}"{more}>{text}</text>'


def panel(title, points, left, top):
    most_x, most_y = max(p[0] for p in points), max(max(p[1:]) for p in points) * 1.05
    wide, high = WIDTH - LEFT - RIGHT, HEIGHT - TOP - BOTTOM

    def at(x, y):
        return left + LEFT + wide * x / most_x, top + TOP + high * (1 - y / most_y)

    out = [words(left + LEFT + wide / 2, top + TOP - 12, f"{title}: µs a call", size=13)]
    for value in [n * step(most_y) for n in range(int(most_y / step(most_y)) + 1)]:
        x, y = at(0, value)
        out.append(f'<line x1="{x:.1f}" y1="{y:.1f}" x2="{x + wide:.1f}" y2="{y:.1f}" stroke="#ddd"/>')
        out.append(words(x - 6, y + 4, f"{value:,.10g}", "end"))
    for value in [n * step(most_x) for n in range(int(most_x / step(most_x)) + 1)]:
        x, y = at(value, 0)
        out.append(f'<line x1="{x:.1f}" y1="{y:.1f}" x2="{x:.1f}" y2="{y + 4:.1f}" stroke="#555"/>')
        out.append(words(x, y + 17, f"{value:.10g}"))
    x, y = at(0, 0)
    out.append(f'<path d="M{x:.1f} {y - high:.1f}V{y:.1f}H{x + wide:.1f}" fill="none" stroke="#555"/>')
    for line, (_, colour) in enumerate(COLOURS):
        path = " ".join("{:.1f},{:.1f}".format(*at(p[0], p[1 + line])) for p in points)
        out.append(f'<polyline points="{path}" fill="none" stroke="{colour}" stroke-width="2"/>')
        out += ['<circle cx="{:.1f}" cy="{:.1f}" r="2.5" fill="{}"/>'.format(*at(p[0], p[1 + line]), colour) for p in points]
    return out


def panels(curves):
    """The panels two by two, with a legend below."""
    out, rows = [], (len(curves) + 1) // 2
    for place, (title, points) in enumerate(curves.items()):
        out += panel(title, points, place % 2 * WIDTH, place // 2 * HEIGHT)
    for place, (name, colour) in enumerate(COLOURS):
        x, y = LEFT + 240 * place, rows * HEIGHT + 6
        out.append(f'<line x1="{x}" y1="{y}" x2="{x + 24}" y2="{y}" stroke="{colour}" stroke-width="2"/>')
        out.append(words(x + 30, y + 4, name, "start"))
    size = f'width="{2 * WIDTH}" height="{rows * HEIGHT + 24}"'
    head = f'<svg xmlns="http://www.w3.org/2000/svg" {size} font-family="sans-serif" fill="#222">'
    return "\n".join([head, '<rect width="100%" height="100%" fill="white"/>', *out, "</svg>"]) + "\n"
