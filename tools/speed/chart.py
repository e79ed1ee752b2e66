"""Draws bars as an SVG: a panel for each thing that was measured, in it a row of bars for each input."""
from xml.sax.saxutils import escape

COLOURS = ["#1b6ca8", "#7fb3d8", "#e0a030", "#7a9a4d", "#b0563f", "#777777"]
BAR, GAP, LABELS, PANEL, TOP = 9, 10, 110, 330, 44


def text(x, y, words, anchor="start"):
    """Some words at a place."""
    return f'<text x="{x:g}" y="{y:g}" text-anchor="{anchor}">{escape(words)}</text>'


def bars(left, rows, top):
    """The bars of one panel, each with its number, the longest as long as the panel is wide."""
    longest = max(value for _, values in rows for value in values)
    y = top
    for _, values in rows:
        for colour, value in zip(COLOURS, values):
            width = max(1, value / longest * (PANEL - 50))
            yield f'<rect x="{left:g}" y="{y:g}" width="{width:.1f}" height="{BAR - 1}" fill="{colour}"/>'
            yield text(left + width + 4, y + BAR - 1, f"{value:.3f}" if longest < 10 else f"{value:.0f}")
            y += BAR
        y += GAP


def draw(names, panels):
    """The chart: the programs' names with their colours, and the panels side by side, (name, rows) each."""
    rows = panels[0][1]
    step = BAR * len(names) + GAP
    width, height = LABELS + PANEL * len(panels), TOP + step * len(rows)
    parts = [f'<rect width="{width}" height="{height}" fill="#ffffff"/>']
    for place, (colour, name) in enumerate(zip(COLOURS, names)):
        x = LABELS + place * 125
        parts += [f'<rect x="{x}" y="6" width="10" height="10" fill="{colour}"/>', text(x + 14, 15, name)]
    for place, (label, _) in enumerate(rows):
        parts.append(text(LABELS - 8, TOP + step * place + step / 2, label, "end"))
    for place, (title, panel) in enumerate(panels):
        left = LABELS + place * PANEL
        parts += [text(left, TOP - 8, title), *bars(left, panel, TOP)]
    head = f'<svg xmlns="http://www.w3.org/2000/svg" width="{width}" height="{height}" viewBox="0 0 {width} {height}"'
    return head + ' font-family="sans-serif" font-size="9" fill="#222222">\n' + "\n".join(parts) + "\n</svg>\n"
