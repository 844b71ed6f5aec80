"""Plots as inline SVG. Each part has its number and its word beside it, and a pattern of its own: no colour says it alone."""
from html import escape

WIDTH, ROW, NAME = 760, 30, 190  # pixels
FILLS = ("#1b5e8c", "url(#stripes)", "url(#dots)", "#e3e3e3", "#7a7a7a")
PATTERNS = """<svg width="0" height="0" aria-hidden="true"><defs>
<pattern id="stripes" width="6" height="6" patternUnits="userSpaceOnUse" patternTransform="rotate(45)">
<rect width="6" height="6" fill="#cfe3f1"/><rect width="3" height="6" fill="#3f88b8"/></pattern>
<pattern id="dots" width="8" height="8" patternUnits="userSpaceOnUse">
<rect width="8" height="8" fill="#fff"/><circle cx="4" cy="4" r="2.4" fill="#b3541e"/></pattern></defs></svg>"""


def share(part, whole):
    return f"{100 * part / whole:.0f}%" if whole else "0%"


def stack(title, parts):
    """One bar of the whole, with a part for each (word, count), and a line of what each part is."""
    whole = sum(count for _, count in parts)
    left, drawn, lines = 0.0, [], []
    for (word, count), fill in zip(parts, FILLS):
        width = WIDTH * count / whole if whole else 0
        drawn.append(f'<rect x="{left:.1f}" y="0" width="{width:.1f}" height="36" fill="{fill}" stroke="#333"/>')
        left += width
    for at, ((word, count), fill) in enumerate(zip(parts, FILLS)):
        top = 52 + 24 * at
        lines.append(f'<rect x="0" y="{top}" width="18" height="16" fill="{fill}" stroke="#333"/>')
        lines.append(f'<text x="28" y="{top + 13}">{escape(word)}: {count} ({share(count, whole)})</text>')
    return svg(title, 52 + 24 * len(parts), drawn + lines)


def bars(title, rows):
    """A row of bars for each (name, count), as long as its count."""
    most = max((count for _, count in rows), default=0)
    drawn = []
    for at, (name, count) in enumerate(rows):
        top = ROW * at
        width = (WIDTH - NAME - 70) * count / most if most else 0
        drawn.append(f'<text x="{NAME - 8}" y="{top + 20}" text-anchor="end">{escape(name)}</text>')
        drawn.append(f'<rect x="{NAME}" y="{top + 5}" width="{width:.1f}" height="20" fill="{FILLS[0]}" stroke="#333"/>')
        drawn.append(f'<text x="{NAME + width + 6:.1f}" y="{top + 20}">{count}</text>')
    return svg(title, ROW * max(1, len(rows)), drawn)


def svg(title, height, drawn):
    inner = "\n".join(drawn)
    return (
        f'<svg viewBox="-1 -1 {WIDTH + 2} {height + 2}" role="img" aria-label="{escape(title)}">'
        f"<title>{escape(title)}</title>\n{inner}\n</svg>"
    )
