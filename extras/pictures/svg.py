"""Pieces of SVG: a picture with its title and a text that says the same, and letters, boxes and lines."""
import html

FONT = "system-ui, 'DejaVu Sans', sans-serif"
INK, QUIET, FAINT, PAPER = "#1a1a1a", "#555", "#b5b5b5", "#fff"
LETTER = 0.6  # about the width of a letter, of the size of its font


def number(value):
    """A coordinate, without needless digits."""
    return f"{value:.1f}".rstrip("0").rstrip(".")


def text(x, y, words, size=12, anchor="start", colour=INK, weight="normal"):
    """Letters at a point."""
    bold = "" if weight == "normal" else f' font-weight="{weight}"'
    return (f'<text x="{number(x)}" y="{number(y)}" font-size="{size}" text-anchor="{anchor}" fill="{colour}"{bold}>'
            f"{html.escape(words, quote=False)}</text>")


def box(x, y, width, height, fill, edge=QUIET, corner=3):
    """A rectangle."""
    return (f'<rect x="{number(x)}" y="{number(y)}" width="{number(width)}" height="{number(height)}" rx="{corner}" fill="{fill}" '
            f'stroke="{edge}"/>')


def line(x, y, to_x, to_y, colour=FAINT, width=1):
    """A straight line."""
    return (f'<path d="M{number(x)} {number(y)}L{number(to_x)} {number(to_y)}" stroke="{colour}" stroke-width="{width}" '
            f'fill="none"/>')


def dot(x, y, radius, fill=INK):
    """A filled circle."""
    return f'<circle cx="{number(x)}" cy="{number(y)}" r="{number(radius)}" fill="{fill}"/>'


def picture(width, height, title, told, pieces):
    """A whole picture; `told` says in words what it shows."""
    body = "\n".join(pieces)
    return (f'<svg xmlns="http://www.w3.org/2000/svg" viewBox="0 0 {number(width)} {number(height)}" width="{number(width)}" '
            f'height="{number(height)}" role="img" aria-labelledby="title told" font-family="{FONT}">\n'
            f'<title id="title">{html.escape(title, quote=False)}</title>\n<desc id="told">{html.escape(told, quote=False)}</desc>\n'
            f'<rect width="{number(width)}" height="{number(height)}" fill="{PAPER}"/>\n{body}\n</svg>\n')
