"""Pieces of SVG: a frame with a style for light and dark, boxes, lines and words."""
from html import escape

STYLE = """text { font: 13px sans-serif; fill: #1f2328 }
.code { font-family: monospace }
.small { font-size: 11px; fill: #57606a }
.box { fill: #f3f4f6; stroke: #57606a }
.public { fill: #ffd8a8; stroke: #d9730d }
.word { fill: #dbeafe; stroke: #3b82f6 }
.new { fill: #c6f0d0 }
.line { fill: none; stroke: #8c959f }
@media (prefers-color-scheme: dark) {
text { fill: #e6edf3 } .small { fill: #9aa4ae } .box { fill: #21262d; stroke: #8c959f } .public { fill: #5c3a12 } .word { fill: #12305c }
.new { fill: #1b4a2a } }"""


def picture(title, width, height, lines):
    return "\n".join([f'<svg xmlns="http://www.w3.org/2000/svg" viewBox="0 0 {width:g} {height:g}" role="img">',
                      f"<title>{escape(title)}</title>", f"<style>\n{STYLE}\n</style>", *lines, "</svg>", ""])


def words(x, y, text, kind="", anchor="start"):
    name = f' class="{kind}"' if kind else ""
    return f'<text x="{x:g}" y="{y:g}"{name} text-anchor="{anchor}" xml:space="preserve">{escape(text, quote=False)}</text>'


def box(x, y, width, height, kind="box", round_by=3):
    return f'<rect x="{x:g}" y="{y:g}" width="{width:g}" height="{height:g}" rx="{round_by:g}" class="{kind}"/>'


def path(steps):
    return f'<path d="{steps}" class="line"/>'
