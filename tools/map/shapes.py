"""What the drawing of the crates is made of: its colours and type, simple shapes, and the paper that it stands on. The colours
and the type are those of the pictures of runs (tools/forgelilac/src/picture/shapes.rs).

It draws its own paper. Where the reader's browser is set to dark, the colours change to DARK. On either, letters have a
contrast of at least 4.5 to what they stand on; lines and signs of at least 3, those fainter that are told in words too.
"""
from html import escape

WIDTH = 830                         # of a picture, at least; a page's
INK, QUIET, FAINT, LINK, PAPER = "#2b2a33", "#605d6b", "#868194", "#7a758c", "#fdfcfb"
# Of each block: area, ink.
COLOURS = [("#e9e0f7", "#6a46a8"), ("#d8f0ea", "#1b7566"), ("#fcebcf", "#8f5808"),
           ("#dce9fb", "#2c5fa8"), ("#fbdfe5", "#ab3757"), ("#e6f2d5", "#4a7018")]
MORE = [("#e4e6f3", "#3f4f9e"), ("#d7eff5", "#1d6f86"), ("#f3e4d8", "#8a5230")]      # rooms have more than blocks
# On dark paper, in the same order.
DARK = dict(zip([INK, QUIET, FAINT, LINK, PAPER, *sum(COLOURS + MORE, ())],
                ["#eceaf2", "#b1adbd", "#8b869b", "#8b869b", "#1c1b22",
                 "#2f2547", "#b79cf0", "#17352f", "#5cc5b0", "#3b2c14", "#e2a650",
                 "#1d2c45", "#86b3f2", "#42202b", "#ef8fa7", "#26331a", "#a0cc62",
                 "#262b42", "#aab6f5", "#163039", "#6cc3da", "#3a281c", "#dca57c"]))
STYLE = """
text { font-family: "Helvetica Neue", Arial, "DejaVu Sans", sans-serif; fill: %s; }
.title { font-size: 20px; font-weight: 600; }
.quiet { font-size: 13px; fill: %s; }
.label { font-size: 14px; }
.strong { font-size: 14px; font-weight: 600; }
.small { font-size: 12.5px; }
.code { font-family: "DejaVu Sans Mono", Menlo, Consolas, monospace; font-size: 12.5px; }
""" % (INK, QUIET)


def text(x, y, words, kind="label", anchor="start", fill=None):
    colour = f' style="fill:{fill}"' if fill else ""
    return f'<text x="{x:g}" y="{y:g}" class="{kind}" text-anchor="{anchor}"{colour}>{escape(words)}</text>'


def box(x, y, width, height, fill, stroke, radius=10, more=""):
    return (f'<rect x="{x:g}" y="{y:g}" width="{width:g}" height="{height:g}" rx="{radius}" '
            f'fill="{fill}" stroke="{stroke}" stroke-width="1.4"{more}/>')


def darkened(style, parts):
    """What changes on dark paper: the colours of the style, and those that parts have of their own."""
    drawn, rules = "".join(parts), []
    for light, dark in DARK.items():
        style = style.replace(light, dark)
        rules += [f'[{how}="{light}"] {{ {how}: {dark}; }}' for how in ("fill", "stroke") if f'{how}="{light}"' in drawn]
        rules += [f'[style="fill:{light}"] {{ fill: {dark} !important; }}'] if f'style="fill:{light}"' in drawn else []
    coloured = [rule for rule in style.splitlines() if "#" in rule]
    return "\n".join(["@media (prefers-color-scheme: dark) {", *coloured, *rules, "}", ""])


def svg_of(width, height, title, description, style, parts):
    """A picture on its own paper, with a title and a description for readers who do not see it."""
    parts = [f'<rect width="{width}" height="{height:g}" fill="{PAPER}"/>', *parts]
    return "\n".join([f'<svg xmlns="http://www.w3.org/2000/svg" width="{width}" height="{height:g}" '
                      f'viewBox="0 0 {width} {height:g}" role="img" aria-labelledby="title desc">',
                      f'<title id="title">{escape(title)}</title>', f'<desc id="desc">{escape(description)}</desc>',
                      f"<style>{style}{darkened(style, parts)}</style>", *parts, "</svg>", ""])
