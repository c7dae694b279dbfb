"""What the pictures share: how wide texts are, their colours in light and in dark, and the frame of an SVG."""
import colorsys
import html
import string
import unicodedata

WIDTH, HEIGHT, PAD = 7.9, 18, 8  # of a character, of a line, and around a cell's text
FOLD = 34  # the characters of a line from which on a text is folded after a comma
LIGHT = dict(ink='#1a1a1a', line='#767676', paper='#ffffff', cell='#f3f1ea', step='#dfe9f5', kernel='#b3261e')
DARK = dict(ink='#ededed', line='#8c8c8c', paper='#161616', cell='#24231f', step='#1f3147', kernel='#ff8a80')
CONTRAST = 4.5  # of each parameter's colour against the cells, the least that the accessibility guidelines ask of text
STYLE = """
svg { font: 13px ui-monospace, 'DejaVu Sans Mono', monospace; }
svg .kernel { fill: none; stroke-width: 3; display: none; } svg .out { opacity: .3; } svg .label { font-style: italic; }
svg .slipped .box { stroke-width: 2; stroke-dasharray: 6 4; } svg .path { fill: none; stroke-width: 2; } svg .door { stroke-width: 5; }
"""
# The rules with a colour, in each theme. Not every program that reads SVG knows variables, so that these are filled in.
COLOURED = """
svg { background: $paper; } svg text { fill: $ink; } svg .box { fill: $cell; stroke: $line; } svg .step .box { fill: $step; }
svg .kernel, svg .slipped .box { stroke: $kernel; } svg .path { stroke: $line; } svg .thing { fill: $ink; } svg .door { stroke: $ink; }
svg .under { fill: $paper; }
"""


def columns(text):
    """How many columns of a type of one width a text takes."""
    return sum(0 if unicodedata.combining(sign) else 2 if unicodedata.east_asian_width(sign) in 'WF' else 1 for sign in text)


def width(text):
    """How wide a text is in a picture."""
    return columns(text) * WIDTH


def folded(text):
    """The lines of an atom: folded after its commas where it is long."""
    if columns(text) <= FOLD:
        return [text]
    lines = ['']
    for part in text.replace(',', ',\n').replace('(', '(\n').split('\n'):
        if lines[-1].strip() and columns(lines[-1] + part) > FOLD:
            lines.append('  ')
        lines[-1] += part
    return lines


def brightness(colour):
    """The relative luminance of a colour, by which contrast is measured."""
    red, green, blue = (part / 12.92 if part <= 0.04045 else ((part + 0.055) / 1.055) ** 2.4 for part in colour)
    return 0.2126 * red + 0.7152 * green + 0.0722 * blue


def contrast(one, other):
    """The contrast of two colours, from 1 to 21."""
    low, high = sorted((brightness(one), brightness(other)))
    return (high + 0.05) / (low + 0.05)


def shade(hue, theme, sign):
    """The colour of a hue, darkened or lightened until it stands out from all cells of a theme."""
    grounds = [tuple(int(theme[name][at:at + 2], 16) / 255 for at in (1, 3, 5)) for name in ('cell', 'step')]
    shades = (colorsys.hls_to_rgb(hue, 0.5 + sign * step / 50, 0.85) for step in range(26))
    colour = next(colour for colour in shades if all(contrast(colour, ground) >= CONTRAST for ground in grounds))
    return '#' + ''.join(f'{round(part * 255):02x}' for part in colour)


def rules(theme, parameters, sign):
    """The colours of a theme, and those of the named parameters, whose hues are spread evenly."""
    return string.Template(COLOURED).substitute(theme) + ''.join(
        f'svg .{name} {{ fill: {shade(place / len(parameters), theme, sign)}; }}\n' for place, name in enumerate(parameters))


def style(parameters):
    """The style of pictures with these parameters. What is printed is light."""
    return STYLE + rules(LIGHT, parameters, -1) + '@media screen and (prefers-color-scheme: dark) {' + rules(DARK, parameters, 1) + '}\n'


def label(x, y, text, kind='label', anchor='middle'):
    """A text at a place."""
    return f'<text class="{kind}" x="{x:.0f}" y="{y:.0f}" text-anchor="{anchor}">{html.escape(text)}</text>'


def svg(wide, high, title, parts, alone=None):
    """A picture with its title, which a screen reader says. One that stands alone has its own style, with its parameters."""
    own = [] if alone is None else [f'<style>{style(alone)}</style>']
    return '\n'.join([f'<svg xmlns="http://www.w3.org/2000/svg" role="img" viewBox="0 0 {wide:.0f} {high:.0f}" '
                      f'width="{wide:.0f}" height="{high:.0f}">', f'<title>{html.escape(title)}</title>', *own, *parts, '</svg>'])
