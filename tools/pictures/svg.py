"""A picture: shapes and words gathered in order and printed as one SVG file. Colours have names, each with a light and a dark value, and the
file follows the reader's scheme. Words are laid out by the widest font, so that no font is needed."""
from html import escape

from room import Room
from widths import width_of, wrapped

# Name of a colour: on a light ground, on a dark one.
COLOURS = {
    'ground': ('#ffffff', '#0d1117'), 'frame': ('#d1d9e0', '#30363d'), 'band': ('#f3f5f8', '#161b22'), 'band-edge': ('#d8dee4', '#2a313a'),
    'box': ('#ffffff', '#21262d'), 'box-edge': ('#98a3af', '#57606a'), 'ink': ('#1f2328', '#e6edf3'), 'soft': ('#57606a', '#9da7b1'),
    'line': ('#57606a', '#9da7b1'), 'accent': ('#0f766e', '#2dd4bf'), 'fresh': ('#dcfce7', '#12351f'), 'fresh-edge': ('#1a7f37', '#3fb950'),
    'read': ('#ddf0ff', '#0f2d52'), 'read-edge': ('#0969da', '#58a6ff'), 'read-ink': ('#0a4a94', '#a5d6ff'),
    'selective': ('#fff3c4', '#3b2c07'), 'selective-edge': ('#a06a00', '#d29922'), 'selective-ink': ('#6b4700', '#f2cc60'),
    'exclusive': ('#ffe3e0', '#4a1518'), 'exclusive-edge': ('#cf222e', '#f85149'), 'exclusive-ink': ('#93131d', '#ffb3ad'),
}
MODES = ('read', 'selective', 'exclusive')
# Class: its properties, by the colour's name.
RULES = {
    'ground': {'fill': 'ground', 'stroke': 'frame'}, 'band': {'fill': 'band', 'stroke': 'band-edge'}, 'box': {'fill': 'box', 'stroke': 'box-edge'},
    'fresh': {'fill': 'fresh', 'stroke': 'fresh-edge'}, 'bare': {'fill': 'box', 'stroke': 'box-edge'}, 'cell': {'stroke': 'band-edge'},
    'line': {'stroke': 'line'}, 'head': {'fill': 'line'}, 'ink': {'fill': 'ink'}, 'soft': {'fill': 'soft'}, 'accent': {'fill': 'accent'},
    'ring': {'stroke': 'accent'}, 'number': {'fill': 'ink'}, 'on-number': {'fill': 'ground'},
    **{f'{mode}-half': {'fill': mode} for mode in MODES}, **{f'{mode}-edge': {'stroke': f'{mode}-edge'} for mode in MODES},
    **{f'{mode}-ink': {'fill': f'{mode}-ink'} for mode in MODES},
}
FIXED = ['text{font-family:"Helvetica Neue",Helvetica,Arial,"Liberation Sans",sans-serif}',
         '.mono{font-family:ui-monospace,SFMono-Regular,Menlo,Consolas,"Liberation Mono",monospace}',
         '.bold{font-weight:bold}', '.line,.cell,.ring,' + ','.join(f'.{mode}-edge' for mode in MODES) + '{fill:none}', '.bare,.dashed{stroke-dasharray:4 3}']

def style():
    def rules(scheme):
        return ''.join(f'.{name}{{{";".join(f"{key}:{COLOURS[colour][scheme]}" for key, colour in rule.items())}}}\n' for name, rule in RULES.items())
    return '\n'.join(FIXED) + '\n' + rules(0) + '@media (prefers-color-scheme: dark) {\n' + rules(1) + '}\n'


def short(number):
    return f'{number:.1f}'.removesuffix('.0')


class Picture:
    def __init__(self, title, description, width=900):
        self.title, self.description, self.width, self.parts, self.room = title, description, width, [], Room()

    def rect(self, x, y, width, height, kind, radius=6):
        if not kind.endswith('-half'):
            self.room.box(x, y, width, height)
        self.parts.append(f'<rect x="{short(x)}" y="{short(y)}" width="{short(width)}" height="{short(height)}" rx="{radius}" class="{kind}"/>')

    def circle(self, x, y, radius, kind):
        self.parts.append(f'<circle cx="{short(x)}" cy="{short(y)}" r="{short(radius)}" class="{kind}"/>')

    def text(self, x, y, words, size=12, kind='ink', anchor='start'):
        self.room.text(x, y, words, width_of(words, size, 'mono' in kind, 'bold' in kind), size, anchor)
        self.parts.append(f'<text x="{short(x)}" y="{short(y)}" font-size="{size}" text-anchor="{anchor}" class="{kind}">{escape(words, quote=False)}</text>')

    def phrase(self, x, y, parts, size=12):
        """Words of several kinds, one after the other on a line."""
        words = ''.join(words for words, _ in parts)
        self.room.text(x, y, words, sum(width_of(words, size, bold='bold' in kind) for words, kind in parts), size, 'start')
        spans = ''.join(f'<tspan class="{kind}">{escape(words, quote=False)}</tspan>' for words, kind in parts)
        self.parts.append(f'<text x="{short(x)}" y="{short(y)}" font-size="{size}" xml:space="preserve">{spans}</text>')

    def lines(self, x, y, lines, size=12, kind='ink', pitch=None):
        """Lines under one another; the height that they take."""
        pitch = pitch or size * 1.25
        for k, words in enumerate(lines):
            self.text(x, y + k * pitch, words, size, kind)
        return len(lines) * pitch

    def path(self, points, kind='line', arrow=True):
        """Straight lines from point to point, with an arrow's head at the end."""
        corners = ' '.join(('L' if k else 'M') + f'{short(x)} {short(y)}' for k, (x, y) in enumerate(points))
        head = ' marker-end="url(#head)"' if arrow else ''
        self.parts.append(f'<path d="{corners}" class="{kind}" stroke-width="1.4" stroke-linejoin="round"{head}/>')

    def head(self, title, says, left=24):
        """The title, and words under it in as many lines as they need; where the next line would be."""
        self.text(left, 36, title, 17, 'ink bold')
        return 57 + self.lines(left, 57, wrapped(says, 12, self.width - 2 * left), 12, 'soft', 17)

    def checked(self, height):
        """The document, refused where words have no room."""
        self.room.check(self.width)
        return self.document(height)

    def document(self, height):
        top = [f'<svg xmlns="http://www.w3.org/2000/svg" width="{self.width}" height="{short(height)}" viewBox="0 0 {self.width} {short(height)}" role="img">',
               f'<title>{escape(self.title, quote=False)}</title>', f'<desc>{escape(self.description, quote=False)}</desc>', f'<style>\n{style()}</style>',
               '<defs><marker id="head" viewBox="0 0 8 8" refX="7" refY="4" markerWidth="7" markerHeight="7" markerUnits="userSpaceOnUse" orient="auto">'
               '<path d="M0 0L8 4L0 8z" class="head"/></marker></defs>',
               f'<rect x="0.5" y="0.5" width="{self.width - 1}" height="{short(height - 1)}" rx="8" class="ground"/>']
        return '\n'.join(top + self.parts + ['</svg>']) + '\n'
