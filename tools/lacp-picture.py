#!/usr/bin/env python3
"""lacp-picture.py: runs `lacp try` in a terminal of its own, disturbs two links, and writes what it shows as docs/lacp.svg."""
import fcntl, html, os, pty, re, select, struct, sys, termios, time

ROWS, COLUMNS = 22, 132
COLOURS = {31: '#d0453e', 32: '#3c9a4f', 33: '#b8860b', 2: '#888888', 7: '#2b6cb0'}
KEYS = [(3.0, b'2c'), (4.0, b'4s'), (8.6, b'')]  # seconds from the start, and what is pressed then


class Screen:
    """As much of a terminal as the view uses: places, colours, and the rest of a line."""

    def __init__(self):
        self.cells = [[(' ', 0)] * COLUMNS for _ in range(ROWS)]
        self.row = self.column = self.colour = 0

    def take(self, octets):
        for place, number, other, text in re.findall(r'\x1b\[(\d+);1H|\x1b\[(\d+)m|(\x1b\[2J|\x1b\[K)|([^\x1b]+)', octets):
            if place:
                self.row, self.column = int(place) - 1, 0
            elif number:
                self.colour = int(number)
            elif other == '\x1b[K':
                self.cells[self.row][self.column:] = [(' ', 0)] * (COLUMNS - self.column)
            elif text:
                for character in text:
                    if self.column < COLUMNS:
                        self.cells[self.row][self.column] = (character, self.colour)
                        self.column += 1


def shown(program):
    """What the terminal shows after the last key."""
    child, terminal = pty.fork()
    if child == 0:
        os.execv(program, [program, 'try'])
    fcntl.ioctl(terminal, termios.TIOCSWINSZ, struct.pack('HHHH', ROWS, COLUMNS, 0, 0))
    screen, begin, seen = Screen(), time.monotonic(), b''
    for when, keys in KEYS:
        while time.monotonic() < begin + when:
            if select.select([terminal], [], [], 0.05)[0]:
                seen += os.read(terminal, 65536)
        os.write(terminal, keys)
    screen.take(seen.decode())
    os.write(terminal, b'q')
    try:
        while os.read(terminal, 65536):
            pass
    except OSError:
        pass
    os.waitpid(child, 0)
    return screen


def runs(cells):
    """Pieces of a line of one colour: where each begins, its colour, its text."""
    begin = 0
    for end in range(1, len(cells) + 1):
        if end == len(cells) or cells[end][1] != cells[begin][1]:
            yield begin, cells[begin][1], ''.join(character for character, _ in cells[begin:end])
            begin = end


def svg(screen):
    width, height = COLUMNS * 7.3 + 24, ROWS * 17 + 24
    lines = [f'<svg xmlns="http://www.w3.org/2000/svg" width="{width:.0f}" height="{height}" font-family="DejaVu Sans Mono, Menlo, Consolas, monospace" font-size="12">',
             '<rect width="100%" height="100%" rx="6" fill="#fbfbf8" stroke="#cccccc"/>']
    for row, cells in enumerate(screen.cells):
        for column, colour, text in runs(cells):
            if text.strip():
                kept = text.rstrip()
                lines.append(f'<text x="{12 + column * 7.3:.1f}" y="{26 + row * 17}" fill="{COLOURS.get(colour, "#222222")}" xml:space="preserve" '
                             f'textLength="{len(kept) * 7.3:.1f}">{html.escape(kept)}</text>')
    return '\n'.join(lines + ['</svg>', ''])


if __name__ == '__main__':
    os.chdir(os.path.join(os.path.dirname(os.path.abspath(__file__)), '..'))
    picture = svg(shown(sys.argv[1] if len(sys.argv) > 1 else 'target/lacp/lacp'))
    with open('docs/lacp.svg', 'w') as file:
        file.write(picture)
