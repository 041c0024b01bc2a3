#!/usr/bin/env python3
"""Makes the pictures of README.md.

    make.py            writes block.svg and path.svg beside this file
    make.py --check    fails where one of them is not what it makes
"""
import sys
from html import escape
from pathlib import Path

FOLDER = Path(__file__).resolve().parent
INK, GREY, LINE, RED = '#1f2933', '#5f6b76', '#8894a0', '#b3261e'
BLUE, ORANGE, GREEN, YELLOW, VIOLET, PLAIN = '#dbe9f9', '#fbe3c8', '#dcefdc', '#fdf3bf', '#eadff5', '#eef0f2'


def text(x, y, words, size=12, anchor='middle', colour=INK, bold=False):
    weight = ' font-weight="bold"' if bold else ''
    return f'<text x="{x:g}" y="{y:g}" font-size="{size}" text-anchor="{anchor}" fill="{colour}"{weight}>{escape(words)}</text>'


def box(x, y, width, height, fill, corner=0):
    return f'<rect x="{x:g}" y="{y:g}" width="{width:g}" height="{height:g}" rx="{corner}" fill="{fill}" stroke="{LINE}"/>'


def arrow(*points):
    return f'<polyline points="{" ".join("%g,%g" % p for p in points)}" fill="none" stroke="{INK}" stroke-width="1.4" marker-end="url(#head)"/>'


def picture(title, width, height, parts):
    head = '<defs><marker id="head" viewBox="0 0 8 8" refX="7" refY="4" markerWidth="8" markerHeight="8" orient="auto"><path d="M0,0 L8,4 L0,8 z" fill="%s"/></marker></defs>' % INK
    opening = f'<svg xmlns="http://www.w3.org/2000/svg" viewBox="0 0 {width} {height}" width="{width}" height="{height}" font-family="system-ui, Helvetica, Arial, sans-serif">'
    return '\n'.join([opening, f'<title>{escape(title)}</title>', head, f'<rect width="{width}" height="{height}" fill="#ffffff"/>', *parts, '</svg>', ''])


# The block: the whole with its windows, then a window and the words bit by bit.

PAIR, WORD, LAST_TWO, LEFT = 40, 81, 14, 25  # widths of the start pair, a word and its last two bits; the left edge


def word_edge(k):
    """Where word k begins; word 11 is the end."""
    return LEFT + PAIR + WORD * (k - 1)


def whole(y):
    yield text(LEFT, y - 30, 'A block: 302 received bits, a start pair and ten words of 30 bits', 14, 'start', bold=True)
    yield box(LEFT, y, PAIR, 34, YELLOW)
    yield text(LEFT + PAIR / 2, y + 21, 'pair', 11)
    yield text(LEFT + 2, y - 6, '0 1', 11, 'start', GREY)
    for k in range(1, 11):
        x = word_edge(k)
        yield box(x, y, WORD - LAST_TWO, 34, BLUE)
        yield box(x + WORD - LAST_TWO, y, LAST_TWO, 34, YELLOW)
        yield text(x + (WORD - LAST_TWO) / 2, y + 21, f'word {k}', 12)
        yield text(x + 2, y - 6, str(30 * k - 28), 11, 'start', GREY)
    yield text(word_edge(11), y - 6, '301', 11, 'end', GREY)
    for k in range(1, 11):
        x = word_edge(k) - (PAIR if k == 1 else LAST_TWO)
        at = y + (44 if k % 2 else 84)
        yield box(x, at, word_edge(k + 1) - x, 34, PLAIN)
        middle = (x + word_edge(k + 1)) / 2
        yield text(middle, at + 14, f'window {k}', 11)
        yield text(middle, at + 28, f'{30 * (k - 1)} to {30 * k + 1}', 11, colour=GREY)
    yield text(LEFT, y + 138, 'Window k is word k with the two bits before it, so that neighbours share two bits. Grey: index in the block, from 0.', 12, 'start')


BIT, FIRST = 24, 166  # the width of a bit, and where bit 1 of a word begins


def span(low, high):
    return str(low) if low == high else f'{low}, {high}' if low + 1 == high else f'{low} to {high}'


def bits(y, name, first, groups):
    """A word bit by bit, from index `first` of the block. A group has what stands in it, its bits, its colour and a name above it or ''."""
    yield text(FIRST - 60, y + 19, name, 12, 'end', bold=True)
    at = 1
    for label, width, fill, above in groups:
        x = FIRST + BIT * (at - 1)
        yield from (box(x + BIT * i, y, BIT, 28, fill) for i in range(width))
        if set(label) <= {'0', '1'}:
            yield from (text(x + BIT * (i + 0.5), y + 19, digit) for i, digit in enumerate(label))
        else:
            yield f'<rect x="{x + 2:g}" y="{y + 4}" width="{BIT * width - 4:g}" height="20" fill="{fill}"/>'
            yield text(x + BIT * width / 2, y + 19, label, 12 if width > 2 else 11)
        yield text(x + BIT * width / 2, y - 5, span(at, at + width - 1), 10.5)
        if above:
            yield text(x + BIT * width / 2, y - 20, above, 11)
        if first:
            yield text(x + BIT * width / 2, y + 41, span(first + at - 1, first + at + width - 2), 10.5, colour=GREY)
        at += width


def block():
    parity, filler = ('parity', 6, ORANGE, ''), ('fillers', 2, VIOLET, '')
    yield from whole(62)
    y = 254
    yield text(LEFT, y - 24, 'Window 1 and the words, bit by bit', 14, 'start', bold=True)
    for i, label in enumerate('PQ'):
        yield box(FIRST - BIT * (2 - i), y, BIT, 28, YELLOW)
        yield text(FIRST - BIT * (1.5 - i), y + 19, label)
        yield text(FIRST - BIT * (1.5 - i), y + 41, str(i), 10.5, colour=GREY)
    yield from bits(y, 'window 1', 2, [('24 source bits: source bit i is received bit i exclusive-or Q', 24, BLUE, ''), parity])
    yield from bits(y + 92, 'word 1', 2, [('10001011', 8, GREEN, 'preamble'), ('message', 14, BLUE, ''), ('', 2, BLUE, 'reserved'), parity])
    yield from bits(y + 184, 'word 2', 32, [
        ('count, the time of week in units of 6 s', 17, BLUE, ''), ('', 1, GREEN, ''), ('', 1, GREEN, ''), ('number', 3, BLUE, 'subframe'), filler, parity])
    yield text(FIRST + 18 * BIT, y + 164, 'flags', 11)
    yield from bits(y + 262, 'words 3 to 9', None, [('24 bits of the fields', 24, BLUE, ''), parity])
    yield from bits(y + 324, 'word 10', 272, [('22 bits of the fields', 22, BLUE, ''), filler, parity])
    yield text(LEFT, y + 398, 'The words are shown as source bits. The fillers, bits 23 and 24 of words 2 and 10, are chosen so that the word', 12, 'start')
    yield text(LEFT, y + 415, 'ends like the start pair: 00 upright, 11 inverted.', 12, 'start')


# The path of the data: boxes are what there is, arrows are crates with the numbers by which they refuse.

def node(x, y, width, height, *lines, fill=BLUE):
    yield box(x, y, width, height, fill, 6)
    for i, words in enumerate(lines):
        yield text(x + width / 2, y + height / 2 + 4.5 + 16 * (i - (len(lines) - 1) / 2), words, 13 if i == 0 else 11.5, colour=INK if i == 0 else GREY)


def crate(x, y, names, numbers='', anchor='middle', apart=15):
    yield text(x, y, names, 12, anchor, bold=True)
    if numbers:
        yield text(x, y + apart, numbers, 11.5, anchor, RED)


def path():
    yield text(25, 28, 'From a log to records, sets and texts', 14, 'start', bold=True)
    yield text(875, 28, 'bold: the crate.  red: the numbers by which it refuses', 12, 'end', GREY)
    yield from node(25, 60, 110, 54, 'log', 'a byte a bit')
    yield from node(285, 60, 110, 54, 'block', '302 bytes')
    yield from node(515, 60, 110, 54, 'record', 'one of six kinds')
    yield from node(765, 60, 110, 54, 'block', 'written')
    yield arrow((135, 87), (285, 87))
    yield from crate(210, 62, 'search', '1, 10')
    yield from crate(210, 104, 'block_check', '1, 3, 2, 4 to 9')
    yield arrow((395, 87), (515, 87))
    yield from crate(455, 79, 'reader')
    yield text(455, 104, 'as block_check', 11.5, colour=RED)
    yield arrow((625, 87), (765, 87))
    yield from crate(695, 79, 'writer')
    yield text(695, 104, '11, 12', 11.5, colour=RED)

    yield arrow((80, 114), (80, 222))
    yield from crate(90, 166, 'listing_text', '1', 'start')
    yield from node(25, 222, 110, 54, 'text', 'the listing', fill=GREEN)

    yield box(235, 196, 430, 106, PLAIN, 6)
    yield text(450, 216, 'collector: the latest of each, by feeds', 13)
    yield from node(250, 232, 190, 56, 'satellites 1 to 32', 'subframes 1, 2 and 3')
    yield from node(460, 232, 190, 56, 'pages', 'almanac of 32 SV IDs, UTC')
    yield arrow((570, 114), (570, 196))
    yield from crate(560, 150, 'collector', '13, as block_check', 'end')

    yield from node(260, 392, 130, 50, 'orbit set', 'subframes 1, 2, 3', fill=GREEN)
    yield arrow((325, 288), (325, 392))
    yield from crate(335, 340, 'orbit_set', '13, 17, 18, 19', 'start')
    yield from node(440, 392, 120, 50, 'almanac page', fill=GREEN)
    yield from node(580, 392, 100, 50, 'UTC page', fill=GREEN)
    yield arrow((500, 288), (500, 392))
    yield from crate(490, 340, 'pages', '13, 20', 'end')
    yield arrow((630, 288), (630, 392))
    yield from crate(640, 340, 'pages', '20', 'start')

    yield from node(25, 392, 130, 50, 'satellites', 'most accurate first', fill=GREEN)
    yield arrow((270, 288), (270, 345), (90, 345), (90, 392))
    yield from crate(180, 338, 'ranking', '21', apart=24)

    yield from node(165, 530, 110, 50, 'clock terms', 'four doubles', fill=GREEN)
    yield from node(355, 530, 130, 50, 'accuracy', 'in metres, or none', fill=GREEN)
    yield from node(560, 530, 140, 50, 'time of day', 'of week and second', fill=GREEN)
    yield arrow((290, 442), (220, 530))
    yield from crate(236, 478, 'clock', '11', 'end')
    yield arrow((360, 442), (420, 530))
    yield from crate(404, 478, 'accuracy', '11', 'start')
    yield arrow((630, 442), (630, 530))
    yield from crate(640, 478, 'utc, leap, day', '11, 14, 15, 16', 'start')

    yield from node(745, 222, 130, 54, 'numbers', 'kind and 25 values')
    yield from node(745, 392, 130, 50, 'C and Rust', fill=GREEN)
    yield arrow((605, 114), (605, 160), (780, 160), (780, 222))
    yield from crate(690, 153, 'values')
    yield arrow((840, 222), (840, 135), (615, 135), (615, 114))
    yield from crate(715, 129, 'from_values')
    yield text(768, 129, '11', 11.5, 'start', RED)
    yield arrow((810, 276), (810, 392))
    yield from crate(800, 330, 'exports_', 'as each call', 'end')


PICTURES = {
    'block.svg': picture('A block: start pair, ten words and ten windows, and what stands in words 1, 2 and 10', 900, 688, block()),
    'path.svg': picture('The path of the data from a log to records, sets and texts, with crates and refusal numbers', 900, 600, path()),
}
if '--check' in sys.argv:
    wrong = [name for name, made in PICTURES.items() if not (FOLDER / name).exists() or (FOLDER / name).read_text() != made]
    print('\n'.join(f'pictures: docs/pictures/{name} is not what make.py makes' for name in wrong) or f'pictures: {len(PICTURES)} as made')
    sys.exit(bool(wrong))
for name, made in PICTURES.items():
    (FOLDER / name).write_text(made)
