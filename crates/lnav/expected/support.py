# The section for support engineers of docs/COURSE.md: a recorded block spoilt three times, one copy behind the other in
# support.log. Stated by hand: which words fail, and their syndromes by the columns of document 01's table. The script
# stops where the right reader of readers.py says anything else.
import itertools
import paper
import readers
from blocks import index_of
from paper import flipped
from second_way import COLUMNS
from subject import ten_words

M8T = 'ublox-m8t-sv03.log'
# Of each copy: its comment, word and bit of each flip, the first word that fails, and the syndromes of all that fail.
# Bit 12 stands in the lines 25, 26 and 27, bit 20 in 25, 27 and 28: both together leave 26 and 28. Q counts an odd
# number of times in the lines 26, 28 and 30.
COPIES = [
    ('bit 12 of word 5 flipped', [(5, 12)], 5, {5: '111000 equations 25 26 27'}),
    ('bits 12 and 20 of word 5 flipped', [(5, 12), (5, 20)], 5, {5: '010100 equations 26 28'}),
    ('bit 30 of word 4 flipped, which is also Q of word 5', [(4, 30)], 4,
     {4: '000001 equations 30', 5: '010101 equations 26 28 30'}),
]

# The windows that pass among those of a window with this many bits flipped.
def near(window, number):
    windows = [flipped(window, *places) for places in itertools.combinations(range(32), number)]
    return list(filter(paper.passes, windows))

# Word 5 as it was sent is one flip from the first copy's, and no other window that passes is. None is one flip from the
# second copy's, and sixteen are two flips from it.
def said_of_flips(sent, first, second):
    assert near(first, 1) == [sent]
    assert near(second, 1) == [] and len(near(second, 2)) == 16 and sent in near(second, 2)

def build(s):
    block = s.recording(M8T)[:302]
    copies = [flipped(block, *(index_of(*flip) for flip in flips)) for _, flips, _, _ in COPIES]
    log = s.make('support.log', b''.join(copies))
    for place, (comment, _, word, failing) in zip((0, 302, 604), COPIES):
        s.comment(comment)
        s.check(log, place, 'refused 5 %d a word breaks the table syndrome %s' % (word, failing[word]))
        s.words(log, place, ten_words(failing))
    sent, first, second = (paper.windows_of(bits)[4] for bits in (block, *copies[:2]))
    said_of_flips(sent, first, second)
    s.comment('word 5 of the first block with bit 12 flipped back')
    s.word(flipped(first, 13), 'passes .. syndrome 000000')
    assert readers.Reader(s.log).run(s.commands) == s.output

# The table of docs/COURSE.md: the syndrome of each bit alone. The rows are filled down the columns.
def table_lines():
    names = ['P', 'Q', *range(1, 31)]
    cells = ['| %s | %s ' % cell for cell in zip(names, COLUMNS)]
    rows = [''.join(cells[row::8]) + '|' for row in range(8)]
    return ['| bit | syndrome ' * 4 + '|', '|' + '---|' * 8, *rows]
