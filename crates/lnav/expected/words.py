# The command `word`: 122 windows, and a line that is none. Which pass is stated by hand: the board examples and the
# recorded words do, upright and inverted; one to three flips, wrong pairs and wrong parity do not. The syndrome of each
# is stated too: by hand, or as that of the flipped bits, whose columns are stated by hand in second_way.py.
import paper
from second_way import COLUMNS, sum_of_columns

# Document 01's board examples.
BOARD = '''
00000000000000000000000000000000
11111111111111111111111111111111
00100000000000000000000000101010
00001000000000000000000000111011
10000000000000000000000000101001
01111111111111111111111111010110
00100010110000000000000000010010
10000000000000000000000111010100
'''
# Board examples with zeros for bits 25 to 30: the syndrome is the parity that document 01 states. At the end zeros with
# ones for bits 25 to 30.
PARITY = '''
00100000000000000000000000000000 101010 equations 25 27 29
00001000000000000000000000000000 111011 equations 25 26 27 29 30
10000000000000000000000000000000 101001 equations 25 27 30
01111111111111111111111111000000 010110 equations 26 28 29
00100010110000000000000000000000 010010 equations 26 29
10000000000000000000000111000000 010100 equations 26 28
00000000000000000000000000111111 111111 equations 25 26 27 28 29 30
'''
# Zeros for pair 01 sent upright, with the parity for pairs 01 and 10; ones for pair 10 with the parity for 01. Of the
# first two the right parity is column Q, 010101. Of the last it is 101010: P and the source bits are 1, and the lines
# 25, 27 and 29 have an odd number of them.
PAIRS = '''
01000000000000000000000000010110 000011 equations 29 30
01000000000000000000000000101001 111100 equations 25 26 27 28
10111111111111111111111111010110 111100 equations 25 26 27 28
'''
# The places of the flips in the windows of words 4 and 5.
TWO_FLIPS = [(6, 14), (11, 21), (6, 26), (13, 29), (27, 29), (1, 20), (14, 16), (17, 19), (13, 28), (9, 24)]
THREE_FLIPS = [(17, 29, 30), (11, 14, 16), (2, 26, 28), (11, 24, 25), (0, 4, 5), (5, 15, 25), (12, 16, 24),
               (11, 12, 28), (2, 3, 16), (3, 8, 15)]
HELP = '''\
check LOG PLACE                 the block check at a place
find LOG PLACE                  the first accepted block at or after a place
list LOG                        place, number, count and polarity of each block
read LOG PLACE                  every field of the block at a place
words LOG PLACE                 the ten words of the block at a place
feed LOG PLACE SATELLITE        feeds the block at a place to the collector
feed-all LOG SATELLITE          feeds every block of a log
word BITS                       a word: 32 digits, the two bits before it first
write KIND VALUE.. [inverted]   the block of a record
invert written                  swaps 0 and 1 in the block
flip written INDEX              flips one bit of the block, 0 to 301
set N                           the orbit set of satellite N
almanac N                       the almanac page of SV ID N
utc                             the UTC page
clock N                         the clock terms of satellite N
accuracy N                      the user range accuracy of satellite N
time WEEK SECOND                the UTC time of day, by the UTC page
rank                            satellites with a set, smallest URA index first
forget                          empties the collector
run FILE                        does the commands of a file
help                            prints this
LOG: a file of one byte a bit, or the word written: the block written last.
KIND: subframe1, subframe2, subframe3, almanac, utc, other. VALUE: NAME=NUMBER.
For N of clock and accuracy also subframe1 VALUE.., after SECOND utc VALUE..
'''

def passing(s, comment, windows):
    s.comment(comment)
    for window in windows:
        s.word(window, 'passes .. syndrome 000000')

# Each window with its syndrome, and perhaps the equations.
def failing(s, comment, windows):
    s.comment(comment)
    for window, syndrome in windows:
        s.word(window, 'fails .. syndrome ' + syndrome)

# The windows of a text with what is stated of each.
def parted(text):
    for line in text.strip().splitlines():
        bits, _, syndrome = line.partition(' ')
        yield paper.bits_of(bits), syndrome

# A window that passes, with these bits flipped.
def with_flips(window, flips):
    return [(paper.flipped(window, *places), sum_of_columns(places)) for places in flips]

def build(s):
    s.comment('the commands')
    s.do('help', *HELP.splitlines())
    block = s.recording('ublox-m8t-sv03.log')[:302]
    recorded = paper.windows_of(block)
    third, fourth, fifth = recorded[2:5]
    passing(s, "document 01's board examples", map(paper.bits_of, BOARD.split()))
    passing(s, 'ten words that satellite 3 sent', recorded)
    passing(s, 'the same, inverted', map(paper.inverse, recorded))
    failing(s, 'the third with each bit flipped', [(paper.flipped(third, i), COLUMNS[i]) for i in range(32)])
    failing(s, 'the fourth with two bits flipped', with_flips(fourth, TWO_FLIPS))
    failing(s, 'the fifth with three bits flipped', with_flips(fifth, THREE_FLIPS))
    failing(s, 'data bits not turned over by Q, or another pair', parted(PAIRS))
    failing(s, 'board examples with zeros for bits 25 to 30; then zeros with ones for these', parted(PARITY))
    failing(s, 'each bit alone: P, Q, 1 to 30', [(paper.flipped(bytes(32), i), COLUMNS[i]) for i in range(32)])
    s.comment('four digits: a message, and nothing here')
    s.do('word 0012')
