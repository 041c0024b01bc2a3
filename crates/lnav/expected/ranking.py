# The ranking, in nine scenes: recordings and written blocks are fed, and `rank` is asked. Stated by hand from document
# 02: which satellites are listed, in their order, with their URA indices, and why the others are not. The script stops
# where questions.py and second_way.py differ in a ranking. The numbers of recorded fields in the statements are
# gpsdecode's.
import records
from second_way import rank_by_counting

ISSUES = 'IODC low, IODE of 2 and of 3 not all equal'
HEALTH = 'first health bit is 1'

# Satellite, URA index, count and issue of the subframes 1 of the third scene, in the order in which they are fed.
SIXTEEN_FED = '''
27 6 41 0, 32 0 1 255, 10 15 31 0, 19 10 46 255, 29 2 21 0, 11 8 16 255, 8 3 51 0, 31 15 36 255, 17 0 100799 0,
24 9 56 255, 6 11 61 0, 14 5 66 255, 2 2 6 255, 20 14 0 0, 28 12 71 255, 1 0 11 255, 9 13 76 0, 30 1 81 255, 3 8 26 0,
21 4 86 0, 5 7 91 255
'''
# The satellites of that scene by number, and their lines.
SIXTEEN_NUMBERS = '1 2 3 5 6 8 9 10 11 14 17 19 20 21 24 27 28 29 30 31 32'
SIXTEEN = '''
1 0 2 11 255
17 0 2 100799 0
32 0 2 1 255
30 1 2.8 81 255
2 2 4 6 255
29 2 4 21 0
8 3 5.7 51 0
21 4 8 86 0
14 5 11.3 66 255
27 6 16 41 0
5 7 32 91 255
3 8 64 26 0
11 8 64 16 255
24 9 128 56 255
19 10 256 46 255
6 11 512 61 0
28 12 1024 71 255
9 13 2048 76 0
20 14 4096 0 0
10 15 no prediction 31 0
31 15 no prediction 36 255
'''
# The satellites of the scene of all 32 by URA index, in the order in which they are fed.
ALL_FED = [
    (6, '32 3 18 9 24 11 30 5'),
    (0, '17 2 29 13 22 7 26 16'),
    (15, '28 4 21 10 1 15'),
    (2, '23 8 31 14 19 6 27 12 25 20'),
]

# ---- commands

# Asks for the ranking. Stated is each line, or the words that it begins with.
def rank_lines(s, *stated):
    stated = ['satellite ura metres count issue', *stated]
    lines = s.rank('\n'.join(stated))
    assert len(lines) == len(stated), '\n'.join(lines)
    assert lines == rank_by_counting(s.collector.feeds), '\n'.join(lines)

# The same, where the listed satellites are stated by URA index, as in '0: 5 12, 1: 3'. Then come the lines of others.
def rank(s, listed='', *others):
    groups = [group.split(': ') for group in listed.split(', ') if group]
    ranked = ['%s %s' % (satellite, ura) for ura, satellites in groups for satellite in satellites.split()]
    rank_lines(s, *ranked, *others)

def not_held(satellite, subframe):
    return '%d subframe %d not held' % (satellite, subframe)

# Writes a block and feeds it for satellites.
def feed(s, satellites, kind, **named):
    s.write(kind, **named)
    for satellite in satellites.split():
        s.feed('written', 0, int(satellite), 'feed 0 %s accepted' % satellite)

# ---- the scenes

def nothing_held(s):
    s.comment('nothing is held: the header line alone')
    rank(s)

# The recording of satellite 3 with the URA index 1 is also fed for satellite 31. The almanac pages of the recordings,
# those of SV IDs 26 to 32 among them, make no line.
def recorded(s):
    s.comment('recordings: equal indices by number, and the latest subframe 1 of satellite 3 moves it up')
    five, twelve = '5 0 2 18031 48', '12 0 2 18031 111'
    records.feed_whole(s, records.SV12)
    rank_lines(s, twelve)
    records.feed_whole(s, records.SV05)
    rank_lines(s, five, twelve)
    records.feed_whole(s, records.NOVATEL._replace(satellite=31))
    rank_lines(s, five, twelve, '31 1 2.8 85876 68')
    records.feed_whole(s, records.NOVATEL)
    rank_lines(s, five, twelve, '3 1 2.8 85876 68', '31 1 2.8 85876 68')
    records.feed_whole(s, records.M8T)
    rank_lines(s, '3 0 2 73841 94', five, twelve, '31 1 2.8 85876 68')

# Satellites 1, 17 and 32 have equal indices. Their counts and their issues would give other orders, smallest or largest
# first.
def sixteen_indices(s):
    s.comment('all URA indices, some of several satellites: first without subframe 1, then with it')
    s.forget()
    fed = [satellite.split() for satellite in SIXTEEN_FED.split(',')]
    for kind, count in (('subframe2', 2), ('subframe3', 3)):
        for issue in ('0', '255'):
            satellites = ' '.join(satellite for satellite, _, _, other in fed if other == issue)
            feed(s, satellites, kind, count=count, iode=int(issue))
    rank(s, '', *(not_held(int(satellite), 1) for satellite in SIXTEEN_NUMBERS.split()))
    for satellite, ura, count, issue in fed:
        feed(s, satellite, 'subframe1', count=int(count), ura=int(ura), iodc_low=int(issue))
    rank_lines(s, *SIXTEEN.strip().splitlines())
    s.comment('asking changes nothing')
    s.set(17, 'subframe1 count=100799 ura=0 iodc_low=0\nsubframe2 count=2 iode=0\nsubframe3 count=3 iode=0')
    rank_lines(s, *SIXTEEN.strip().splitlines())

# The first of the six health bits is 1 in 32 and 63, and 0 in 1 and 31. A missing subframe and two issues come before
# it.
def health(s):
    s.comment('health: satellites 4, 9, 20 and 25 of one issue')
    s.forget()
    feed(s, '20 9 25 4', 'subframe2', count=2, iode=7)
    feed(s, '4 25 20 9', 'subframe3', count=3, iode=7)
    feed(s, '20 4', 'subframe1', count=1, ura=2, iodc_low=7)
    feed(s, '25', 'subframe1', count=1, ura=1, iodc_low=7)
    feed(s, '9', 'subframe1', count=1, ura=0, iodc_low=7)
    rank(s, '0: 9, 1: 25, 2: 4 20')
    s.comment('the first health bit of satellite 9 is 1: it is gone, also after later subframes 2 and 3')
    feed(s, '9', 'subframe1', count=6, ura=0, health=32, iodc_low=7)
    rank(s, '1: 25, 2: 4 20', '9 ' + HEALTH)
    feed(s, '9', 'subframe2', count=7, iode=7)
    feed(s, '9', 'subframe3', count=8, iode=7)
    rank(s, '1: 25, 2: 4 20', '9 ' + HEALTH)
    s.comment('the other five bits of satellite 25 are 1: it stays; all six of satellite 4: it is gone')
    feed(s, '25', 'subframe1', count=6, ura=1, health=31, iodc_low=7)
    rank(s, '1: 25, 2: 4 20', '9 ' + HEALTH)
    feed(s, '4', 'subframe1', count=6, ura=2, health=63, iodc_low=7)
    rank(s, '1: 25, 2: 20', '4 ' + HEALTH, '9 ' + HEALTH)
    s.comment('satellite 9 is healthy again')
    feed(s, '9', 'subframe1', count=11, ura=0, iodc_low=7)
    rank(s, '0: 9, 1: 25, 2: 20', '4 ' + HEALTH)
    s.comment('the bit and another issue, satellite 20; the bit and no subframe 2, satellite 2')
    feed(s, '20', 'subframe1', count=11, ura=2, health=32, iodc_low=8)
    rank(s, '0: 9, 1: 25', '4 ' + HEALTH, '20 ' + ISSUES)
    feed(s, '2', 'subframe1', count=11, ura=0, health=32, iodc_low=7)
    rank(s, '0: 9, 1: 25', not_held(2, 2), '4 ' + HEALTH, '20 ' + ISSUES)
    s.comment('satellites 4 and 20 are back')
    feed(s, '20 4', 'subframe1', count=16, ura=2, health=1, iodc_low=7)
    rank(s, '0: 9, 1: 25, 2: 4 20', not_held(2, 2))

# 135 is 7 with the first of the eight bits 1, and 6 is 7 with the last one 0.
def issues(s):
    s.comment('issues: satellite 6 goes from issue 7 to 8, subframe by subframe')
    s.forget()
    feed(s, '22 6', 'subframe2', count=2, iode=7)
    feed(s, '22 6', 'subframe3', count=3, iode=7)
    feed(s, '22 6', 'subframe1', count=1, ura=4, iodc_low=7)
    rank_lines(s, '6 4 8 1 7', '22 4 8 1 7')
    feed(s, '6', 'subframe1', count=6, ura=4, iodc_low=8)
    rank(s, '4: 22', '6 ' + ISSUES)
    feed(s, '6', 'subframe2', count=7, iode=8)
    rank(s, '4: 22', '6 ' + ISSUES)
    feed(s, '6', 'subframe3', count=8, iode=8)
    rank_lines(s, '6 4 8 6 8', '22 4 8 1 7')
    s.comment('satellite 22: one of the three is of another issue, then of issue 7 again')
    for kind, field, other in (('subframe1', 'iodc_low', 135), ('subframe2', 'iode', 6), ('subframe3', 'iode', 135)):
        ura = {'ura': 4} if kind == 'subframe1' else {}
        feed(s, '22', kind, **ura, **{field: other})
        rank(s, '4: 6', '22 ' + ISSUES)
        feed(s, '22', kind, **ura, **{field: 7})
        rank(s, '4: 6 22')
    s.comment('the high bits of IODC are no part of the issue; the block is inverted')
    feed(s, '22', 'subframe1', inverted=True, count=11, ura=4, iodc_high=3, iodc_low=7)
    rank_lines(s, '6 4 8 6 8', '22 4 8 11 7')

# Satellite 13 has subframes 2 and 3, 14 has 1, 15 has 1 and 2 of two issues, 16 has 1 and 3, 17 has 2 and 18 has 3.
def missing(s):
    s.comment('missing subframes')
    s.forget()
    feed(s, '17 15 13', 'subframe2', iode=7)
    feed(s, '18 13 16', 'subframe3', iode=7)
    feed(s, '16 14', 'subframe1', iodc_low=7)
    feed(s, '15', 'subframe1', iodc_low=8)
    from_16 = not_held(16, 2), not_held(17, 1), not_held(18, 1)
    rank(s, '', not_held(13, 1), not_held(14, 2), not_held(15, 3), *from_16)
    s.comment('pages make no line: an almanac page of SV ID 20 for satellite 19, a UTC page and an other page for 21')
    feed(s, '19', 'almanac', sv_id=20)
    feed(s, '21', 'utc', dn=7)
    feed(s, '21', 'other')
    rank(s, '', not_held(13, 1), not_held(14, 2), not_held(15, 3), *from_16)
    s.almanac(20, 'almanac sv_id=20')
    s.utc('utc dn=7')
    s.comment('satellites 14 and 15 get what is missing: a set of the one, two issues of the other')
    feed(s, '15 14', 'subframe3', iode=7)
    rank(s, '', not_held(13, 1), not_held(14, 2), '15 ' + ISSUES, *from_16)
    feed(s, '14', 'subframe2', iode=7)
    rank(s, '0: 14', not_held(13, 1), '15 ' + ISSUES, *from_16)

# Index 74 is the first bit of the URA index. It is in word 3 alone, 62 to 91. Index 0 is in the start pair.
def moves(s):
    s.comment('a later subframe 1 with another URA index moves its satellite up or down')
    s.forget()
    feed(s, '23 11 2', 'subframe2', iode=7)
    feed(s, '23 11 2', 'subframe3', iode=7)
    feed(s, '23', 'subframe1', ura=5, iodc_low=7)
    feed(s, '11 2', 'subframe1', ura=3, iodc_low=7)
    rank(s, '3: 2 11, 5: 23')
    feed(s, '23', 'subframe1', ura=0, iodc_low=7)
    rank(s, '0: 23, 3: 2 11')
    feed(s, '2', 'subframe1', ura=15, iodc_low=7)
    rank(s, '0: 23, 3: 11, 15: 2')
    feed(s, '23', 'subframe1', ura=3, iodc_low=7)
    rank(s, '3: 11 23, 15: 2')
    s.comment('refused feeds change nothing: flipped bits, and satellites that are none')
    s.write('subframe1', ura=0, health=32, iodc_low=7)
    s.flip(0)
    s.feed('written', 0, 11, 'feed 0 11 refused 4 0')
    rank(s, '3: 11 23, 15: 2')
    s.write('subframe1', ura=1, iodc_low=7)
    for satellite in (0, 33):
        s.feed('written', 0, satellite, 'feed 0 %d refused 13 %d' % (satellite, satellite))
    s.flip(74)
    s.feed('written', 0, 2, 'feed 0 2 refused 5 3')
    rank(s, '3: 11 23, 15: 2')
    s.comment('the bit is flipped back, and the block is accepted')
    s.flip(74)
    s.feed('written', 0, 2, 'feed 0 2 accepted')
    rank(s, '1: 2, 3: 11 23')

def all_satellites(s):
    s.comment('all 32 satellites')
    s.forget()
    mixed = ' '.join(satellites for _, satellites in ALL_FED)
    feed(s, mixed, 'subframe3', count=3, iode=7)
    feed(s, ' '.join(reversed(mixed.split())), 'subframe2', count=2, iode=7)
    for ura, satellites in ALL_FED:
        feed(s, satellites, 'subframe1', count=1, ura=ura, iodc_low=7)
    zero, two = '0: 2 7 13 16 17 22 26 29', '2: 6 8 12 14 19 20 23 25 27 31'
    fifteen = '15: 1 4 10 15 21 28'
    rank(s, ', '.join((zero, two, '6: 3 5 9 11 18 24 30 32', fifteen)))
    s.comment('satellite 32 is withdrawn')
    feed(s, '32', 'subframe1', count=6, ura=6, health=32, iodc_low=7)
    rank(s, ', '.join((zero, two, '6: 3 5 9 11 18 24 30', fifteen)), '32 ' + HEALTH)

def forgotten(s):
    s.comment('nothing is held after forget')
    s.forget()
    rank(s)

def build(s):
    for recording in records.RECORDINGS:
        s.recording(recording.name)
    for scene in (nothing_held, recorded, sixteen_indices, health, issues, missing, moves, all_satellites, forgotten):
        scene(s)
