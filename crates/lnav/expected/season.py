# Recorded logs and written blocks fed to the collector, in eight scenes. Stated by hand from document 01: every refusal
# and which record is the latest. The numbers of recorded fields in the statements are gpsdecode's.
import gpsdecode
import logs
import paper
import records
import subject
from paper import GREATEST, changed, digits, flipped, inverse, with_byte

SV05, SV12 = 'ublox-2008-sv05.log', 'ublox-2008-sv12.log'
NOVATEL, M8T = 'novatel-2009-sv03.log', 'ublox-m8t-sv03.log'
INVERTED = 'ublox-2008-sv05-inverted.log'

# The changes of satellite 5's subframe 1 in the scene of health, in order, and of the UTC page in that of pages.
CHANGES = [
    {'health': 32},
    {'health': 31},
    {'health': 63},
    {'health': 32, 'iodc_low': 49},
    {'iodc_high': 3, 'health': 0},
]
UTC_CHANGES = {'count': 74000, 'dn': 3}

# ---- statements

# A set of one issue.
def issue(number):
    return 'subframe1 iodc_low=%d\nsubframe2 iode=%d\nsubframe3 iode=%d' % (number, number, number)

def set_of(number, counts, week, health, toc, e, root_a, toe):
    numbers = (counts[0], week, health, number, toc, counts[1], number, e, root_a, toe, counts[2], number)
    return '''subframe1 count=%d week=%d health=%d iodc_low=%d toc=%d
        subframe2 count=%d iode=%d e=%d root_a=%d toe=%d
        subframe3 count=%d iode=%d''' % numbers

def set_5(health=0):
    return set_of(48, (18001, 18002, 18003), 457, health, 7200, 75265070, 2701965775, 7200)

SET_12 = set_of(111, (18001, 18002, 18003), 457, 0, 7200, 29561050, 2701974133, 7200)
SET_3 = set_of(94, (73841, 73842, 73843), 69, 0, 27900, 26888654, 2702062248, 27900)

def utc_page(count, dn):
    return 'utc count=%d tot=144 wnt=69 wnlsf=137 dn=%d' % (count, dn)

def almanac_page(sv_id, count):
    return 'almanac count=%d sv_id=%d' % (count, sv_id) if count else 'refused 20 0'

def feed(s, log, place, satellite, answer='accepted'):
    s.feed(log, place, satellite, 'feed %d %d %s' % (place, satellite, answer))

# Feeds a block, and asks for the satellite's set.
def feed_and_set(s, log, place, satellite, stated, answer='accepted'):
    feed(s, log, place, satellite, answer)
    return s.set(satellite, stated)

# ---- the scenes

# After the places 0, 300 and 600 a subframe is missing. The set complete after 900 is also given after 1200 and 1500.
# After 1800 and 2100 the held subframes are of two issues, and 2400 completes the next set. Gives satellite 5's sets.
def cutover(s):
    s.comment('satellites 5 and 12: sets appear, and a cutover passes through 18')
    missing, mixed = ['refused 17 1', 'refused 17 2', 'refused 17 3'], ['refused 18 0'] * 2
    fives = missing + [issue(47)] * 3 + mixed + [set_5()] * 2
    twelves = missing + [issue(110)] * 3 + mixed + [SET_12] * 2
    sets = []
    for place, five, twelve in zip(range(0, 3000, 300), fives, twelves, strict=True):
        feed(s, SV05, place, 5)
        feed(s, SV12, place, 12)
        sets.append(s.set(5, five))
        s.set(12, twelve)
    return sets

# Each feed changes at most one of the three counts. The recording has subframe 1 of the count 85871 twice, and subframe
# 3 of 85873.
def latest_of_each(s):
    s.comment('satellite 3: three sets of one issue, each record the latest')
    counts = ['85871 85867 85868'] * 2 + ['85871 85872 85868', '85871 85872 85873', '85876 85872 85873']
    counts += ['85876 85877 85873'] * 2
    counts = [[int(count) for count in three.split()] for three in counts]
    sets = [set_of(68, three, 538, 0, 32400, 109342428, 2702011768, 32400) for three in counts]
    for place, stated in zip(range(0, 2700, 300), ['refused 17 2', 'refused 17 3'] + sets, strict=True):
        feed_and_set(s, NOVATEL, place, 3, stated)

# The records of the blocks that are written.
def written_records(sv05):
    record = paper.read(sv05[1800:2102])
    return [changed(record, **changes) for changes in CHANGES]

def written_utc(m8t):
    return changed(paper.read(m8t[22500:22802]), **UTC_CHANGES)

# The first of the six health bits is 1 in 32 and 63, and 0 in 31. Another issue is refused before health is looked at.
# At the end subframe 2 alone, and then subframe 3 alone, is of the earlier issue. Blocks are written in the form that
# `set` prints.
def health(s, sv05):
    s.comment('satellite 5: the health bit goes up, comes down, and other fields of subframe 1 change')
    def write_and_feed(record, stated):
        s.write('subframe1', **record.values)
        feed_and_set(s, 'written', 0, 5, stated)
    first, *others = written_records(sv05)
    write_and_feed(first, 'refused 19 32')
    s.set(12, SET_12)
    for place in (2100, 2400):
        feed_and_set(s, SV05, place, 5, 'refused 19 32')
    for record, stated in zip(others, [set_5(31), 'refused 19 63', 'refused 18 0', set_5()], strict=True):
        write_and_feed(record, stated)
    sets = [set_5(), 'refused 18 0', set_5(), 'refused 18 0', set_5()]
    for place, stated in zip((1800, 600, 2100, 900, 2400), sets, strict=True):
        feed_and_set(s, SV05, place, 5, stated)

# Indices of the flips in a block, then the log with the block at 1800 and its refusal there, then the refusal of the
# block alone. Indices 95, 100 and 110 are in word 4 alone, 92 to 121. Index 301 is the last bit of word 10, and index 0
# is in the start pair.
FLIPS = [
    ((95, 100, 110), 'flipped-word-4.log', '5 4', '5 4'),
    ((301,), 'flipped-last.log', '5 10', '5 10'),
    ((0,), 'flipped-first.log', '4 1800', '4 0'),
]

def flips(s, sv05):
    s.comment('flipped bits change nothing')
    block = sv05[1800:2102]
    for indices, log, refusal, _ in FLIPS:
        s.make(log, flipped(sv05[:2402], *(1800 + index for index in indices)))
        feed_and_set(s, log, 1800, 5, set_5(), 'refused ' + refusal)
    for indices, _, _, refusal in FLIPS:
        s.write(paper.read(block), expect=digits(block))
        for index in indices:
            s.flip(index)
        feed_and_set(s, 'written', 0, 5, set_5(), 'refused ' + refusal)

# The counts of the almanac pages after the first two recordings' first ten blocks and all of the fourth. The pages of a
# subframe are five counts apart. Subframe 5 has SV IDs 3 to 18, with an other page in place of 14. Subframe 4 has 26 to
# 32, with an other page between 28 and 29. The page of SV ID 24 is the first scene's.
PAGE_COUNTS = {
    24: 17995,
    **{sv_id: 73765 + 5 * (sv_id - 3) for sv_id in range(3, 19) if sv_id != 14},
    **{sv_id: 73764 + 5 * (sv_id - 26) for sv_id in (26, 27, 28)},
    **{sv_id: 73784 + 5 * (sv_id - 29) for sv_id in (29, 30, 31, 32)},
}

# At the end the pages of SV IDs 25 and 26 are those of satellite 5's log, and the UTC page is the written one.
def pages(s, m8t):
    s.comment('pages')
    s.utc('refused 20 0')
    s.almanac(24, almanac_page(24, 17995))
    s.almanac(26, 'refused 20 0')
    for place in range(0, 24000, 300):
        feed(s, M8T, place, 3)
    s.utc(utc_page(73839, 7))
    for sv_id in range(1, 33):
        s.almanac(sv_id, almanac_page(sv_id, PAGE_COUNTS.get(sv_id)))
    s.set(3, SET_3)
    s.set(5, set_5())
    for log, place, satellite, after in ((SV12, 0, 12, [(24, 17995)]), (SV05, 4200, 31, [(25, 18009), (31, 73794)]),
                                         (SV05, 5700, 5, [(26, 18014)])):
        feed(s, log, place, satellite)
        for sv_id, count in after:
            s.almanac(sv_id, almanac_page(sv_id, count))
    s.write(written_utc(m8t))
    feed(s, 'written', 0, 12)
    s.utc(utc_page(74000, 3))

# Place 1 has the second bit of the start pair, 0, and the first of the preamble, 1. No block was fed for satellite 1.
def refusals(s):
    s.comment('refusals change nothing')
    feeds = [(M8T, 0, 0, '13 0'), (M8T, 0, 33, '13 33'), (M8T, 600, GREATEST, '13 %d' % GREATEST),
             ('overlong.log', 0, 33, '13 33'), ('overlong.log', 0, 3, '1 65537'), ('zeros-65537.log', 0, 33, '13 33'),
             ('zeros-65537.log', 0, 3, '1 65537'), (M8T, 23701, 3, '3 23701'), (M8T, GREATEST, 3, '3 %d' % GREATEST),
             ('spoilt.log', 600, 3, '2 700'), (M8T, 1, 3, '4 1')]
    for log, place, satellite, refusal in feeds:
        feed(s, log, place, satellite, 'refused ' + refusal)
    for satellite, stated in ((3, SET_3), (5, set_5()), (12, SET_12)):
        s.set(satellite, stated)
    s.utc(utc_page(74000, 3))
    s.almanac(24, almanac_page(24, 17995))
    for number in (0, 33, GREATEST):
        s.set(number, 'refused 13 %d' % number)
        s.almanac(number, 'refused 13 %d' % number)
    s.set(1, 'refused 17 1')

# Satellite 12 sent subframes 5, 1, 2, 3 and 4 eight times, with the counts from 17995 on. Its pages of subframe 5 are
# five counts apart: SV ID 24, an other page, another in place of 1, and 2 to 6.
def whole_recording(s):
    s.comment('all of a recording, after what was held is forgotten')
    s.forget()
    s.set(12, 'refused 17 1')
    s.utc('refused 20 0')
    s.almanac(24, 'refused 20 0')
    records.feed_whole(s, records.SV12)
    s.set(12, set_of(111, (18031, 18032, 18033), 457, 0, 7200, 29561050, 2701974133, 7200))
    for sv_id, count in ((24, 17995), (1, None), (2, 18010), (6, 18030), (7, None)):
        s.almanac(sv_id, almanac_page(sv_id, count))
    s.comment('the walk feeds for a satellite that is none, an overlong log and one without a block')
    s.feed_all('spoilt.log', 33, 'feed 0 33 refused 13 33\nfeed 300 33 refused 13 33\nrefused 10 600')
    s.feed_all('overlong.log', 12, 'refused 1 65537')
    s.feed_all('short.log', 12, 'refused 10 0')

# The sets are those of the first scene after the places 300 to 2400.
def inverted(s, sets):
    s.comment('satellite 5 in an inverted stream: the same sets')
    s.forget()
    given = [feed_and_set(s, INVERTED, place, 5, None) for place in range(300, 2700, 300)]
    assert given == sets[1:9]

# Every recorded block comes back from its record.
def check_recording(recording):
    for place in range(0, len(recording) - 2, 300):
        assert paper.write(paper.read(paper.block_at(recording, place))) == recording[place:place + 302]

def build(s):
    sv05, sv12, novatel, m8t = recordings = [s.recording(name) for name in (SV05, SV12, NOVATEL, M8T)]
    for recording in recordings:
        check_recording(recording)
    s.make(INVERTED, inverse(sv05))
    s.make('overlong.log', logs.full(sv05) + bytes(1))
    s.make('zeros-65537.log', bytes(65537))
    s.make('short.log', sv05[:301])
    s.make('spoilt.log', with_byte(m8t[:902], 700, 2))
    sets = cutover(s)
    latest_of_each(s)
    health(s, sv05)
    flips(s, sv05)
    pages(s, m8t)
    refusals(s)
    whole_recording(s)
    inverted(s, sets)

# The blocks that are written. records.py compares the recorded ones.
def compare():
    fed = [(record, 5) for record in written_records(subject.recording(SV05))]
    fed.append((written_utc(subject.recording(M8T)), 12))
    return gpsdecode.figures([gpsdecode.compare(paper.write(record), satellite) for record, satellite in fed])
