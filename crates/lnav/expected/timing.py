# Clock terms, accuracy and times: of the recorded subframes 1 and the recorded UTC page, of records of its own, and of
# what is held. The script stops where questions.py and second_way.py differ in an answer, and where one is not what was
# worked out by hand (BY_HAND).
import datetime
import paper
import questions
import records
import subject
from paper import GREATEST
from second_way import accuracy_by_floats, clock_by_floats, gps_date, near_weeks, time_by_calendar, utc_date

RECORDINGS = [records.SV05, records.SV12, records.NOVATEL, records.M8T]
SV05, M8T = records.SV05.name, records.M8T.name

# Week and second of the times asked of the recorded page. 443,034 is 6 times 73,839, its count, in week 2117.
RECORDED_TIMES = [(1929, 604799), (1930, 0), (1930, 17), (1930, 18), (2117, 443034), (2117, 604799), (2118, 0)]

# TGD, af0, af1 and af2.
CLOCKS = '''
-128 -2097152 -32768 -128, 127 2097151 32767 127, 0 0 0 0, -1 -1 -1 -1, 1 1 1 1, -127 -2097151 -32767 -127,
64 -1048576 16384 -64, 3 1234567 -12345 100, 128 0 0 0, -129 0 0 0, 0 2097152 0 0, 0 -2097153 0 0, 0 0 32768 0,
0 0 -32769 0, 0 0 0 128, 0 0 0 -129, 2147483647 0 0 0, 0 0 0 -2147483648
'''
# WNLSF, DN, dtLS and dtLSF; then weeks, each with seconds.
TIMES = '''
137 7 17 18: 1929 604799, 1930 0 16 17 18
137 7 18 18: 2000 0, 8191 604800, 8192 0, 4294967295 0, 0 4294967295
81 7 18 18: 2000 0
79 7 18 18: 2000 0
80 7 18 18: 2000 0
137 1 17 18: 1929 86399 86400 86418
137 4 18 17: 1929 345599 345600
208 7 17 18: 2000 604799, 2001 0
209 1 17 18: 2000 604799, 2001 0 86399 86400
207 7 17 18: 2000 0
206 7 17 18: 2000 0
0 1 18 19: 0 0 17 18 86399 86400
255 7 17 18: 0 0
255 6 17 18: 0 0
127 7 17 18: 0 0, 8191 0
129 7 17 18: 0 0
128 7 17 18: 0 0, 8191 0
0 1 127 -128: 0 0 126 127 86400
255 7 127 -128: 0 86399
255 7 -128 127: 0 0 126
0 1 -128 127: 0 86271 86272
255 1 18 18: 8191 604799
126 7 17 18: 8191 0
137 0 18 18: 2000 0, 8192 0
137 8 18 18: 2000 0
137 255 18 18: 2000 0
80 0 18 18: 2000 0
80 8 18 18: 2000 604800
256 7 18 18: 2000 0
137 256 18 18: 2000 0
137 7 128 18: 2000 0
137 7 18 -129: 2000 0
137 256 128 18: 8192 0
'''
# Answers worked out by hand from document 01, each group with the reason. A double is its pattern without the zeros at
# the end, but for the three digits of sign and exponent.
BY_HAND = '''
# The recorded page has WNLSF 137, DN 7 and 18 twice. 18 s before midnight, and 443,034 - 18 = 5 x 86,400 + 11,016.
time 1930 0: 23:59:42
time 2117 443034: 03:03:36
# The lowest of each width is minus a power of two: -2^-24, -2^-10, -2^-28 and -2^-48. The exponent fields are 1023 less
# that.
clock subframe1 tgd=-128 af0=-2097152 af1=-32768 af2=-128: be7 bf5 be3 bcf
# Plus and minus one are the scales: 1023 - 31 = 0x3e0, 1023 - 43 = 0x3d4 and 1023 - 55 = 0x3c8. Minus adds 0x800.
clock subframe1 tgd=1 af0=1 af1=1 af2=1: 3e0 3e0 3d4 3c8
clock subframe1 tgd=-1 af0=-1 af1=-1 af2=-1: be0 be0 bd4 bc8
# The greatest of n bits is n - 1 ones: a leading 1, so exponents one below the lowest's (2^-25, 2^-11, 2^-29, 2^-49),
# and n - 2 ones at the head of the fraction: 6 (fc), 20 (fffff), 14 (fffc) and 6.
clock subframe1 tgd=127 af0=2097151 af1=32767 af2=127: 3e6fc 3f4fffff 3e2fffc 3cefc
# Zero is plus zero.
clock subframe1 tgd=0 af0=0 af1=0 af2=0: 000 000 000 000
# One beyond the width, on both sides.
clock subframe1 tgd=128 af0=0 af1=0 af2=0: refused 11 0
clock subframe1 tgd=0 af0=-2097153 af1=0 af2=0: refused 11 0
# The last count, the first beyond, another kind's subframe number, and fields that the terms do not look at.
clock subframe1 count=100799: 000 000 000 000
clock subframe1 count=100800: refused 11 0
clock subframe1 subframe=2: refused 11 0
clock subframe1 week=1024: refused 11 0
clock subframe1 toc=65536: refused 11 0
# 2 = 2^1: 1023 + 1 = 0x400. 2.8 = 2 x 1.4, and 0.4 is 0.666.. in hexadecimal: down to thirteen digits.
accuracy subframe1 ura=0: 400
accuracy subframe1 ura=1: 4006666666666666
# 5.7 = 4 x 1.425, and 0.425 is 0.6ccc..: up. 11.3 = 8 x 1.4125, and 0.4125 is 0.6999..: up. 4096 = 2^12: 1023 + 12 is
# 0x40b.
accuracy subframe1 ura=3: 4016cccccccccccd
accuracy subframe1 ura=5: 402699999999999a
accuracy subframe1 ura=14: 40b
# Index 15 is no length, 16 has five bits, and 11 comes before index 15.
accuracy subframe1 ura=15: no prediction
accuracy subframe1 ura=16: refused 11 0
accuracy subframe1 ura=15 tgd=128: refused 11 0
# The leap second of 2016. Before E 17, from E on 18: 23:59:42 comes twice. 18 s after E it is midnight.
time 1929 604799 utc wnlsf=137 dn=7 dtls=17 dtlsf=18: 23:59:42
time 1930 0 utc wnlsf=137 dn=7 dtls=17 dtlsf=18: 23:59:42
time 1930 18 utc wnlsf=137 dn=7 dtls=17 dtlsf=18: 00:00:00
# An offset that goes down at E, the end of day 4: 86,399 - 18 = 86,381, then -17.
time 1929 345599 utc wnlsf=137 dn=4 dtls=18 dtlsf=17: 23:59:41
time 1929 345600 utc wnlsf=137 dn=4 dtls=18 dtlsf=17: 23:59:43
# E is the end of day 1 of week 2001 itself.
time 2001 86399 utc wnlsf=209 dn=1 dtls=17 dtlsf=18: 23:59:42
time 2001 86400 utc wnlsf=209 dn=1 dtls=17 dtlsf=18: 23:59:42
# Leap week 1999 ends where week 2000 starts: at E.
time 2000 0 utc wnlsf=207 dn=7 dtls=17 dtlsf=18: 23:59:42
# GPS time less offset is -18: floor modulo. E is a day later.
time 0 0 utc wnlsf=0 dn=1 dtls=18 dtlsf=19: 23:59:42
# Leap week -1: with DN 7 E is 0 and holds at once.
time 0 0 utc wnlsf=255 dn=7 dtls=17 dtlsf=18: 23:59:42
# Difference 127: E lies ahead, so 17. Difference -127: E lies 126 weeks before week 0, so 18. -128 is refused.
time 0 0 utc wnlsf=127 dn=7 dtls=17 dtlsf=18: 23:59:43
time 0 0 utc wnlsf=129 dn=7 dtls=17 dtlsf=18: 23:59:42
time 0 0 utc wnlsf=128 dn=7 dtls=17 dtlsf=18: refused 16 0
# 0 - 127 s is 2 min 7 s before midnight. 86,400 + 128 s, at E, is 2 min 8 s after it.
time 0 0 utc wnlsf=0 dn=1 dtls=127 dtlsf=-128: 23:57:53
time 0 86400 utc wnlsf=0 dn=1 dtls=127 dtlsf=-128: 00:02:08
# An offset below 0 before E: 86,272 + 128 is the next midnight.
time 0 86272 utc wnlsf=0 dn=1 dtls=-128 dtlsf=127: 00:00:00
# The last week's low eight bits are 255. 126 is 129 less, so 127 more: E lies ahead. 127 is 128 less, and 128 is 127
# less: E lies behind.
time 8191 0 utc wnlsf=126 dn=7 dtls=17 dtlsf=18: 23:59:43
time 8191 0 utc wnlsf=127 dn=7 dtls=17 dtlsf=18: refused 16 0
time 8191 0 utc wnlsf=128 dn=7 dtls=17 dtlsf=18: 23:59:42
time 8191 604799 utc wnlsf=255 dn=1 dtls=18 dtlsf=18: 23:59:41
# 14, and 14 before 15. 15 has DN as detail, and stands before 16. 11 before 14 and 15.
time 8191 604800 utc wnlsf=137 dn=7 dtls=18 dtlsf=18: refused 14 0
time 8192 0 utc wnlsf=137 dn=0 dtls=18 dtlsf=18: refused 14 0
time 2000 604800 utc wnlsf=80 dn=8 dtls=18 dtlsf=18: refused 14 0
time 2000 0 utc wnlsf=137 dn=255 dtls=18 dtlsf=18: refused 15 255
time 2000 0 utc wnlsf=80 dn=0 dtls=18 dtlsf=18: refused 15 0
time 8192 0 utc wnlsf=137 dn=256 dtls=128 dtlsf=18: refused 11 0
# Document 01's board: 23:59:42 for WNLSF 137, and 80 is refused.
time 2000 0 utc wnlsf=137 dn=7 dtls=18 dtlsf=18: 23:59:42
time 2000 0 utc wnlsf=80 dn=7 dtls=18 dtlsf=18: refused 16 0
# Not a UTC page's IDs and subframe number.
time 2000 0 utc wnlsf=137 dn=7 dtls=18 dtlsf=18 id=55: refused 11 0
time 2000 0 utc wnlsf=137 dn=7 dtls=18 dtlsf=18 data_id=2: refused 11 0
time 2000 0 utc wnlsf=137 dn=7 dtls=18 dtlsf=18 subframe=5: refused 11 0
'''

# ---- the parts: each gives its commands and their answers

SECOND_WAY = {'clock': clock_by_floats, 'accuracy': accuracy_by_floats}

# The last command and its answer, which must be that of the second way unless the record is refused.
def answered(s, lines, second_way, *given):
    if not lines[0].startswith('refused 11 '):
        assert second_way(*given) == lines, s.commands[-1]
    return s.commands[-1], lines

def ask(s, question, given='subframe1', **named):
    record, _ = subject.record_and_words(given, named)
    return answered(s, getattr(s, question)(given, **named), SECOND_WAY[question], record)

# On the air the week's first subframe 1 has count 1, and each fifth block is one. Stated are numbers of the last
# recording's first subframe 1; they are those that gpsdecode prints.
def recorded_subframes(s):
    s.comment('recorded subframes 1')
    answers = []
    for recording in RECORDINGS:
        log = s.recording(recording.name)
        read = [paper.read(paper.block_at(log, place)) for place in paper.walk(log)[0]]
        assert all(record.values['subframe'] == (record.values['count'] - 1) % 5 + 1 for record in read)
        firsts = [record for record in read if record.kind == 'subframe1']
        answers += [ask(s, question, record) for record in firsts for question in SECOND_WAY]
    stated = 'subframe1 count=73766 week=69 ura=0 tgd=4 af0=-564075 af1=-98 af2=0'
    assert subject.agrees(stated, subject.record_line(firsts[0]))
    return answers

# The numbers stated of the page are those that gpsdecode prints.
def recorded_page(s):
    s.comment('the recorded UTC page, and refusals while none is held')
    for week, second in ((2000, 0), (8192, 604800)):
        s.time(week, second, expect='refused 20 0')
    s.feed(M8T, 22500, 3, 'feed 22500 3 accepted')
    s.utc('utc count=73839 dtls=18 wnlsf=137 dn=7 dtlsf=18')
    page = paper.read(s.log(M8T)[22500:22802])
    answers = [answered(s, s.time(*time), time_by_calendar, page, *time) for time in RECORDED_TIMES]
    for week, second in ((8192, 0), (0, 604800), (2 ** 32, 0), (0, 2 ** 32), (2 ** 32 + 2000, 0), (GREATEST, GREATEST)):
        s.time(week, second, expect='refused 14 0')
    s.comment('the latest UTC page: DN 0, then a week difference of -128')
    for named, refusal in (({'dn': 0, 'wnlsf': 80}, 'refused 15 0'), ({'dn': 7, 'wnlsf': 80}, 'refused 16 0')):
        s.write('utc', **named)
        s.feed('written', 0, 5, 'feed 0 5 accepted')
        s.time(2000, 0, expect=refusal)
    return answers

def clocks(s):
    s.comment('clock terms')
    cases = [dict(zip(questions.CLOCK, map(int, terms.split()))) for terms in CLOCKS.split(',')]
    cases += [{'count': 100799}, {'count': 100800}, {'subframe': 2}, {'week': 1024}, {'toc': 65536}]
    return [ask(s, 'clock', **named) for named in cases]

def accuracies(s):
    s.comment('accuracy')
    cases = [{'ura': ura} for ura in [*range(17), 4294967295]] + [{'ura': 15, 'tgd': 128}]
    return [ask(s, 'accuracy', **named) for named in cases]

def times(s):
    s.comment('times')
    cases = []
    for line in TIMES.strip().splitlines():
        numbers, weeks = line.split(': ')
        page = dict(zip(('wnlsf', 'dn', 'dtls', 'dtlsf'), map(int, numbers.split())))
        for week, *seconds in (map(int, text.split()) for text in weeks.split(', ')):
            cases += [(page, week, second) for second in seconds]
    page = {'wnlsf': 137, 'dn': 7, 'dtls': 18, 'dtlsf': 18}
    others = [{'id': 55}, {'data_id': 2}, {'subframe': 5}, {'count': 100800}]
    cases += [({**page, **other}, 2000, 0) for other in others]
    return [answered(s, s.time(week, second, **page), time_by_calendar, paper.record_of('utc', **page), week, second)
            for page, week, second in cases]

# Both questions about the set of a satellite. Where it is given, the answers are those for its subframe 1.
def ask_satellite(s, satellite, stated=None):
    for question in SECOND_WAY:
        lines = getattr(s, question)(satellite, expect=stated)
        if not stated:
            assert lines == SECOND_WAY[question](s.collector.set(satellite)[0])

# Subframes 1, 2 and 3 of satellite 5 make a set, then those of the next issue. Then subframe 1 is written with the
# first health bit 1, and with it 0.
def held(s):
    s.comment('clock terms and accuracy of fed satellites')
    for satellite in (0, 33, GREATEST):
        ask_satellite(s, satellite, 'refused 13 %d' % satellite)
    for place, refusal in ((300, 'refused 17 2'), (600, 'refused 17 3'), (900, None), (1800, 'refused 18 0'),
                           (2100, 'refused 18 0'), (2400, None)):
        s.feed(SV05, place, 5, 'feed %d 5 accepted' % place)
        ask_satellite(s, 5, refusal)
    ask_satellite(s, 6, 'refused 17 1')
    s.write('subframe1', health=32, iodc_low=48)
    s.feed('written', 0, 5, 'feed 0 5 accepted')
    ask_satellite(s, 5, 'refused 19 32')
    s.write('subframe1', health=31, iodc_low=48, ura=15, af0=-1)
    s.feed('written', 0, 5, 'feed 0 5 accepted')
    ask_satellite(s, 5)

# From a recording to its satellite's answers. Stated are the count and the issue of the latest subframe 1; both
# recordings of satellite 3 are fed to one collector.
def fed_recordings(s):
    s.comment('clock terms and accuracy after all of a recording')
    for recording, count, issue in ((records.SV12, 18031, 111), (records.NOVATEL, 85876, 68), (records.M8T, 73841, 94)):
        records.feed_whole(s, recording)
        first = subject.record_line(s.collector.set(recording.satellite)[0])
        assert subject.agrees('subframe1 count=%d iodc_low=%d' % (count, issue), first)
        ask_satellite(s, recording.satellite)

# The four recordings one after the other.
def joined(s):
    s.comment('the recordings in one log: 169 blocks')
    log = s.make('joined.log', b''.join(s.recording(recording.name) for recording in RECORDINGS))
    assert len(records.list_joined(s, log, *((recording, 'U') for recording in RECORDINGS))) == 1 + 169

# ---- checks

# The leap second at the end of 2016: the GPS offset was 17 s before it and is 18 s since. UTC 2017-01-01 00:00:00 was
# GPS week 1930, second 18, and UTC 2016-12-31 00:00:00, before it, was second 86,400 x 6 + 17 of week 1929. Then
# document 01's board: WNLSF 137, 81 and 79 give one week, and 80 gives two.
def check_calendar():
    page = paper.record_of('utc', wnlsf=1929 % 256, dn=7, dtls=17, dtlsf=18).values
    assert gps_date(1930, 0) == datetime.datetime(2017, 1, 1)
    assert utc_date(page, 1930, 18) == datetime.datetime(2017, 1, 1)
    assert utc_date(page, 1929, 6 * questions.DAY + 17) == datetime.datetime(2016, 12, 31)
    assert [near_weeks(2000, wnlsf) for wnlsf in (137, 81, 79, 80)] == [[1929], [1873], [2127], [1872, 2128]]

# An answer in the form of BY_HAND.
def short(lines):
    if lines[0].split()[0] not in ('tgd', 'metres'):
        return lines[0]
    return ' '.join(line.split()[-1].rstrip('0').ljust(3, '0') for line in lines)

def check_by_hand(answers):
    stated = [line for line in BY_HAND.strip().splitlines() if not line.startswith('#')]
    assert len(stated) == 53
    for line in stated:
        command, answer = line.split(': ')
        if not subject.agrees(answer, short(answers[command])):
            raise subject.Differs('timing: %s\nstated: %s\nworked out: %s' % (command, answer, short(answers[command])))

# Every recording but novatel-2009-sv03 has each fifth block as subframe 1: 8, 8 and 16. That one has three.
def build(s):
    check_calendar()
    parts = [recorded_subframes(s), recorded_page(s), clocks(s), accuracies(s), times(s)]
    assert [len(part) for part in parts] == [2 * (8 + 8 + 3 + 16), 7, 18 + 5, 18 + 1, 60 + 4]
    check_by_hand(dict(answer for part in parts for answer in part))
    held(s)
    fed_recordings(s)
    joined(s)
