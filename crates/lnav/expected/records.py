# Every field of every block of the four recordings and of their inverses, by `read`, and the listing of each. Stated by
# hand: subframe numbers and counts, and fields of a block of each kind with their values, number times scale. They are
# the same for an inverse. With --gpsdecode every number that gpsdecode prints is compared, for the recordings and for
# their inverses.
import collections
import itertools
import gpsdecode
import paper
import subject

# Name, satellite, subframe numbers, which repeat, and counts of each recording. A block stands every 300 bytes.
Recording = collections.namedtuple('Recording', 'name satellite order counts')
M8T = Recording('ublox-m8t-sv03.log', 3, (4, 5, 1, 2, 3), range(73764, 73844))
SV05 = Recording('ublox-2008-sv05.log', 5, (5, 1, 2, 3, 4), range(17995, 18035))
SV12 = Recording('ublox-2008-sv12.log', 12, (5, 1, 2, 3, 4), range(17995, 18035))
NOVATEL = Recording('novatel-2009-sv03.log', 3, (1, 2, 3),
                    (85871, 85867, 85868, 85871, 85872, 85873, 85876, 85877, 85873))
RECORDINGS = [M8T, SV05, SV12, NOVATEL]
# Blocks of ublox-m8t-sv03.log, by place. The numbers are gpsdecode's, save those of reserved bits and of the data ID,
# which it does not print.
BY_HAND = {
    # af0 is 8 * 33 + 6.
    0: '''kind almanac
        data_id 1
        sv_id 26
        e 10116 0.0048236846923828125 dimensionless
        toa 144 589824 s
        delta_i 560 0.001068115234375 semicircles
        root_a 10554572 5153.599609375 m^1/2
        af0 270 0.0002574920654296875 s''',
    600: '''kind subframe1
        week 69
        reserved4 4641856
        tgd 4 0.00000000186264514923095703125 s
        iodc_low 94
        toc 27900 446400 s
        af2 0 0 s/s^2''',
    900: '''kind subframe2
        iode 94
        crs -2629 -82.15625 m
        root_a 2702062248 5153.7747344970703125 m^1/2
        toe 27900 446400 s
        fit 0
        aodo 31 27900 s''',
    1200: '''kind subframe3
        cic -5 -0.00000000931322574615478515625 rad
        cis 0 0 rad
        crc 8635 269.84375 m
        iode 94
        idot -569''',
    # Every second bit is 1.
    16500: '''kind other
        id 53
        reserved3 43690
        reserved10 2796202''',
    22500: '''kind utc
        id 56
        alpha2 -1 -0.000000059604644775390625 s/semicircle^2
        beta0 38 77824 s
        beta1 3 49152 s/semicircle
        beta3 -5 -327680 s/semicircle^3
        tot 144 589824 s
        wnt 69
        dtls 18
        wnlsf 137
        dn 7
        dtlsf 18
        reserved10 0''',
}

# Place and bits of each block of a recording.
def blocks_of(recording):
    return [(place, recording[place:place + 302]) for place in range(0, len(recording) - 301, 300)]

# Place, subframe number and count of each block, as they are stated.
def numbers_of(recording):
    places = range(0, 300 * len(recording.counts), 300)
    return list(zip(places, itertools.cycle(recording.order), recording.counts))

# Makes the inverse of a recording, and gives its name.
def make_inverse(s, name):
    return s.make(name.replace('.log', '-inverted.log'), paper.inverse(s.recording(name)))

# The listing of a log that is made of recordings, one after the other, each with its polarity, 'U' or 'I'.
def list_joined(s, log, *parts):
    stated, start = ['place id count polarity'], 0
    for recording, polarity in parts:
        numbers = numbers_of(recording)
        stated += ['%d %d %d %s' % (start + place, subframe, count, polarity) for place, subframe, count in numbers]
        start += 300 * len(numbers) + 2
    assert len(s.log(log)) == start
    lines = s.list(log, '\n'.join(stated))
    assert len(lines) == len(stated)
    return lines

# Feeds every block of a recording for its satellite. The walk ends after the last.
def feed_whole(s, recording):
    end = 300 * len(recording.counts)
    walk = ['feed %d %d accepted' % (place, recording.satellite) for place in range(0, end, 300)]
    lines = s.feed_all(recording.name, recording.satellite, '\n'.join(walk + ['refused 10 %d' % end]))
    assert len(lines) == len(walk) + 1

# What is stated of the fields of a block.
def fields_stated(name, place, subframe, count):
    stated = ['count %d %d s' % (count, 6 * count), 'subframe %d' % subframe]
    if name == M8T.name and place in BY_HAND:
        kind, *fields = BY_HAND[place].splitlines()
        stated = [kind, *stated, *fields]
    return '\n'.join(stated)

# The listing of a recording or of its inverse, and every block of it. Gives the answers.
def read_all(s, log, recording, polarity):
    s.comment(log)
    list_joined(s, log, (recording, polarity))
    answers = []
    for place, subframe, count in numbers_of(recording):
        s.comment('%s %d' % (log, place))
        answers.append(s.read(log, place, fields_stated(recording.name, place, subframe, count)))
    return answers

def build(s):
    for recording in RECORDINGS:
        inverted = make_inverse(s, recording.name)
        assert read_all(s, recording.name, recording, 'U') == read_all(s, inverted, recording, 'I')

def compare():
    compared = []
    for recording in RECORDINGS:
        for _, block in blocks_of(subject.recording(recording.name)):
            upright, inverted = [gpsdecode.compare(b, recording.satellite) for b in (block, paper.inverse(block))]
            assert upright == inverted
            compared += [upright, inverted]
    return gpsdecode.figures(compared)
