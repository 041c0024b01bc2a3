# Search and listing on eleven logs: a recording and its inverse, document 01's example, blocks between random bits,
# blocks that overlap, and logs of every size from empty to overlong. Stated by hand: where each log has its blocks.
import random
import paper
from paper import GREATEST, MOST, flipped, inverse, record_of, with_byte
from subject import ten_words

# Only random() is the same in every version of Python.
def random_bits(source, size):
    return bytes(source.random() < 0.5 for _ in range(size))

# Five zero bytes, then subframe 1 with all fields but the subframe number 0.
def example():
    return bytes(5) + paper.write(record_of('subframe1'))

# Two blocks, of which the second begins with word 3 of the first: there the first, an other page, has the preamble and
# zeros, and then the count 8 and the subframe number 1. The listing goes on after the first.
def overlap():
    first = paper.write(record_of('other', count=7, data_id=0b10, id=0b001011, reserved4=8 * 2 ** 7 + 1 * 2 ** 2))
    return first + paper.write(record_of('subframe1', count=8))[242:]

# Blocks at both polarities between random bits. Two of them adjoin and share two bits. Two are spoilt: one has a bit of
# word 4 flipped, and one has a bit 1 as the byte 3. One stretch of random bits holds bytes above 1. Also gives the
# places of the accepted blocks and of the spoilt ones.
def garbage(recording):
    source = random.Random(137)
    def block(k, number=1):
        return recording[300 * k:300 * (k + number) + 2]
    high = with_byte(with_byte(random_bits(source, 150), 40, 2), 110, 255)
    odd_byte = with_byte(block(52), block(52).index(1, 200), 3)
    # Each stretch, the bits after it, and the number of accepted blocks in them.
    parts = [
        (random_bits(source, 137), block(0), 1),
        (random_bits(source, 61), inverse(block(7)), 1),
        (high, block(75), 1),
        (random_bits(source, 29), flipped(block(11), 100), 0),
        (random_bits(source, 1), inverse(block(20)), 1),
        (random_bits(source, 303), inverse(block(30, 2)), 2),
        (random_bits(source, 5), odd_byte, 0),
        (random_bits(source, 2), block(44), 1),
        (random_bits(source, 99), b'', 0),
    ]
    log, places, spoilt = b'', [], []
    for stretch, bits, blocks in parts:
        start = len(log + stretch)
        places += [start + 300 * k for k in range(blocks)]
        spoilt += [start] if bits and not blocks else []
        log += stretch + bits
    return log, places, spoilt

# A log of the greatest length, with as many blocks as one can hold. The last of them ends with the log.
def full(recording):
    blocks = recording + 4 * recording[2:] + recording[2:5402]
    return random_bits(random.Random(134), MOST - len(blocks)) + blocks

# The search from 0, from the place after each block found, from the end and from the largest place, then the listing.
# The log has these accepted blocks, and the walk meets these of them.
def search(s, name, places, met):
    size = len(s.log(name))
    overlong = 'refused 1 %d' % size if size > MOST else None
    s.comment('%s, %d bytes' % (name, size))
    for start, found in zip([0] + [place + 1 for place in places], places):
        s.find(name, start, 'found %d\npart bytes=302' % found)
    for start in (places[-1] + 1 if places else 0, size, GREATEST):
        s.find(name, start, (overlong or 'refused 10 %d' % start) + '\npart bytes=0')
    lines = s.list(name, 'refused 1' if overlong else 'place id count polarity')
    assert [int(line.split()[0]) for line in lines[1:]] == met

def build(s):
    recording, other = s.recording('ublox-2008-sv05.log'), s.recording('ublox-m8t-sv03.log')
    garbage_log, garbage_places, (flip, odd_byte) = garbage(other)
    # Each log, and where it has its accepted blocks.
    logs = [
        ('example.log', example(), [5]),
        ('ublox-2008-sv05.log', recording, list(range(0, 12000, 300))),
        ('ublox-2008-sv05-inverted.log', inverse(recording), list(range(0, 12000, 300))),
        ('garbage.log', garbage_log, garbage_places),
        ('overlap.log', overlap(), [0, 60]),
        ('empty.log', b'', []),
        ('short.log', recording[:301], []),
        ('zeros.log', bytes(MOST), []),
        ('random.log', random_bits(random.Random(65536), MOST), []),
        ('full.log', full(recording), list(range(134, 65235, 300))),
        ('overlong.log', full(recording) + bytes(1), []),
    ]
    for name, log, places in logs:
        if name not in s.recordings:
            s.make(name, log)
        search(s, name, places, [0] if name == 'overlap.log' else places)

    # Index 100 of a block is bit 9 of word 4, which stands in the lines 28, 29 and 30.
    s.comment('the spoilt blocks of garbage.log: a flip in word 4, a byte 3')
    high = garbage_log.index(3)
    s.check('garbage.log', flip, 'refused 5 4 a word breaks the table syndrome 000111 equations 28 29 30')
    s.read('garbage.log', flip, 'refused 5 4 a word breaks the table')
    s.words('garbage.log', flip, ten_words({4: '000111 equations 28 29 30'}))
    for ask in (s.check, s.read, s.words):
        ask('garbage.log', odd_byte, 'refused 2 %d' % high)

    s.comment('words before and after the start of a block, too few bytes, and too many')
    s.words('ublox-2008-sv05.log', 300, ten_words({}))
    s.words('ublox-2008-sv05-inverted.log', 300, ten_words({}))
    s.words('ublox-2008-sv05.log', 301)
    for ask in (s.check, s.read, s.words):
        ask('short.log', 0, 'refused 3 0')
        ask('overlong.log', GREATEST, 'refused 1 65537')
