# The block check and the search on 118 cases, each below its comment. Number and detail of the check are stated by hand
# from document 01, case by case; so is what the search finds: the place itself where the block is accepted, else the
# next accepted case of the log. The syndrome of a refusal 5 is stated by hand, or as that of the flipped bits, whose
# columns second_way.py has by hand. Most cases stand one after the other in blocks.log. Those whose length or place
# matters have a log of their own.
import collections
import paper
from paper import GREATEST, MOST, bits_of, flipped, inverse, with_byte
from second_way import sum_of_columns

# Log is the name of the case's own log, or None: then the block, with the bits before it, is a part of blocks.log, and
# the detail of 2 and 4 is counted from the block's place. Every refusal 5 has a syndrome.
Case = collections.namedtuple('Case', 'comment number detail bits log place syndrome', defaults=[None])

# Made blocks. Number and detail, start pair, and the 24 source bits of each word in hexadecimal; then the bits before
# the block, the index of a flipped bit, and the syndrome. Index 274 is bit 3 of word 10, index 111 is bit 20 of word 4.
MADE = '''
count 0
    0 0 00 8b2265 000047 d8f16a cd613e c386bb 1027c4 414c34 1e2feb 7ed4d5 c2ce6c
count 100,799
    0 0 00 8bf4be c4dfe4 f2a4d2 d95baf 0e7a26 177219 15ba2b 5c6e43 d5e341 2b4910
count 100,800
    9 100800 00 8b3ceb c4e045 8b529b 216363 5eb561 ea7b5b 9a9a80 795b92 a02f34 94b2b8
count 131,071
    9 131071 00 8b3c6d ffffa5 1a6916 b8a1ab 656412 7a97c6 27ac43 1710cf 110722 0512bc
start pair 01, where 00 was sent
    4 0 00 8b3a09 181ca4 f658f7 601836 205738 317017 b46ee1 0b3510 15ceb3 230826 before=01101 flip=1
start pair 10, where 00 was sent
    4 0 00 8b3a09 181ca4 f658f7 601836 205738 317017 b46ee1 0b3510 15ceb3 230826 before=01101 flip=0
start pair 01 and every word keeps the table
    4 0 01 8b7687 181cc7 5f915e 4462eb 237751 2fa732 ddd6ff ad3883 01a5ba 569c83 before=01101
start pair 10 and every word keeps the table
    4 0 10 8b9247 181c85 6dcbac 7b8929 93fdca 03cc0f 34c2da 766bad d035d2 7dc599 before=01101
start pair 01 and word 6 breaks the table
    4 0 01 8b73cf 181ce5 8f4d3e db5b5f ec9910 c7fde8 7734d7 73ab48 8201e2 dae447 before=01101 flip=164
start pair 10 and word 1 breaks the table
    4 0 10 8b797d 181ca6 a8501e 87751d aa99e0 598b88 248174 61b339 02c7bf ff22a2 before=01101 flip=27
preamble 10001010, every word keeps the table
    6 0 00 8a1b59 181cc5 b3dca5 c15521 a6ec39 86f0ce f0baef 3f3726 4567ce bc3199
the same inverted
    6 0 11 8a1b59 181cc5 b3dca5 c15521 a6ec39 86f0ce f0baef 3f3726 4567ce bc3199
preamble 00001011, every word keeps the table
    6 0 00 0bf71a 181c85 02fbcd 857506 bc69f2 0942dc 287385 e9bb46 fc80be 3d2bd1
received bits 10001011 after the pair 11: the source bits are 01110100
    6 0 11 745c8c 181ca5 7b00c7 48f165 6abd68 3a0562 725ed0 017f9e 68d605 daa8b2
received bits 01110100 after the pair 00
    6 0 00 7485a0 181ca4 ce8349 4dad29 f5e2fc 5d9980 4a24e3 2cb85f c41f9d b4843a
302 zeros
    6 0 00 000000 000000 000000 000000 000000 000000 000000 000000 000000 000000
302 zeros again
    6 0 00 000000 000000 000000 000000 000000 000000 000000 000000 000000 000000
302 ones
    6 0 11 000000 000000 000000 000000 000000 000000 000000 000000 000000 000000
word 2 ends in 01, the start pair is 00
    7 2 00 8b2e67 181c87 a95383 72e63a 55a5b4 3d4fa0 32ac2b f3b08f 7d50e0 a0d0ea
word 2 ends in 10, the start pair is 00
    7 2 00 8bad58 181c86 c8eff3 e539a7 853d45 1ee570 82f11e 331241 64beb0 58e00f
word 2 ends in 11, the start pair is 00
    7 2 00 8be7d8 181cc6 afae5a c963cf c439f3 e1454c e794ee 26b563 42840d ac8be4
word 10 ends in 01, the start pair is 00
    7 10 00 8b2a3a 181ca5 b09490 6b0404 a28f5b 480075 7aa654 d7e11b 374cb7 fd5e5e
word 10 ends in 10, the start pair is 00
    7 10 00 8bf54d 181ce6 23ef32 3e1c26 060bb5 9cf342 ffa642 727756 2f2b3f b3b342
word 10 ends in 11, the start pair is 00
    7 10 00 8becc3 181ce5 f2d7d4 4a37fa e47682 d46375 156393 045f21 978f18 4e86c7
words 2 and 10 both end in 11, the start pair is 00
    7 2 00 8bb65c 181ca7 d6fd1d 9530fc 2ebe57 37e06c ff8f73 2ad61d 31b03d 2b5c11
subframe number 0
    8 0 00 8b6080 181ce0 ed4202 d7f20e d7ec20 03ed35 36cbb4 ee544e df2843 4e0430
subframe number 6
    8 6 00 8bbf4e 181cf9 33e798 a8d429 348547 6eb58e 99cb38 8b4486 0e87a5 20bc3c
subframe number 7
    8 7 00 8ba603 181cbe b38cf4 46f7c9 f50108 4935b6 324779 12ee52 10bc09 4120af
subframe number 7 and count 131,071
    8 7 00 8b1cea ffffdd 217f87 8bb014 98e616 b64ba4 2d9462 39f5c8 21eb4e a34faa
subframe number 1
    0 0 00 8b8c51 181c87 58886f 993955 d84829 9b11bf 49e185 163410 82a5f8 ed60f2
subframe number 2
    0 0 00 8b8a01 181ce9 4a08c7 9c6ab7 07b07f 9f3344 a754ac d3b9c9 35c321 fa17fe
subframe number 3
    0 0 00 8b0324 181cac 1cc62b c393fd 6490fd 240f16 af11ba 0b13a0 23813f f344b9
subframe number 4
    0 0 00 8b13d1 181cf2 36af97 250775 4d99d1 b2c753 e67467 3ce021 7f0a67 0639f2
subframe number 5
    0 0 00 8b9201 181c95 a1da05 3bb427 d1272a d73c43 46fc88 7a9d96 a6e04b e158f8
wrong preamble, and word 10 breaks the table
    5 10 00 cb8768 181ca5 95f381 07158a d7e439 3ab434 e60d93 07a819 e1d6f9 639923 flip=274 syndrome=111011
wrong preamble, and word 2 ends in 11
    6 0 00 cb8c77 181ca5 c02373 21b8c2 bf4f7e 5728e6 dd7398 276fbc 493130 6e858d
word 10 ends in 01, subframe number 0 and count 100,800
    7 10 00 8b5425 c4e002 fbb3e8 055665 f5913f cd2681 eb174f e8cd8a ca3741 48d39a
inverted: subframe 5, count 100,799
    0 0 11 8bae97 c4dfd5 177344 ef70b4 9e2936 aa59ce d78810 bf2eb1 d5a516 a269d3
inverted, after 1010
    0 0 11 8ba3b4 181ca9 6dd451 c12776 b96ba5 1a0044 10f48b 5dcc39 b2a724 769dd1 before=1010
inverted: count 100,800
    9 100800 11 8b35b8 c4e025 62a970 06a3f5 31ef79 38755c 654615 ba9468 900bd9 015d02
inverted: subframe number 0
    8 0 11 8b7567 181cc2 e0bbf3 862312 082717 3ecb55 484d14 aa2078 f637f2 a318d8
inverted: subframe number 7
    8 7 11 8b618a 181cbe 3b1069 fe1b14 2a8161 e6e9d6 e9f0fc 62b8a1 93f3cf e57b45
inverted: word 2 ends in 00
    7 2 11 8ba3b1 181c84 06671a bdd640 466852 3eb13b 392456 23b8c1 bc8960 1a3d1e
inverted: word 10 ends in 10
    7 10 11 8b09de 181ca7 b23bc1 c33f45 24d8ce f59ba7 766883 5eb045 abf10a b2ccdc
inverted: word 4, bit 20 flipped
    5 4 11 8b6895 181cc4 8abead b39cfd dcae6e 1ddd21 2d39f5 612b6c 39a40d 4a2121 flip=111 syndrome=101100
inverted: start pair 10
    4 0 11 8b4599 181ca6 7cef6a 41f60b 14f60b 4d9dff 56b73c 058721 128474 7bf833 before=11 flip=1
'''
SIZED = '00 8b9f76 181ca6 bde5c0 5bc8fb cb91ce b0c11f f1446b d76d43 bd69fe a6eb8d'
IN_FRONT = '00 8bcb18 181cc5 d26b94 14a035 7c2b3a c320a4 42f9a0 096d37 001d9a 25449a'
ODD = '00 8b52e6 181ce4 269e0d 651327 a6a3a4 0c5c7f 128b2f d23f08 892f90 1818ea'
WHOLE = '00 8b424e 181cb1 af6d11 e8d79f af1ffe cd502d d96e18 e3d6e4 2f8b9e a6ea1e'
HALF = '00 8be365 181c85 666608 0a3aee 96afcf 963f38 dc1afa e338e9 3a818b a27057'

# One flip in each word of WHOLE: word and bit.
ONE_FLIP = [(1, 9), (2, 1), (3, 24), (4, 25), (5, 28), (6, 12), (7, 26), (8, 27), (9, 18), (10, 5)]

# Flips in a recorded block: number and detail, the bits before the block, word and bit of each flip. The start pair is
# bits -1 and 0 of word 1.
P, Q = (1, -1), (1, 0)
FLIPS = [
    ('word 1 bit 5', 5, 1, '', [(1, 5)]),
    ('word 1 bits 3 and 17', 5, 1, '', [(1, 3), (1, 17)]),
    ('word 1 bits 1, 12 and 28', 5, 1, '', [(1, 1), (1, 12), (1, 28)]),
    ('word 5 bit 10', 5, 5, '', [(5, 10)]),
    ('word 5 bits 2 and 25', 5, 5, '', [(5, 2), (5, 25)]),
    ('word 5 bits 7, 8 and 24', 5, 5, '', [(5, 7), (5, 8), (5, 24)]),
    ('word 10 bit 30', 5, 10, '', [(10, 30)]),
    ('word 10 bits 29 and 30', 5, 10, '', [(10, 29), (10, 30)]),
    ('word 10 bits 1, 23 and 24', 5, 10, '', [(10, 1), (10, 23), (10, 24)]),
    ('word 1 bit 29', 5, 1, '', [(1, 29)]),
    ('word 1 bit 30', 5, 1, '', [(1, 30)]),
    ('word 4 bits 29 and 30', 5, 4, '', [(4, 29), (4, 30)]),
    ('word 4 bit 30, word 5 bits 6 and 27', 5, 4, '', [(4, 30), (5, 6), (5, 27)]),
    ('word 5 bits 29 and 30 and bit 11', 5, 5, '', [(5, 29), (5, 30), (5, 11)]),
    ('word 9 bits 29 and 30, word 10 bit 30', 5, 9, '', [(9, 29), (9, 30), (10, 30)]),
    ('word 2 bits 29 and 30', 5, 2, '', [(2, 29), (2, 30)]),
    ('both bits of the start pair', 5, 1, '', [P, Q]),
    ('both bits of the start pair and word 1 bit 14', 5, 1, '', [P, Q, (1, 14)]),
    ('both bits of the start pair, after 101100', 5, 1, '101100', [P, Q]),
    ('first bit of the start pair, after 101100', 4, 0, '101100', [P]),
    ('second bit of the start pair, after 101100', 4, 0, '101100', [Q]),
    ('second bit of the start pair, word 1 bits 8 and 30, after 101100', 4, 0, '101100', [Q, (1, 8), (1, 30)]),
    ('first bit of the start pair, word 3 bit 3', 4, 0, '', [P, (3, 3)]),
    ('three bits in each of words 3, 6 and 9', 5, 3, '',
     [(3, 1), (3, 2), (3, 3), (6, 10), (6, 20), (6, 28), (9, 4), (9, 14), (9, 24)]),
    ('three bits in each of words 2 and 10', 5, 2, '', [(2, 18), (2, 20), (2, 22), (10, 2), (10, 29), (10, 30)]),
    ('three bits in each of words 7 and 8', 5, 7, '', [(7, 5), (7, 6), (7, 26), (8, 13), (8, 14), (8, 15)]),
    ('bits 5, 15 and 25 of every word', 5, 1, '', [(k, bit) for k in range(1, 11) for bit in (5, 15, 25)]),
    ('bits 1, 9 and 27 of words 4 to 10', 5, 4, '', [(k, bit) for k in range(4, 11) for bit in (1, 9, 27)]),
    ('bit 30 and bits 12 and 13 of word 6, bit 16 of word 7', 5, 6, '', [(6, 30), (6, 12), (6, 13), (7, 16)]),
]

# A block of a start pair and ten words of source bits. Every word keeps the table.
def made(text):
    start, *words = text.split()
    block = bits_of(start)
    for word in words:
        block += paper.word_of(block[-2:], bits_of(format(int(word, 16), '024b')))
    return block

def index_of(word, bit):
    return 30 * word - 29 + bit

# The syndrome of word k of a block that was accepted before these flips.
def syndrome_after(k, flips):
    return sum_of_columns(bit + 1 for word, bit in flips if word == k)

def packed(comment, number, detail, block, before='', syndrome=None):
    return Case(comment, number, detail, bits_of(before) + block, None, len(before), syndrome)

def made_cases():
    lines = MADE.strip().splitlines()
    for comment, row in zip(lines[::2], lines[1::2]):
        words = row.split()
        options = dict(word.split('=') for word in words if '=' in word)
        block = made(' '.join(words[2:13]))
        flips = [int(options['flip'])] if 'flip' in options else []
        yield packed(comment, int(words[0]), int(words[1]), flipped(block, *flips), options.get('before', ''),
                     options.get('syndrome'))
    # In the window of word 2 all bits but P and Q are flipped. With these two flipped as well it would pass. So the
    # syndrome is that of P and Q: 101001 and 010101, joined by exclusive-or.
    half = made(HALF)
    half = half[:32] + inverse(half[32:])
    yield packed('upright, but the last nine words inverted: word 2 breaks the table', 5, 2, half, syndrome='111100')
    yield packed('the block of the next ten cases, whole', 0, 0, made(WHOLE))
    for word, bit in ONE_FLIP:
        yield packed('word %d, bit %d flipped' % (word, bit), 5, word, flipped(made(WHOLE), index_of(word, bit)),
                     syndrome=syndrome_after(word, [(word, bit)]))

# Lengths and places, each with a log of its own.
def size_cases():
    block, front, wraps = made(SIZED), made(IN_FRONT), 2 ** 64 - 301
    most, over = front + bytes(MOST - 302), front + bytes(MOST - 301)
    return [
        Case('302 bytes, place 0', 0, 0, block, 'block-302.log', 0),
        Case('301 bytes, place 0', 3, 0, block[:301], 'block-301.log', 0),
        Case('301 bytes, place 0 again', 3, 0, block[:301], 'block-301.log', 0),
        Case('302 bytes, place 1', 3, 1, block, 'block-302.log', 1),
        Case('302 bytes, place 302, just past the end', 3, 302, block, 'block-302.log', 302),
        Case('302 bytes, the largest place', 3, GREATEST, block, 'block-302.log', GREATEST),
        Case('302 bytes, place 2^64 - 301: 302 more is 1 modulo 2^64', 3, wraps, block, 'block-302.log', wraps),
        Case('empty log, place 0', 3, 0, b'', 'empty.log', 0),
        Case('empty log, place 7', 3, 7, b'', 'empty.log', 7),
        Case('303 bytes, place 1', 0, 0, bytes(1) + block, 'block-303.log', 1),
        Case('log of 65,537 bytes with a good block in front', 1, 65537, over, 'in-front-65537.log', 0),
        Case('70,000 bytes, which count as 65,537', 1, 65537, front + bytes(70000 - 302), 'in-front-70000.log', 0),
        Case('log of 65,536 bytes with a good block in front', 0, 0, most, 'in-front-65536.log', 0),
        Case('log of 65,537 zeros, the largest place', 1, 65537, bytes(65537), 'zeros-65537.log', GREATEST),
        Case('log of 65,536 zeros, the last place with 302 bytes: zeros keep the table and have no preamble',
             6, 0, bytes(MOST), 'zeros.log', 65234),
        Case('log of 65,536 zeros, one place further', 3, 65235, bytes(MOST), 'zeros.log', 65235),
    ]

# Bytes above 1 in a block and around it.
def odd_cases():
    block = made(ODD)
    two_bytes = with_byte(with_byte(block, 40, 2), 100, 3)
    pair_01 = flipped(block, 1)
    short = with_byte(block, 9, 2)[:301]
    return [
        packed('bytes 2 and 3 in the block at 40 and 100', 2, 40, two_bytes, '1001011'),
        packed('byte 9 as the first of the start pair', 2, 0, with_byte(block, 0, 9), '1001011'),
        packed('byte 2 as the last of the block', 2, 301, with_byte(block, 301, 2), '1001011'),
        Case('place 1, byte 2 just before the block and byte 2 just after it',
             0, 0, bytes([2]) + block + bytes([2]), 'odd-around.log', 1),
        packed('start pair 01 and byte 2 in the block at 200', 2, 200, with_byte(pair_01, 200, 2), '100'),
        packed('start pair 02', 2, 1, with_byte(block, 1, 2), '100'),
        Case('place 2, 301 bytes from there with a byte 2 among them', 3, 2, bytes(2) + short, 'odd-short.log', 2),
    ]

# The first two blocks of a recording, and flips in the first.
def recorded_cases(recording):
    two, first = recording[:602], recording[:302]
    upright, inverted = 'two-blocks.log', 'two-blocks-inverted.log'
    yield Case('recording ublox-m8t-sv03, first two blocks, place 0', 0, 0, two, upright, 0)
    yield Case('place 300', 0, 0, two, upright, 300)
    yield Case('place 1: the pair there is 01', 4, 1, two, upright, 1)
    yield Case('place 301: one byte too few', 3, 301, two, upright, 301)
    yield Case('the same, inverted, place 0', 0, 0, inverse(two), inverted, 0)
    yield Case('inverted, place 300', 0, 0, inverse(two), inverted, 300)
    yield Case('inverted, place 1: the pair there is 10', 4, 1, inverse(two), inverted, 1)
    for comment, number, detail, before, flips in FLIPS:
        block = flipped(first, *(index_of(*flip) for flip in flips))
        syndrome = syndrome_after(detail, flips) if number == 5 else None
        yield packed('recorded block, flipped: ' + comment, number, detail, block, before, syndrome)
    block = flipped(inverse(first), index_of(8, 29), index_of(8, 30))
    yield packed('recorded block inverted, flipped: word 8 bits 29 and 30', 5, 8, block, syndrome='000011')

# What the check says of a case whose block has this place.
def checked(case, place):
    if case.number == 0:
        return 'accepted'
    if case.number == 5:
        return 'refused 5 %d a word breaks the table syndrome %s' % (case.detail, case.syndrome)
    detail = case.detail + (0 if case.log or case.number not in (2, 4) else place)
    return 'refused %d %d' % (case.number, detail)

# The first stated place at or after a place with the block there, or the refusal with the empty part.
def found(case, places, place):
    if case.number == 1:
        return 'refused 1 65537\npart bytes=0'
    after = [accepted for accepted in places if accepted >= place]
    return 'found %d\npart bytes=302' % min(after) if after else 'refused 10 %d\npart bytes=0' % place

def build(s):
    cases = [*size_cases(), *odd_cases(), *made_cases(), *recorded_cases(s.recording('ublox-m8t-sv03.log'))]
    assert len(cases) == 118
    log, placed, accepted = b'', [], collections.defaultdict(list)
    for case in cases:
        name, place = case.log or 'blocks.log', case.place if case.log else len(log) + case.place
        if case.log:
            s.make(name, case.bits)
        else:
            log += case.bits
        placed.append((case, name, place))
        accepted[name] += [place] if case.number == 0 else []
    s.make('blocks.log', log)
    for case, name, place in placed:
        s.comment(case.comment)
        s.check(name, place, checked(case, place))
        s.find(name, place, found(case, accepted[name], place))
