# Document 01 in Python: what is right, from received bits to records and back, with the syndrome of document 02's
# request 2; questions.py has the rest. Written from the papers, apart from the program's code. Bits are bytes of value
# 0 or 1. What document 01 refuses raises Refused.
import collections
import functools
import itertools
from fractions import Fraction

MOST = 65536            # bytes of a log
BLOCK = 302             # bytes of a block
GREATEST = 2 ** 64 - 1  # the largest place
COUNTS = 100800
PREAMBLE = bytes([1, 0, 0, 0, 1, 0, 1, 1])

# Document 01's parity table: the bit, P or Q, and the source bits.
TABLE = '''
25 P 1 2 3 5 6 10 11 12 13 14 17 18 20 23
26 Q 2 3 4 6 7 11 12 13 14 15 18 19 21 24
27 P 1 3 4 5 7 8 12 13 14 15 16 19 20 22
28 Q 2 4 5 6 8 9 13 14 15 16 17 20 21 23
29 Q 1 3 5 6 7 9 10 14 15 16 17 18 21 22 24
30 P 3 5 6 8 9 10 11 13 15 19 22 23 24
'''
ROWS = [('PQ'.index(row.split()[1]), [int(i) for i in row.split()[2:]]) for row in TABLE.strip().splitlines()]

# Name, width (s: two's complement), scale and unit of each field, in the order of the record.
HEADER = 'message:14 reserved:2 count:17:6:s flag18:1 flag19:1 subframe:3'
FIELDS = {
    'subframe1': '''week:10 l2_code:2 ura:4 health:6 iodc_high:2 l2p_flag:1 reserved4:23 reserved5:24 reserved6:24
        reserved7:16 tgd:8s:2^-31:s iodc_low:8 toc:16:2^4:s af2:8s:2^-55:s/s^2 af1:16s:2^-43:s/s af0:22s:2^-31:s''',
    'subframe2': '''iode:8 crs:16s:2^-5:m delta_n:16s:2^-43:semicircles/s m0:32s:2^-31:semicircles cuc:16s:2^-29:rad
        e:32:2^-33:dimensionless cus:16s:2^-29:rad root_a:32:2^-19:m^1/2 toe:16:2^4:s fit:1 aodo:5:900:s''',
    'subframe3': '''cic:16s:2^-29:rad node:32s:2^-31:semicircles cis:16s:2^-29:rad i0:32s:2^-31:semicircles
        crc:16s:2^-5:m perigee:32s:2^-31:semicircles node_rate:24s:2^-43:semicircles/s iode:8
        idot:14s:2^-43:semicircles/s''',
    'almanac': '''data_id:2 sv_id:6 e:16:2^-21:dimensionless toa:8:2^12:s delta_i:16s:2^-19:semicircles
        node_rate:16s:2^-38:semicircles/s health:8 root_a:24:2^-11:m^1/2 node:24s:2^-23:semicircles
        perigee:24s:2^-23:semicircles m0:24s:2^-23:semicircles af0:11s:2^-20:s af1:11s:2^-38:s/s''',
    'utc': '''data_id:2 id:6 alpha0:8s:2^-30:s alpha1:8s:2^-27:s/semicircle alpha2:8s:2^-24:s/semicircle^2
        alpha3:8s:2^-24:s/semicircle^3 beta0:8s:2^11:s beta1:8s:2^14:s/semicircle beta2:8s:2^16:s/semicircle^2
        beta3:8s:2^16:s/semicircle^3 a1:24s:2^-50:s/s a0:32s:2^-30:s tot:8:2^12:s wnt:8 dtls:8s wnlsf:8 dn:8 dtlsf:8s
        reserved10:14''',
    'other': '''data_id:2 id:6 reserved3:16 reserved4:24 reserved5:24 reserved6:24 reserved7:24 reserved8:24
        reserved9:24 reserved10:22''',
}
# The values that a field has where none is given: those that make the kind. Every other is 0.
DEFAULTS = {
    'subframe1': {'subframe': 1},
    'subframe2': {'subframe': 2},
    'subframe3': {'subframe': 3},
    'almanac': {'subframe': 5, 'data_id': 1, 'sv_id': 1},
    'utc': {'subframe': 4, 'data_id': 1, 'id': 56},
    'other': {'subframe': 4},
}

PHRASES = {
    1: 'over 65,536 bytes',
    2: 'a byte above 1 in it',
    3: 'fewer than 302 bytes from p',
    4: 'start pair unequal',
    5: 'a word breaks the table',
    6: 'preamble differs',
    7: 'word 2 or 10 ends unlike the start pair',
    8: 'subframe number 0, 6 or 7',
    9: 'count above 100,799',
    10: 'no accepted block at or after p',
    11: 'a value outside its field, or a subframe number or ID of another kind',
    12: 'buffer under 302 bytes',
    13: 'satellite or SV ID not 1 to 32',
    14: 'week above 8,191 or second above 604,799',
    15: 'DN not 1 to 7',
    16: 'week difference -128',
    17: 'subframe 1, 2 or 3 not held',
    18: 'IODC low, IODE of 2 and of 3 not all equal',
    19: 'first health bit is 1',
    20: 'almanac or UTC page not held',
}

class Refused(Exception):
    def __init__(self, number, detail):
        self.number, self.detail = number, detail

    def __str__(self):
        return 'refused %d %d %s' % (self.number, self.detail, PHRASES[self.number])

Field = collections.namedtuple('Field', 'name width signed scale unit')
Record = collections.namedtuple('Record', 'kind values')  # values: number by name, in the order of the fields

# ---- bits

def digits(bits):
    return ''.join(map(str, bits))

def bits_of(text):
    return bytes(map(int, text))

def number(bits):
    return int(digits(bits), 2)

# A number of a width read as two's complement.
def signed(value, width):
    return value - 2 ** width if value >= 2 ** (width - 1) else value

def inverse(bits):
    return bytes(1 - bit for bit in bits)

def with_byte(bits, index, byte):
    return bits[:index] + bytes([byte]) + bits[index + 1:]

def flipped(bits, *indices):
    for index in indices:
        bits = with_byte(bits, index, 1 - bits[index])
    return bits

# ---- words: a window is a word with the two bits before it, P, Q and bits 1 to 30

# Bits 25 to 30, by the two bits before the word and its 24 source bits.
def parity(pair, source):
    return bytes((pair[of] + sum(source[i - 1] for i in row)) % 2 for of, row in ROWS)

def source_of_word(window):
    return bytes(bit ^ window[1] for bit in window[2:26])

# The six bits of document 02's request 2: the failures of equations 25 to 30. A bit is 1 where the received bit differs
# from the exclusive-or that the table states.
@functools.lru_cache(maxsize=None)
def syndrome(window):
    stated = parity(window[:2], source_of_word(window))
    return bytes(bit ^ other for bit, other in zip(window[26:], stated))

def passes(window):
    return syndrome(window) == bytes(6)

# The 30 received bits of a word, by the two bits before it and its 24 source bits.
def word_of(pair, source):
    return bytes(bit ^ pair[1] for bit in source) + parity(pair, source)

def windows_of(block):
    return [block[30 * k:30 * k + 32] for k in range(10)]

# The 240 source bits of a block, each word by its own Q.
def source_of(block):
    return b''.join(map(source_of_word, windows_of(block)))

def subframe_and_count(block):
    source = source_of(block)
    return number(source[43:46]), number(source[24:41])

# ---- the checks of log and block, the search and the walk

# The 302 bytes at a place, each 0 or 1: the checks 1, 3 and 2.
def bits_at(log, place):
    if len(log) > MOST:
        raise Refused(1, len(log))
    block = log[place:place + BLOCK]
    if len(block) < BLOCK:
        raise Refused(3, place)
    if max(block) > 1:
        raise Refused(2, place + next(i for i, byte in enumerate(block) if byte > 1))
    return block

# The accepted block at a place.
def block_at(log, place):
    block = bits_at(log, place)
    if block[0] != block[1]:
        raise Refused(4, place)
    windows = windows_of(block)
    for k, window in enumerate(windows, 1):
        if not passes(window):
            raise Refused(5, k)
    if source_of_word(windows[0])[:8] != PREAMBLE:
        raise Refused(6, 0)
    for k in (2, 10):
        if windows[k - 1][30:] != block[:2]:
            raise Refused(7, k)
    subframe, count = subframe_and_count(block)
    if subframe in (0, 6, 7):
        raise Refused(8, subframe)
    if count >= COUNTS:
        raise Refused(9, count)
    return block

def is_accepted(log, place):
    try:
        block_at(log, place)
    except Refused:
        return False
    return True

@functools.lru_cache(maxsize=None)
def accepted_places(log):
    return [place for place in range(len(log)) if is_accepted(log, place)]

# The first accepted place at or after a place.
def find(log, place):
    if len(log) > MOST:
        raise Refused(1, len(log))
    for found in accepted_places(log):
        if found >= place:
            return found
    raise Refused(10, place)

# The places of the blocks that a walk from place 0 meets, and the refusal that ends it.
def walk(log):
    places = []
    try:
        while True:
            places.append(find(log, places[-1] + 300 if places else 0))
    except Refused as end:
        return places, end

def polarity(block):
    return 'UI'[block[0]]

# The lines of document 01's listing.
def listing(log):
    if len(log) > MOST:
        return ['refused\t1']
    blocks = [(place, log[place:place + BLOCK]) for place in walk(log)[0]]
    lines = ['%d\t%d\t%d\t%s' % (place, *subframe_and_count(block), polarity(block)) for place, block in blocks]
    return ['place\tid\tcount\tpolarity'] + lines

# ---- records

def scale_of(text):
    base, _, power = text.partition('^')
    return Fraction(int(base)) ** int(power or 1) if text else None

@functools.lru_cache(maxsize=None)
def fields_of(kind):
    fields = []
    for text in (HEADER + ' ' + FIELDS[kind]).split():
        name, width, scale, unit = (text + ':::').split(':')[:4]
        fields.append(Field(name, int(width.rstrip('s')), 's' in width, scale_of(scale), unit))
    assert sum(field.width for field in fields) == 38 + 190
    return fields

# The record of a kind with these numbers, by place and by name. A field that is not given has its default.
def record_of(kind, *numbers, **named):
    names = [field.name for field in fields_of(kind)]
    given = {**DEFAULTS[kind], **dict(zip(names, numbers)), **named}
    assert len(numbers) <= len(names) and set(given) <= set(names)
    return Record(kind, {name: given.get(name, 0) for name in names})

def changed(record, **named):
    return record_of(record.kind, **{**record.values, **named})

def kind_of(subframe, data_id, page):
    if subframe <= 3:
        return 'subframe%d' % subframe
    if data_id == 1 and 1 <= page <= 32:
        return 'almanac'
    return 'utc' if (subframe, data_id, page) == (4, 1, 56) else 'other'

# An almanac page sends af0's low three bits after af1: 8, 11 and 3 bits. The record has them joined, 11 and 11.
def joined(bits):
    return bits[:-14] + bits[-3:] + bits[-14:-3]

def parted(bits):
    return bits[:-14] + bits[-11:] + bits[-14:-11]

# The numbers of a kind's fields among 240 source bits.
def values_in(source, kind):
    bits, values = source[8:46] + source[48:238], {}
    if kind == 'almanac':
        bits = joined(bits)
    for field in fields_of(kind):
        value, bits = number(bits[:field.width]), bits[field.width:]
        values[field.name] = signed(value, field.width) if field.signed else value
    return values

# The record of an accepted block.
def read(block):
    source = source_of(block)
    kind = kind_of(number(source[43:46]), number(source[48:50]), number(source[50:56]))
    return Record(kind, values_in(source, kind))

# The numbers of a field.
def range_of(field):
    return range(-2 ** (field.width - 1), 2 ** (field.width - 1)) if field.signed else range(2 ** field.width)

# Refuses by 11 what the writer does.
def check_record(record):
    kind, values = record
    if not all(values[field.name] in range_of(field) for field in fields_of(kind)) or values['count'] >= COUNTS:
        raise Refused(11, 0)
    page = values.get('sv_id', values.get('id'))
    if not 1 <= values['subframe'] <= 5 or kind_of(values['subframe'], values.get('data_id'), page) != kind:
        raise Refused(11, 0)

# The word of 22 source bits and the two fillers that end it like the start pair. All four are tried, and one is right.
def word_with_fillers(pair, source, start):
    words = [word_of(pair, source + bytes(fillers)) for fillers in itertools.product((0, 1), repeat=2)]
    right, = [word for word in words if word[28:] == start]
    return right

# The block of a record, upright (0) or inverted (1).
def write(record, inverted=0):
    check_record(record)
    texts = [format(record.values[f.name] % 2 ** f.width, '0%db' % f.width) for f in fields_of(record.kind)]
    bits = PREAMBLE + bits_of(''.join(texts))
    if record.kind == 'almanac':
        bits = parted(bits)
    block = start = bytes([inverted, inverted])
    for k in range(1, 11):
        size = 22 if k in (2, 10) else 24
        source, bits = bits[:size], bits[size:]
        pair = block[-2:]
        block += word_of(pair, source) if size == 24 else word_with_fillers(pair, source, start)
    assert bits == b'' and block_at(block, 0) == block
    return block
