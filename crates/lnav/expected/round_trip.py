# Records to blocks and back, by `write` and `read`: the ends of every field of each kind, values beyond them, and every
# recorded block, written anew from its numbers. Stated by hand: a written block has the numbers asked for; a recorded
# one comes back bit for bit, and inverted as its inverse; a log of both polarities has all its blocks.
import itertools
import gpsdecode
import paper
import records
from paper import Record, inverse
from subject import ten_words

KINDS = list(paper.FIELDS)
# The bits of a field of a width as a number, by the choice of values.
CHOICES = {
    'zeros': lambda width: 0,
    'ones': lambda width: 2 ** width - 1,
    'lowest': lambda width: 2 ** (width - 1),
    'highest': lambda width: 2 ** (width - 1) - 1,
}
# Subframe number, data ID and ID of the pages, by choice.
PAGES = {
    'almanac': {'zeros': (5, 1, 1), 'ones': (4, 1, 32), 'lowest': (5, 1, 16), 'highest': (4, 1, 31)},
    'utc': {choice: (4, 1, 56) for choice in CHOICES},
    'other': {'zeros': (4, 1, 0), 'ones': (5, 3, 63), 'lowest': (4, 2, 32), 'highest': (5, 1, 56)},
}
# Records with some fields given, by place and by name, and what is read of them.
PARTIAL = [
    ('subframe1', {'week': 69, 'tgd': -9}, 'subframe 1, week 69, l2_code 0, tgd -9, af0 0'),
    ('subframe1 69 0 73766 0 1', {'af0': -564075, 'iodc_low': 94}, 'message 69, count 73766, iodc_low 94, af0 -564075'),
    ('subframe2', {'root_a': 2 ** 32 - 1, 'iode': 48, 'crs': -1}, 'iode 48, crs -1, m0 0, root_a 4294967295'),
    ('subframe3 1 2 3', {}, 'message 1, reserved 2, count 3, flag18 0, subframe 3'),
    ('almanac', {'sv_id': 32, 'subframe': 4, 'af0': -1024, 'af1': 1023}, 'subframe 4, sv_id 32, af0 -1024, af1 1023'),
    ('utc', {'dtls': 18, 'dtlsf': -18, 'wnlsf': 137, 'dn': 7}, 'id 56, dtls 18, wnlsf 137, dn 7, dtlsf -18'),
    ('other', {'id': 63, 'reserved10': 1}, 'subframe 4, data_id 0, id 63, reserved9 0, reserved10 1'),
    ('other 0 0 0 0 0 5 1 56', {}, 'subframe 5, data_id 1, id 56, reserved3 0'),
]
# What is refused by 11.
BEYOND = [
    ('count 100,800', 'subframe1', {'count': 100800}),
    ('week 1,024', 'subframe1', {'week': 1024}),
    ('TGD 128', 'subframe1', {'tgd': 128}),
    ('TGD -129', 'subframe1', {'tgd': -129}),
    ('subframe 1 record with subframe number 2', 'subframe1', {'subframe': 2}),
    ('almanac page with SV ID 33', 'almanac', {'sv_id': 33}),
    ('almanac page with SV ID 0', 'almanac', {'sv_id': 0}),
    ('almanac page with data ID 2', 'almanac', {'data_id': 2}),
    ('almanac page in subframe 3', 'almanac', {'subframe': 3}),
    ('UTC page in subframe 5', 'utc', {'subframe': 5}),
    ('UTC page with ID 57', 'utc', {'id': 57}),
    ('UTC page with data ID 0', 'utc', {'data_id': 0}),
    ('other page with the IDs of an almanac page', 'other', {'data_id': 1, 'id': 1}),
    ('other page with the IDs of an almanac page, SV ID 32', 'other', {'data_id': 1, 'id': 32}),
    ('other page with the IDs of the UTC page', 'other', {'data_id': 1, 'id': 56}),
    ('other page in subframe 6', 'other', {'subframe': 6}),
    ('week 2^32, which is 0 modulo 2^32', 'subframe1', {'week': 2 ** 32}),
    ('TGD 2^32 + 1, af0 -2^32', 'subframe1', {'tgd': 2 ** 32 + 1, 'af0': -2 ** 32}),
    ('the largest number', 'subframe2', {'count': 2 ** 63 - 1}),
    ('the lowest number', 'subframe2', {'m0': -(2 ** 63 - 1)}),
]

# The record of a kind and a choice. Its count is at most 100,799.
def extreme(kind, choice):
    values = {}
    for field in paper.fields_of(kind):
        value = CHOICES[choice](field.width)
        values[field.name] = paper.signed(value, field.width) if field.signed else value
    values['count'] = min(values['count'], 100799)
    if kind in PAGES:
        page = 'sv_id' if kind == 'almanac' else 'id'
        values['subframe'], values['data_id'], values[page] = PAGES[kind][choice]
    else:
        values['subframe'] = int(kind[-1])
    return Record(kind, values)

# The answer of `read`, as far as it is stated: kind and every number.
def numbers_of(record):
    return '\n'.join(['kind ' + record.kind] + ['%s %d' % value for value in record.values.items()])

def extremes(s):
    for kind, choice in itertools.product(KINDS, CHOICES):
        record = extreme(kind, choice)
        s.comment('%s, %s, upright and inverted' % (kind, choice))
        for inverted in (False, True):
            s.write(record, inverted=inverted)
            s.read('written', 0, numbers_of(record))

# Some fields by place or by name, in any order. The others are 0, or what makes the kind.
def partial(s):
    s.comment('every field left out')
    for kind in KINDS:
        s.write(kind)
        s.check('written', 0, 'accepted')
        s.read('written', 0, numbers_of(paper.record_of(kind)))
    s.comment('some fields given')
    for given, named, stated in PARTIAL:
        for inverted in (False, True):
            s.write(given, inverted=inverted, **named)
            s.read('written', 0, stated.replace(', ', '\n'))

# Each refusal leaves what was written before.
def refusals(s):
    s.comment('refused by 11; the block that was written before stays')
    s.write('other', id=63)
    stays = paper.digits(inverse(s.written))
    for comment, kind, named in BEYOND:
        s.comment(comment)
        s.write(kind, expect='refused 11 0', **named)
    s.comment('one beyond each end of each field')
    for kind in KINDS:
        for field in paper.fields_of(kind):
            inside = paper.range_of(field)
            s.write(kind, expect='refused 11 0', **{field.name: inside.start - 1})
            s.write(kind, expect='refused 11 0', inverted=True, **{field.name: inside.stop})
    s.invert(stays)

# The block of every recorded record, upright as it was recorded and inverted as its inverse.
def recorded(s):
    for recording in records.RECORDINGS:
        for place, block in records.blocks_of(s.recording(recording.name)):
            record = paper.read(block)
            s.comment('%s %d' % (recording.name, place))
            s.write(record, expect=paper.digits(block))
            s.write(record, inverted=True, expect=paper.digits(inverse(block)))
            s.read('written', 0, numbers_of(record))
            if place in (0, 300, 600, 900):
                changes(s, block)

# Bits to flip: the refusal, the answer of the check, and the syndromes of the words that fail. Index 0 is P of word 1,
# index 31 is bit 30 of word 1 and so Q of word 2, and index 301 is bit 30 of word 10.
ONE_FLIP = [
    (0, 'refused 4 0', '', {1: '101001 equations 25 27 30'}),
    (31, 'refused 5 1', ' a word breaks the table syndrome 000001 equations 30',
     {1: '000001 equations 30', 2: '010101 equations 26 28 30'}),
    (301, 'refused 5 10', ' a word breaks the table syndrome 000001 equations 30', {10: '000001 equations 30'}),
]

# The written block, which is the inverse of a recorded one, turned over and with bits flipped.
def changes(s, block):
    subframe, count = paper.subframe_and_count(block)
    s.words('written', 0, ten_words({}))
    s.find('written', 0, 'found 0\npart bytes=302 polarity=I subframe=%d count=%d' % (subframe, count))
    s.find('written', 1, 'refused 10 1\npart bytes=0')
    s.check('written', 1, 'refused 3 1')
    s.invert(paper.digits(block))
    s.words('written', 0, ten_words({}))
    s.find('written', 0, 'found 0\npart bytes=302 polarity=U subframe=%d count=%d' % (subframe, count))
    s.list('written', 'place id count polarity\n0 %d %d U' % (subframe, count))
    for index, refusal, syndrome, failing in ONE_FLIP:
        s.flip(index)
        s.check('written', 0, refusal + syndrome)
        s.find('written', 0, 'refused 10 0\npart bytes=0')
        s.words('written', 0, ten_words(failing))
        s.read('written', 0, refusal)
        s.flip(index, paper.digits(block))
    s.check('written', 0, 'accepted')

# Two recordings, each followed by its inverse. The last block ends with the log.
def polarities(s):
    s.comment('a log that changes its polarity three times: 178 blocks')
    m8t, novatel = s.recording(records.M8T.name), s.recording(records.NOVATEL.name)
    log = s.make('polarities.log', m8t + inverse(m8t) + novatel + inverse(novatel))
    parts = [(recording, polarity) for recording in (records.M8T, records.NOVATEL) for polarity in 'UI']
    assert len(records.list_joined(s, log, *parts)) == 1 + 178
    last = len(s.log(log)) - 302
    s.find(log, last + 1, 'refused 10 %d\npart bytes=0' % (last + 1))

def build(s):
    extremes(s)
    partial(s)
    refusals(s)
    recorded(s)
    polarities(s)

# The 48 blocks of extreme values, as satellite 1's.
def compare():
    cases = itertools.product(KINDS, CHOICES, (0, 1))
    blocks = [paper.write(extreme(kind, choice), inverted) for kind, choice, inverted in cases]
    return gpsdecode.figures([gpsdecode.compare(block, 1) for block in blocks])
