# The nine logs of the course, made of recorded blocks and of recorded blocks written anew with a field changed. The
# functions whose names begin with said_of stop where a log is not what docs/COURSE.md says of it.
import paper
import readers
from paper import changed, inverse, source_of

SV05, NOVATEL, M8T = 'ublox-2008-sv05.log', 'novatel-2009-sv03.log', 'ublox-m8t-sv03.log'

# The recorded blocks that stand in each log unchanged, with the places there and in the recording.
RECORDED = {
    'data-bits': (NOVATEL, [(0, 900), (300, 1200), (600, 1500)]),
    'mid-stream': (SV05, [(35, 1800), (335, 2100)]),
    'health': (SV05, [(0, 1800), (300, 2100), (600, 2400), (1200, 3600), (1500, 3900)]),
    'iodc': (SV05, [(300, 3600), (600, 3900)]),
    'almanac': (SV05, [(0, 5100), (300, 5400), (600, 5700), (900, 6000)]),
    'word-before': (M8T, [(0, 600), (300, 900), (600, 1200)]),
    'inverted': (SV05, [(0, 300), (300, 600), (600, 900)]),
    'cutover': (SV05, [(0, 300), (300, 600), (600, 900), (900, 1800), (1200, 2100), (1500, 2400)]),
    'fillers': (SV05, [(302, 1800)]),
}

# Blocks in a row. Each begins with the two bits that end the one before.
def joined(*blocks):
    log = blocks[0]
    for block in blocks[1:]:
        assert block[:2] == log[-2:]
        log += block[2:]
    return log

# Satellite 5's second subframe 1 of issue 48, written anew with fields changed.
def written(sv05, **named):
    return paper.write(changed(paper.read(sv05[3300:3602]), **named))

# The logs by their names, in the order of the lessons.
def logs_of(recordings):
    sv05, novatel, m8t = (recordings[name] for name in (SV05, NOVATEL, M8T))
    first = sv05[1800:2102]
    return {
        'data-bits': novatel[900:1802],
        'mid-stream': inverse(sv05[1765:2402]),
        'health': joined(sv05[1800:2702], written(sv05, health=32), sv05[3600:4202]),
        'iodc': joined(written(sv05, iodc_high=1), sv05[3600:4202]),
        'almanac': sv05[5100:6302],
        'word-before': m8t[600:1502],
        'inverted': inverse(sv05[300:1202]),
        'cutover': joined(sv05[300:1202], sv05[1800:2702]),
        'fillers': readers.with_zero_fillers(first) + first,
    }

# The kinds and the values of the blocks at these places.
def kinds_at(log, *places):
    return [paper.read(log[place:place + 302]).kind for place in places]

def values_at(log, *places):
    return [paper.read(log[place:place + 302]).values for place in places]

# The last bit before word k of the block at a place.
def q_before(log, place, k):
    return log[place + 30 * k - 29]

def starts(log, *places):
    return [paper.digits(log[place:place + 2]) for place in places]

# The names of the fields in which the blocks at the starts of two logs differ.
def differences(log, other):
    (one,), (two,) = values_at(log, 0), values_at(other, 0)
    return [name for name in one if one[name] != two[name]]

# All blocks are upright. The first has no word inverted; the second, subframe 2, has word 6 inverted, with the first
# eight bits of e: e has source bits 137 to 168, and word 6 has 121 to 144.
def said_of_data_bits(log):
    assert starts(log, 0, 300, 600) == ['00'] * 3
    assert [q_before(log, 0, k) for k in range(1, 11)] == [0] * 10
    assert [k for k in range(1, 11) if q_before(log, 300, k)] == [5, 6]
    assert paper.number(source_of(log[300:602])[136:168]) == values_at(log, 300)[0]['e']

# It begins 35 bits before a block, inside a word. Both preambles are received inverted.
def said_of_mid_stream(log):
    assert len(log) == 35 + 602
    assert log[37:45] == log[337:345] == inverse(paper.PREAMBLE)

# Three subframes, and the same of the next frame. Of the second subframe 1 the health alone is changed.
def said_of_health(log, sv05):
    one, two, three, *again = values_at(log, 0, 300, 600, 900, 1200, 1500)
    assert [values['subframe'] for values in again] == [values['subframe'] for values in (one, two, three)] == [1, 2, 3]
    assert differences(log[900:], sv05[3300:]) == ['health']
    assert (one['health'], again[0]['health']) == (0, 0b100000)
    assert {one['iodc_low'], again[0]['iodc_low']} == {values['iode'] for values in (two, three, *again[1:])} == {48}

# IODC high alone is changed. IODC low and both IODE are equal.
def said_of_iodc(log, sv05):
    one, two, three = values_at(log, 0, 300, 600)
    assert differences(log, sv05[3300:]) == ['iodc_high']
    assert one['iodc_high'] == 1 and one['iodc_low'] == two['iode'] == three['iode']

# An almanac page has e with the first of its 16 bits set. Every root A has its first bit set. The three bits after af0
# high, the first of af1, are not af0 low.
def said_of_almanac(log):
    assert kinds_at(log, 0, 300, 600, 900) == ['subframe2', 'subframe3', 'almanac', 'almanac']
    two, page, other = values_at(log, 0, 600, 900)
    assert page['e'] >= 2 ** 15 > other['e'] and two['e'] < 2 ** 31
    assert two['root_a'] >= 2 ** 31 and min(page['root_a'], other['root_a']) >= 2 ** 23
    assert all(values['af1'] % 2048 // 256 != values['af0'] % 8 for values in (page, other))

# The first block is upright, and its word 2 is the first with a 1 before it.
def said_of_word_before(log):
    assert (q_before(log, 0, 1), q_before(log, 0, 2)) == (0, 1)

# Every start pair is 11, and so is the log's end.
def said_of_inverted(log):
    assert starts(log, 0, 300, 600, 900) == ['11'] * 4
    assert kinds_at(log, 0, 300, 600) == ['subframe1', 'subframe2', 'subframe3']

# Subframes 1, 2 and 3 of one issue, then those of the next.
def said_of_cutover(log):
    values = values_at(log, *range(0, 1800, 300))
    assert [block['subframe'] for block in values] == [1, 2, 3] * 2
    assert [block.get('iode', block.get('iodc_low')) for block in values] == [47] * 3 + [48] * 3

# Two blocks of one record. In the first all words pass, both fillers of both words are 0, and word 2 ends unlike the
# start pair.
def said_of_fillers(log):
    wrong, right = log[:302], log[302:]
    assert paper.read(wrong) == paper.read(right) and paper.write(paper.read(wrong)) == right
    fillers = [source_of(block)[46:48] + source_of(block)[238:] for block in (wrong, right)]
    assert fillers[0] == bytes(4) != fillers[1]
    assert all(map(paper.passes, paper.windows_of(wrong))) and wrong[60:62] != wrong[:2]

# The recorded blocks stand where RECORDED says, and each comes back from its record.
def said_of_places(log, recording, places):
    for place, recorded_at in places:
        block = recording[recorded_at:recorded_at + 302]
        assert log[place:place + 302] in (block, inverse(block))
        assert paper.write(paper.read(block)) == block

def said_of_all(logs, recordings):
    for name, (recording, places) in RECORDED.items():
        said_of_places(logs[name], recordings[recording], places)
    said_of_data_bits(logs['data-bits'])
    said_of_mid_stream(logs['mid-stream'])
    said_of_health(logs['health'], recordings[SV05])
    said_of_iodc(logs['iodc'], recordings[SV05])
    said_of_almanac(logs['almanac'])
    said_of_word_before(logs['word-before'])
    said_of_inverted(logs['inverted'])
    said_of_cutover(logs['cutover'])
    said_of_fillers(logs['fillers'])
