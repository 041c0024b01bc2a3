# What another team's decoder says: gpsd's command gpsdecode (Debian's package gpsd-clients, version 3.22). It takes
# source bits, so it says nothing of parity and fillers. What it prints otherwise than document 01 has it:
#     TOW17 is six times the count. IODC is one number. Cic and IDOT are unsigned 32-bit numbers.
#     It takes no notice of the data ID, and prints the pages of PRINTED alone.
#     Other pages with some IDs have a content of its own, where document 01 has reserved bits:
#         ID 0 to 32 as an almanac page.
#         ID 51 and 63 as lists of health and configuration numbers. The toa of ID 51 is 4,096 times the number.
#         ID 52 as a list of 30 numbers of six bits. It puts -32 at the sender's own place among them, and the data ID
#         where the indicator belongs. Seven numbers run into the next word. It shifts their first two bits by two
#         places where four are right, so these seven are not compared.
#         ID 55 as text.
# It does not print the message, reserved and flag bits, and data IDs.
import collections
import json
import struct
import subprocess
import paper
from paper import signed

# Field and gpsdecode's name of it, of each field that gpsdecode prints.
HEADER = 'count:TOW17 subframe:frame '
NAMES = {
    'subframe1': '''week:WN l2_code:L2 ura:ura health:hlth iodc_high:IODC_high l2p_flag:L2P tgd:Tgd iodc_low:IODC_low
        toc:toc af2:af2 af1:af1 af0:af0''',
    'subframe2': '''iode:IODE crs:Crs delta_n:deltan m0:M0 cuc:Cuc e:e cus:Cus root_a:sqrtA toe:toe fit:FIT
        aodo:AODO''',
    'subframe3': '''cic:Cic node:Omega0 cis:Cis i0:i0 crc:Crc perigee:omega node_rate:Omegad iode:IODE idot:IDOT''',
    'almanac': '''sv_id:ID e:e toa:toa delta_i:deltai node_rate:Omegad health:Health root_a:sqrtA node:Omega0
        perigee:omega m0:M0 af0:af0 af1:af1''',
    'utc': '''id:dataid alpha0:a0 alpha1:a1 alpha2:a2 alpha3:a3 beta0:b0 beta1:b1 beta2:b2 beta3:b3 a1:A1 a0:A0 tot:tot
        wnt:WNt dtls:ls wnlsf:WNlsf dn:DN dtlsf:lsf''',
    'other': 'id:dataid',
}
# The part of gpsdecode's message that has the fields.
PARTS = {'subframe1': 'EPHEM1', 'subframe2': 'EPHEM2', 'subframe3': 'EPHEM3', 'almanac': 'ALMANAC', 'utc': 'IONO'}
# The IDs of the pages that it prints, by subframe number.
PRINTED = {4: [0, *range(25, 33), 52, 55, 56, 63], 5: [*range(25), 51]}

def numbered(name, first, last, width):
    return [('%s%d' % (name, k), width) for k in range(first, last + 1)]

# Name and width of the content of other pages, source bits 57 to 238, by the part of gpsdecode's message that has it.
FORMS = {
    'HEALTH': numbered('SV', 1, 32, 4) + [('unused', 2)] + numbered('SVH', 25, 32, 6) + [('unused', 4)],
    'HEALTH2': [('toa', 8), ('WNa', 8)] + numbered('SVH', 1, 24, 6) + [('unused', 22)],
    'NMCT': [('unused', 2)] + numbered('ERD', 1, 30, 6),
    'system_message': numbered('character', 1, 22, 8) + [('unused', 6)],
}
# The numbers of NMCT that run into the next word.
SPLIT = ['ERD%d' % k for k in range(3, 30, 4)]

# Of one block: the number of its values, of those compared, and of the numbers of its content that are compared.
Compared = collections.namedtuple('Compared', 'kind printed values compared content')

# What gpsdecode prints for a block, given to it alone as the message UBX-RXM-SFRB of a satellite, or None.
def decoded(block, satellite):
    words = [paper.number(paper.source_of_word(window)) for window in paper.windows_of(block)]
    body = struct.pack('<BBHBB10I', 0x02, 0x11, 42, 0, satellite, *words)
    a = b = 0
    for byte in body:
        a = (a + byte) % 256
        b = (b + a) % 256
    message = b'\xb5\x62' + body + bytes([a, b])
    printed = subprocess.run(['gpsdecode', '-u'], input=message, stdout=subprocess.PIPE, check=True).stdout
    return json.loads(printed) if printed else None

def is_printed(source):
    subframe, page = paper.number(source[43:46]), paper.number(source[50:56])
    return subframe < 4 or page in PRINTED[subframe]

# The values that gpsdecode prints too, by its names.
def by_its_names(values, kind):
    names = dict(pair.split(':') for pair in (HEADER + NAMES[kind]).split())
    return {name: values[own] for own, name in names.items()}

# The values of a message by gpsdecode's names, as document 01 has them.
def values_of(message, kind):
    values = {name: message[name] for name in ('TOW17', 'frame', 'dataid') if name in message}
    values['TOW17'], rest = divmod(values['TOW17'], 6)
    assert rest == 0
    values.update(message[PARTS[kind]] if kind in PARTS else {})
    if kind == 'subframe1':
        values['IODC_high'], values['IODC_low'] = divmod(values.pop('IODC'), 256)
    if kind == 'subframe3':
        values['Cic'], values['IDOT'] = signed(values['Cic'], 32), signed(values['IDOT'], 32)
    if kind == 'almanac':
        assert values.pop('dataid') == values['ID']
    return values

# The content of an other page in one of FORMS, read from its bits.
def content_in(source, form):
    values, place = {}, 56
    for name, width in FORMS[form]:
        value = paper.number(source[place:place + width])
        values[name] = signed(value, width) if form == 'NMCT' else value
        place += width
    assert place == 238
    return {name: value for name, value in values.items() if name != 'unused'}

# The same as gpsdecode has it, by the same names.
def content_of(message, form, source):
    part = message[form]
    if form == 'system_message':
        return {'character%d' % (k + 1): ord(character) for k, character in enumerate(part)}
    if form == 'HEALTH2':
        return dict(part, toa=part['toa'] / 4096)
    if form == 'NMCT':
        assert part['ai'] == paper.number(source[48:50]) and part['ERD%d' % message['tSV']] == -32
        rest = [part['ERD%d' % k] for k in range(1, 32) if k != message['tSV']]
        return {'ERD%d' % (k + 1): value for k, value in enumerate(rest)}
    return part

# How many numbers of an other page are compared in the form that gpsdecode gives it. Fails where two differ.
def compare_content(message, source):
    if 'ALMANAC' in message:
        own = by_its_names(paper.values_in(source, 'almanac'), 'almanac')
        assert values_of(message, 'almanac') == own, (own, message)
        return len(own) - len(HEADER.split())
    for form in set(FORMS) & set(message):
        own, theirs = content_in(source, form), content_of(message, form, source)
        for name in SPLIT if form == 'NMCT' else []:
            del own[name], theirs[name]
        assert own == theirs, (own, theirs)
        return len(own)
    return 0

# Fails where a value of gpsdecode's is missing, left over or not the one that paper.py reads.
def compare(block, satellite):
    source, message = paper.source_of(block), decoded(block, satellite)
    kind, values = paper.read(block)
    assert bool(message) == is_printed(source), (kind, values)
    if not message:
        assert kind == 'other'
        return Compared(kind, False, len(values), 0, 0)
    own = by_its_names(values, kind)
    assert message['tSV'] == satellite and values_of(message, kind) == own, (own, message)
    content = compare_content(message, source) if kind == 'other' else 0
    return Compared(kind, True, len(values), len(own), content)

# The sums over blocks, as text. Nothing differs, because the comparison stops at the first value that does.
def figures(compared):
    kinds = collections.Counter(block.kind for block in compared)
    silent = [block for block in compared if not block.printed]
    return '\n    '.join([
        '%d blocks: %s' % (len(compared), ', '.join('%s %d' % kind for kind in sorted(kinds.items()))),
        '%d of %d values compared with gpsdecode, 0 differ' % (sum(b.compared for b in compared),
                                                               sum(b.values for b in compared)),
        '%d numbers in the content of other pages compared, 0 differ' % sum(b.content for b in compared),
        '%d other pages, %d values, are not printed by it' % (len(silent), sum(b.values for b in silent)),
    ])
