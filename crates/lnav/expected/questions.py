# Document 01 in Python: what is right, for the questions about records. The collector, with the ranking of document
# 02's request 1, the clock terms, the accuracy and the time of day; doubles and decimals, which are exact fractions
# here. What document 01 refuses raises Refused.
import struct
from fractions import Fraction
import paper
from paper import Refused

DAY, WEEK = 86400, 604800
CLOCK = ['tgd', 'af0', 'af1', 'af2']
METRES = '2 2.8 4 5.7 8 11.3 16 32 64 128 256 512 1024 2048 4096'.split()

# ---- the collector: the list of all accepted feeds, oldest first, searched backwards at each question

def check_satellite(satellite):
    if not 1 <= satellite <= 32:
        raise Refused(13, satellite)

class Collector:
    def __init__(self):
        self.feeds = []

    def feed(self, log, place, satellite):
        check_satellite(satellite)
        self.feeds.append((satellite, paper.read(paper.block_at(log, place))))

    # The latest record of a kind that has these values, fed for this satellite or for any.
    def latest(self, kind, satellite=None, **wanted):
        for fed_for, record in reversed(self.feeds):
            if record.kind == kind and satellite in (None, fed_for) and wanted.items() <= record.values.items():
                return record
        return None

    def set(self, satellite):
        check_satellite(satellite)
        records = [self.latest('subframe%d' % k, satellite) for k in (1, 2, 3)]
        if None in records:
            raise Refused(17, records.index(None) + 1)
        one, two, three = (record.values for record in records)
        if not one['iodc_low'] == two['iode'] == three['iode']:
            raise Refused(18, 0)
        if one['health'] >= 32:
            raise Refused(19, one['health'])
        return records

    def page(self, kind, **wanted):
        page = self.latest(kind, **wanted)
        if page is None:
            raise Refused(20, 0)
        return page

    def almanac(self, sv_id):
        check_satellite(sv_id)
        return self.page('almanac', sv_id=sv_id)

    def utc(self):
        return self.page('utc')

    # Whether a subframe 1, 2 or 3 of a satellite is held.
    def holds(self, satellite):
        return any(self.latest('subframe%d' % k, satellite) for k in (1, 2, 3))

    # The satellites whose set can be given, each with its subframe 1: smallest URA index first, equal indices by
    # smaller satellite number. Then, by number, the refusals of the others of which a subframe 1, 2 or 3 is held.
    def rank(self):
        given, refused = {}, {}
        for satellite in range(1, 33):
            try:
                given[satellite], _, _ = self.set(satellite)
            except Refused as refusal:
                if self.holds(satellite):
                    refused[satellite] = refusal
        order = sorted(given, key=lambda satellite: (given[satellite].values['ura'], satellite))
        return [(satellite, given[satellite]) for satellite in order], list(refused.items())

# Why a set is refused, in words.
def reason(refusal):
    return 'subframe %d not held' % refusal.detail if refusal.number == 17 else paper.PHRASES[refusal.number]

# ---- decimals and doubles

# A fraction as a decimal, every digit of it. The denominator is a power of two, so the digits end.
def decimal(value):
    whole, rest = divmod(abs(value), 1)
    digits = ''
    while rest:
        digit, rest = divmod(rest * 10, 1)
        digits += str(digit)
    return ('-' if value < 0 else '') + str(whole) + ('.' + digits if digits else '')

# The power of two at or below a fraction above 0.
def exponent_of(size):
    exponent = 0
    while size >= 2:
        size, exponent = size / 2, exponent + 1
    while size < 1:
        size, exponent = size * 2, exponent - 1
    return exponent

# The 64 bits of a fraction that is a double, as 16 digits: sign, exponent field and fraction field. Zero is plus zero.
# Python's own double must have the same.
def pattern(value):
    bits = 0
    if value:
        exponent = exponent_of(abs(value))
        fraction = (abs(value) / Fraction(2) ** exponent - 1) * 2 ** 52
        assert fraction.denominator == 1 and 1 <= exponent + 1023 <= 2046
        bits = (value < 0) * 2 ** 63 + (exponent + 1023) * 2 ** 52 + int(fraction)
    text = '%016x' % bits
    assert struct.pack('>d', float(value)).hex() == text
    return text

# The double nearest to a fraction above 0, by its distance to the double at or below it and to the next one.
def nearest(value):
    step = Fraction(2) ** (exponent_of(value) - 52)
    below = value // step * step
    above = below + step
    assert value - below != above - value
    return below if value - below < above - value else above

# ---- questions about a record

# The value of a field with a scale.
def scaled(record, field):
    return record.values[field.name] * field.scale

# Name, value and unit of each clock term of a subframe 1 record.
def clock_terms(record):
    paper.check_record(record)
    fields = {field.name: field for field in paper.fields_of(record.kind)}
    return [(name, scaled(record, fields[name]), fields[name].unit) for name in CLOCK]

# The metres of a subframe 1 record as the nearest double, or None where no prediction exists.
def accuracy(record):
    paper.check_record(record)
    index = record.values['ura']
    return None if index == 15 else nearest(Fraction(METRES[index]))

# The full leap week less the week, -128 to 127.
def week_difference(week, wnlsf):
    difference = (wnlsf - week % 256) % 256
    return difference - 256 if difference >= 128 else difference

# Hour, minute and second of a GPS week and second, by a UTC page.
def time_of_day(page, week, second):
    paper.check_record(page)
    values = page.values
    if week > 8191 or second >= WEEK:
        raise Refused(14, 0)
    if not 1 <= values['dn'] <= 7:
        raise Refused(15, values['dn'])
    difference = week_difference(week, values['wnlsf'])
    if difference == -128:
        raise Refused(16, 0)
    moment = (week + difference) * WEEK + values['dn'] * DAY
    now = week * WEEK + second
    utc = (now - values['dtls' if now < moment else 'dtlsf']) % DAY
    return utc // 3600, utc // 60 % 60, utc % 60

# Document 01's board examples of both parts.
def check_board():
    zeros, ones = bytes(32), bytes([1] * 32)
    assert paper.passes(zeros) and paper.passes(ones)
    for pair, source, parity in [('00', '1' + '0' * 23, '101010'), ('00', '001' + '0' * 21, '111011'),
                                 ('10', '0' * 24, '101001'), ('01', '0' * 24, '010110'),
                                 ('00', '10001011' + '0' * 16, '010010')]:
        assert paper.digits(paper.parity(paper.bits_of(pair), paper.bits_of(source))) == parity
    word = paper.word_with_fillers(bytes([1, 0]), paper.bits_of('0' * 21 + '1'), bytes(2))
    assert paper.digits(word) == '0' * 21 + '1' + '11' + '010100'
    for tgd in (-128, 127):
        assert paper.read(paper.write(paper.record_of('subframe1', tgd=tgd))).values['tgd'] == tgd
    assert [2000 + week_difference(2000, wnlsf) for wnlsf in (137, 81, 79, 80)] == [1929, 1873, 2127, 1872]
    page = paper.record_of('utc', dtls=18, dtlsf=18, wnlsf=137, dn=7)
    assert time_of_day(page, 2000, 0) == (23, 59, 42)
    example = bytes(5) + paper.write(paper.record_of('subframe1'))
    assert paper.listing(example) == ['place\tid\tcount\tpolarity', '5\t1\t0\tU']
