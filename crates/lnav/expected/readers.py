# The readers of the course. Each does the commands of a file as lnav would: one is right, and for each mistake of
# docs/COURSE.md there is one that differs from it in one method. Written from the papers apart from paper.py, of which
# the table, the fields and the phrases are used. Every block is fed for one satellite, whoever sent it.
import paper
from paper import Record, Refused, digits, number, windows_of
from subject import field_line, lines_of, record_line, syndrome_text

# ---- the reader that is right

class Reader:
    # A function gives the bytes of a log by its name.
    def __init__(self, log_of):
        self.log_of, self.held = log_of, {}  # held: the latest subframes 1, 2 and 3 by their number

    # The two bits before a word.
    def pair_before(self, window):
        return window[:2]

    def word_source(self, window):
        return bytes(bit ^ self.pair_before(window)[1] for bit in window[2:26])

    # The failures of equations 25 to 30.
    def word_syndrome(self, window):
        parity = paper.parity(self.pair_before(window), self.word_source(window))
        return bytes(int(parity[k] != window[26 + k]) for k in range(6))

    def word_passes(self, window):
        return 1 not in self.word_syndrome(window)

    # The 240 source bits of a block, each word by its own Q.
    def source(self, block):
        return b''.join(map(self.word_source, windows_of(block)))

    # The 240 bits that the record is read from.
    def message(self, block):
        return self.source(block)

    def start_pair_stands(self, pair):
        return pair[0] == pair[1]

    def preamble(self, block):
        return self.source(block)[:8]

    # Whether word k ends like the start pair.
    def ends_alike(self, block, k):
        return block[30 * k:30 * k + 2] == block[:2]

    # Number and detail of each check that refuses the block at a place, in document 01's order.
    def refusals(self, log, place):
        block = log[place:place + 302]
        if len(log) > 65536:
            yield 1, len(log)
        if len(block) < 302:
            yield 3, place
        yield from ((2, place + i) for i, byte in enumerate(block) if byte > 1)
        if not self.start_pair_stands(block[:2]):
            yield 4, place
        yield from ((5, k) for k, window in enumerate(windows_of(block), 1) if not self.word_passes(window))
        if self.preamble(block) != paper.PREAMBLE:
            yield 6, 0
        yield from ((7, k) for k in (2, 10) if not self.ends_alike(block, k))
        source = self.source(block)
        subframe, count = number(source[43:46]), number(source[24:41])
        if subframe in (0, 6, 7):
            yield 8, subframe
        if count > 100799:
            yield 9, count

    def block_at(self, log, place):
        refusal = next(self.refusals(log, place), None)
        if refusal:
            raise Refused(*refusal)
        return log[place:place + 302]

    # Whether a field is two's complement.
    def is_signed(self, field):
        return field.signed

    # The bits of an almanac page with its af0 in one piece: the last 14 are af1 and af0 low.
    def almanac_bits(self, bits):
        return bits[:-14] + bits[-3:] + bits[-14:-3]

    # The record of an accepted block.
    def read(self, block):
        source = self.message(block)
        kind = paper.kind_of(number(source[43:46]), number(source[48:50]), number(source[50:56]))
        bits, values, start = source[8:46] + source[48:238], {}, 0
        if kind == 'almanac':
            bits = self.almanac_bits(bits)
        for field in paper.fields_of(kind):
            value = number(bits[start:start + field.width])
            values[field.name] = paper.signed(value, field.width) if self.is_signed(field) else value
            start += field.width
        return Record(kind, values)

    def feed(self, record):
        if record.values['subframe'] <= 3:
            self.held[record.values['subframe']] = record

    # The number of subframe 1 that is compared with IODE.
    def issue(self, one):
        return one['iodc_low']

    def one_issue(self, one, two, three):
        return self.issue(one) == two['iode'] == three['iode']

    # The three records, or the refusal.
    def set(self):
        missing = [k for k in (1, 2, 3) if k not in self.held]
        if missing:
            raise Refused(17, missing[0])
        records = [self.held[k] for k in (1, 2, 3)]
        if not self.one_issue(*(record.values for record in records)):
            raise Refused(18, 0)
        if self.has_bad_health():
            raise Refused(19, records[0].values['health'])
        return records

    def has_bad_health(self):
        return 1 in self.held and self.held[1].values['health'] >= 32

    # ---- the commands

    # A refusal 5 has the syndrome of the word that it names.
    def check_lines(self, log, place):
        bits, start = self.log_of(log), int(place)
        try:
            self.block_at(bits, start)
        except Refused as refusal:
            if refusal.number != 5:
                raise
            window = windows_of(bits[start:start + 302])[refusal.detail - 1]
            return [str(refusal) + syndrome_text(self.word_syndrome(window))]
        return ['accepted']

    def list_lines(self, name):
        log, lines, place = self.log_of(name), ['place\tid\tcount\tpolarity'], 0
        while len(log) - place >= 302:
            accepted = next(self.refusals(log, place), None) is None
            if accepted:
                source = self.source(log[place:place + 302])
                numbers = (place, number(source[43:46]), number(source[24:41]), 'UI'[log[place]])
                lines.append('%d\t%d\t%d\t%s' % numbers)
            place += 300 if accepted else 1
        return lines

    def read_lines(self, log, place):
        record = self.read(self.block_at(self.log_of(log), int(place)))
        return ['kind ' + record.kind] + [field_line(record, field) for field in paper.fields_of(record.kind)]

    def word_line(self, window):
        verdict = 'passes' if self.word_passes(window) else 'fails'
        return verdict + ' ' + digits(self.word_source(window)) + syndrome_text(self.word_syndrome(window))

    def words_lines(self, log, place):
        windows = windows_of(self.log_of(log)[int(place):int(place) + 302])
        return ['%d %s' % (k, self.word_line(window)) for k, window in enumerate(windows, 1)]

    def word_lines(self, bits):
        return [self.word_line(paper.bits_of(bits))]

    def feed_lines(self, log, place, satellite):
        def answer():
            self.feed(self.read(self.block_at(self.log_of(log), int(place))))
            return ['accepted']
        return ['feed %s %s %s' % (place, satellite, lines_of(answer)[0])]

    def set_lines(self, _):
        return [record_line(record) for record in self.set()]

    def forget_lines(self):
        self.held.clear()
        return []

    # The lines that a command prints.
    def do(self, command):
        name, *given = command.split()
        return [command] if name.startswith('#') else lines_of(lambda: getattr(self, name + '_lines')(*given))

    def run(self, commands):
        return [line for command in commands for line in self.do(command)]

# ---- the readers that are wrong

class DataBitsAsReceived(Reader):
    def message(self, block):
        return b''.join(window[2:26] for window in windows_of(block))

class UprightPreambleOnly(Reader):
    def preamble(self, block):
        return block[2:10]

# Clears the row on bad health. The set that was finished before is still given.
class FinishedSetSurvives(Reader):
    finished = None

    def set(self):
        if self.has_bad_health():
            self.held.clear()
        try:
            self.finished = super().set()
        except Refused:
            if not self.finished:
                raise
        return self.finished

# Clears the row on bad health, and forgets with it why there is no set.
class RowCleared(Reader):
    def feed(self, record):
        super().feed(record)
        if self.has_bad_health():
            self.held.clear()

class TenBitsOfIodc(Reader):
    def issue(self, one):
        return 256 * one['iodc_high'] + one['iodc_low']

class EExtended(Reader):
    def is_signed(self, field):
        return field.signed or field.name == 'e'

class RootAExtended(Reader):
    def is_signed(self, field):
        return field.signed or field.name == 'root_a'

# The three bits after af0 high are the first three of af1.
class Af0Adjacent(Reader):
    def almanac_bits(self, bits):
        return bits[:-11] + bits[-14:-3]

class LastBitBeforeUnread(Reader):
    def pair_before(self, window):
        return bytes([window[0], 0])

class InvertedRefused(Reader):
    def start_pair_stands(self, pair):
        return pair == bytes(2)

class ThirdIssueUnread(Reader):
    def one_issue(self, one, two, three):
        return self.issue(one) == two['iode']

class NoIssueRead(Reader):
    def one_issue(self, one, two, three):
        return True

# The reader that goes with the writer of zero fillers: it takes what that one writes.
class EndingsUnread(Reader):
    def ends_alike(self, block, k):
        return True

# ---- the writer that is wrong: the block of a block's source bits, with both fillers of words 2 and 10 written as 0

def with_zero_fillers(block):
    source, written = paper.source_of(block), bytes(2)
    for k in range(1, 11):
        bits = source[24 * k - 24:24 * k]
        written += paper.word_of(written[-2:], bits[:22] + bytes(2) if k in (2, 10) else bits)
    return written
