# A subject: a file of commands for the program, and the lines that they are to print. Each method stands for a command:
# it works the answer out by paper.py and questions.py, and keeps the collector and the written block as the program
# would. One process does the subjects in a row. Each begins with an empty collector, and asks for the written block
# only after it has written one, because an earlier subject's stays.
#
# Every method but comment and do takes `expect`, the answer in words of the subject's own. Each line of it must agree
# with a line of the answer, in order: the words without = are that line's first words, and those with = are among its
# others. So 'refused 5 3' agrees with the whole refusal, and 'subframe1 count=18001' with a record that has that count.
# A word .. stands for any one word, so 'fails .. syndrome 000001' leaves the source bits out. Where they do not agree
# the script stops. It also stops where paper.py and second_way.py differ in the syndrome of a word.
import os
import paper
import questions
import second_way
from paper import Refused

DATA = os.path.join(os.path.dirname(os.path.abspath(__file__)), os.pardir, 'data')

class Differs(Exception):
    pass

def recording(name):
    with open(os.path.join(DATA, name), 'rb') as file:
        return file.read()

def text_of(lines):
    return ''.join(line + '\n' for line in lines).encode()

def agrees(stated, line):
    words, others = stated.split(), line.split()
    first = [word for word in words if '=' not in word]
    if len(first) > len(others) or any(word not in ('..', other) for word, other in zip(first, others)):
        return False
    return {word for word in words if '=' in word} <= set(others)

# Whether each stated line agrees with a line of the answer, in order.
def agree(stated, answer):
    lines = iter(answer)
    return all(any(agrees(line, other) for other in lines) for line in stated)

# The ten lines of `words`, as far as they are stated: these words fail with these syndromes, and the others pass.
def ten_words(failing):
    return '\n'.join('%d fails .. syndrome %s' % (k, failing[k]) if k in failing else '%d passes .. syndrome 000000' % k
                     for k in range(1, 11))

# The answer of a function, or the line of its refusal.
def lines_of(answer):
    try:
        return answer()
    except Refused as refusal:
        return [str(refusal)]

# The record that is given to a method, and the words for it on a line. Given is a record, which stands on the line with
# all its numbers, or the words themselves, a kind and numbers by place; then come the numbers by name.
def record_and_words(given, named):
    if isinstance(given, paper.Record):
        given = ' '.join([given.kind] + [str(value) for value in given.values.values()])
    kind, *numbers = given.split()
    words = ' '.join([given] + ['%s=%d' % value for value in named.items()])
    return paper.record_of(kind, *map(int, numbers), **named), words

def record_line(record):
    return ' '.join([record.kind] + ['%s=%d' % value for value in record.values.items()])

def field_line(record, field):
    line = '%s %d' % (field.name, record.values[field.name])
    if field.scale is None:
        return line
    return '%s %s %s' % (line, questions.decimal(questions.scaled(record, field)), field.unit)

# The words for the six bits of a syndrome, with the numbers of the equations that failed.
def syndrome_text(bits):
    failed = [' %d' % equation for equation, bit in enumerate(bits, 25) if bit]
    return ' syndrome ' + paper.digits(bits) + (' equations' + ''.join(failed) if failed else '')

# The same of a window, worked out two ways.
def syndrome_of(window):
    bits = paper.syndrome(window)
    assert second_way.syndrome_by_columns(window) == paper.digits(bits), paper.digits(window)
    return syndrome_text(bits)

def word_line(window):
    verdict = 'passes' if paper.passes(window) else 'fails'
    return '%s %s%s' % (verdict, paper.digits(paper.source_of_word(window)), syndrome_of(window))

# The block check. A refusal 5 has the syndrome of the word that its detail names.
def check_line(log, place):
    try:
        paper.block_at(log, place)
    except Refused as refusal:
        if refusal.number != 5:
            return str(refusal)
        return str(refusal) + syndrome_of(paper.windows_of(log[place:place + 302])[refusal.detail - 1])
    return 'accepted'

def clock_lines(record):
    return ['%s %s %s %s' % (name, questions.decimal(value), unit, questions.pattern(value))
            for name, value, unit in questions.clock_terms(record)]

def accuracy_lines(record):
    metres = questions.accuracy(record)
    if metres is None:
        return ['no prediction']
    return ['metres %s m %s' % (questions.decimal(metres), questions.pattern(metres))]

# A satellite of the ranking, by its subframe 1.
def rank_line(satellite, record):
    values = record.values
    metres = [*questions.METRES, 'no prediction'][values['ura']]
    return '%d\t%d\t%s\t%d\t%d' % (satellite, values['ura'], metres, values['count'], values['iodc_low'])

class Subject:
    def __init__(self, name):
        self.name, self.commands, self.output = name, [], []
        self.answers = {}                    # the latest answer to each command
        self.recordings, self.made = {}, {}  # the files of data/ that it uses and those that it makes
        self.written = None
        self.forget()

    # ---- logs

    # The bytes of a recording of data/.
    def recording(self, name):
        self.recordings[name] = recording(name)
        return self.recordings[name]

    # Makes a log of data/.
    def make(self, name, log):
        assert self.made.setdefault(name, log) == log and name != 'written'
        return name

    # The bytes of a log that the program reads: at most 65,537, which are too many.
    def log(self, name):
        return self.written if name == 'written' else {**self.recordings, **self.made}[name][:paper.MOST + 1]

    # ---- lines

    def comment(self, text):
        self.do('# ' + text, '# ' + text)

    # A command and the lines that it is to print.
    def do(self, command, *lines):
        self.commands.append(command)
        self.output += lines
        self.answers[command] = lines

    def answer(self, command, lines, expect):
        if expect is not None and not agree(expect.splitlines(), lines):
            raise Differs('%s: %s\nstated: %s\nworked out: %s' % (self.name, command, expect, '\n'.join(lines)))
        self.do(command, *lines)
        return lines

    # ---- commands about a log

    def check(self, log, place, expect=None):
        return self.answer('check %s %d' % (log, place), [check_line(self.log(log), place)], expect)

    # The part of the log that is found has a line of its own. It is empty where the search is refused.
    def find(self, log, place, expect=None):
        try:
            found = paper.find(self.log(log), place)
            block = paper.block_at(self.log(log), found)
            numbers = (len(block), paper.polarity(block), *paper.subframe_and_count(block))
            lines = ['found %d' % found, 'part bytes=%d polarity=%s subframe=%d count=%d' % numbers]
        except Refused as refusal:
            lines = [str(refusal), 'part bytes=0']
        return self.answer('find %s %d' % (log, place), lines, expect)

    def list(self, log, expect=None):
        return self.answer('list ' + log, paper.listing(self.log(log)), expect)

    def read(self, log, place, expect=None):
        def answer():
            record = paper.read(paper.block_at(self.log(log), place))
            return ['kind ' + record.kind] + [field_line(record, field) for field in paper.fields_of(record.kind)]
        return self.answer('read %s %d' % (log, place), lines_of(answer), expect)

    def words(self, log, place, expect=None):
        def answer():
            windows = paper.windows_of(paper.bits_at(self.log(log), place))
            return ['%d %s' % (k, word_line(window)) for k, window in enumerate(windows, 1)]
        return self.answer('words %s %d' % (log, place), lines_of(answer), expect)

    def word(self, window, expect=None):
        return self.answer('word ' + paper.digits(window), [word_line(window)], expect)

    # ---- the written block

    # Writes the record that is given.
    def write(self, given, inverted=False, expect=None, **named):
        record, words = record_and_words(given, named)
        def answer():
            self.written = paper.write(record, int(inverted))
            return [paper.digits(self.written)]
        return self.answer('write ' + words + (' inverted' if inverted else ''), lines_of(answer), expect)

    def invert(self, expect=None):
        self.written = paper.inverse(self.written)
        return self.answer('invert written', [paper.digits(self.written)], expect)

    def flip(self, index, expect=None):
        self.written = paper.flipped(self.written, index)
        return self.answer('flip written %d' % index, [paper.digits(self.written)], expect)

    # ---- the collector

    def feed_lines(self, log, place, satellite):
        def answer():
            self.collector.feed(self.log(log), place, satellite)
            return ['accepted']
        return ['feed %d %d %s' % (place, satellite, line) for line in lines_of(answer)]

    def feed(self, log, place, satellite, expect=None):
        return self.answer('feed %s %d %d' % (log, place, satellite), self.feed_lines(log, place, satellite), expect)

    def feed_all(self, log, satellite, expect=None):
        places, end = paper.walk(self.log(log))
        lines = [line for place in places for line in self.feed_lines(log, place, satellite)]
        return self.answer('feed-all %s %d' % (log, satellite), lines + [str(end)], expect)

    def set(self, satellite, expect=None):
        def answer():
            return [record_line(record) for record in self.collector.set(satellite)]
        return self.answer('set %d' % satellite, lines_of(answer), expect)

    def almanac(self, sv_id, expect=None):
        def answer():
            return [record_line(self.collector.almanac(sv_id))]
        return self.answer('almanac %d' % sv_id, lines_of(answer), expect)

    def utc(self, expect=None):
        def answer():
            return [record_line(self.collector.utc())]
        return self.answer('utc', lines_of(answer), expect)

    def rank(self, expect=None):
        ranked, refused = self.collector.rank()
        lines = [rank_line(*one) for one in ranked]
        lines += ['%d\t%s' % (satellite, questions.reason(refusal)) for satellite, refusal in refused]
        return self.answer('rank', ['satellite\tura\tmetres\tcount\tissue'] + lines, expect)

    # The written block stays.
    def forget(self):
        self.collector = questions.Collector()
        self.do('forget')

    # ---- questions about a held record, or about the record that is given

    # Asks about the subframe 1 record of a satellite's set, where a number is given, or about the record that is given.
    def ask(self, question, lines, given, named, expect):
        record, words = (None, str(given)) if isinstance(given, int) else record_and_words(given, named)
        def answer():
            return lines(record or self.collector.set(given)[0])
        return self.answer(question + ' ' + words, lines_of(answer), expect)

    def clock(self, given='subframe1', expect=None, **named):
        return self.ask('clock', clock_lines, given, named, expect)

    def accuracy(self, given='subframe1', expect=None, **named):
        return self.ask('accuracy', accuracy_lines, given, named, expect)

    # By the held UTC page, or by the page that is given.
    def time(self, week, second, given=None, expect=None, **named):
        page, words = record_and_words(given or 'utc', named) if given or named else (None, '')
        def answer():
            return ['%02d:%02d:%02d' % questions.time_of_day(page or self.collector.utc(), week, second)]
        return self.answer(('time %d %d %s' % (week, second, words)).rstrip(), lines_of(answer), expect)
