# What cannot be done, with its message, and calls with one command as arguments. The messages are stated by hand from
# the program's description. In data/ these two are to print ../errors.stdout and ../errors.stderr, and ../calls.stdout
# and ../calls.stderr:
#     lnav < errors.txt
#     while read -r line; do echo "# $line"; lnav $line < /dev/null; done < ../calls.txt
# Commands that can be done stand between the errors of errors.txt, and what is held is asked for after each part.
import logs
import subject
import words
from paper import GREATEST, bits_of
from subject import record_line, text_of

SV05, M8T = 'ublox-2008-sv05.log', 'ublox-m8t-sv03.log'
LINE = 4095  # the most bytes of a line
ZEROS = '0' * 32
MESSAGES = '''no such command, not a number, too many words, no such kind, no such field, cannot be read,
nothing is written, only `written` can be changed, not a bit 0 to 301, not 32 digits 0 or 1, the line is too long,
too many files'''
UTC = {'wnlsf': 137, 'dn': 7, 'dtls': 18, 'dtlsf': 18}

class Errors(subject.Subject):
    def __init__(self, name):
        super().__init__(name)
        self.errors = []
        self.recording(SV05)
        self.recording(M8T)
        self.make('example.log', logs.example())
        self.make('garbage.log', logs.garbage(self.recordings[M8T])[0])

    # Commands of which each prints this message and nothing else. They are given one by one, or in a text, parted by |.
    def fail(self, message, *commands):
        if len(commands) == 1 and '|' in commands[0]:
            commands = [command.strip() for command in commands[0].split('|')]
        for command in commands:
            self.do(command)
            self.errors.append('%s: %s' % (message, command[:LINE + 1]))

    # What was held before is held: the set of satellite 5, the UTC page and the written block with count 7.
    def ask_held(self):
        self.set(5, 'subframe1 count=17996\nsubframe2 count=17997\nsubframe3 count=17998')
        self.utc('utc count=73839')
        self.list('written', 'place id count polarity\n0 1 7 U')

# ---- errors.txt

def nothing_written(s):
    s.comment('nothing is written yet')
    s.fail('nothing is written', '''check written 0 | find written 0 | list written | read written 0 | words written 0 |
        feed written 0 5 | feed-all written 5 | invert written | flip written 0''')
    s.fail('not a number', 'check written x', 'feed written 0 x')

def hold(s):
    s.comment('three subframes, a UTC page and a written block: they are held from here on')
    for place in (300, 600, 900):
        s.feed(SV05, place, 5)
    s.feed(M8T, 22500, 3)
    s.write('subframe1', count=7)
    s.ask_held()

def lines(s):
    s.comment('empty lines, blanks and comments')
    for line in ('', ' \t '):
        s.do(line)
    for line in ('#', '#no blank', '  # blanks before it and\tin it  ', '# set 5'):
        s.do(line, line)
    utc, set_5 = s.utc(), s.set(5)
    for line in ('  utc', 'utc  ', '\tutc\t', 'utc\r', '\x01utc\x1f'):
        s.do(line, *utc)
    for line in ('set   5', '\tset\t5\r', 'set 005', 'set 000000000000000000000005'):
        s.do(line, *set_5)
    s.comment('lines of 4,095 bytes, and longer ones')
    s.do('#' * LINE, '#' * LINE)
    s.do('utc'.ljust(LINE), *utc)
    s.fail('the line is too long', '#' * (LINE + 1), 'utc'.ljust(LINE + 1), 'forget'.ljust(5000), 'x' * 10000,
           ' ' * (LINE + 1) + 'set 5')
    s.ask_held()

def commands(s):
    s.comment('no such command')
    s.fail('no such command', 'lookup | Set 5 | sets 5 | se 5 | feed-al example.log 5 | written | 5')
    s.fail('no such command', ' lookup 1  2 ', '\tlookup\r')
    s.comment('too many words')
    s.fail('too many words', '''check example.log 5 5 | find example.log 5 5 | list example.log 5 |
        read example.log 5 5 | words example.log 5 5 | invert written 5 | flip written 5 5 | feed example.log 5 5 5 |
        feed-all example.log 5 5 | set 5 5 | almanac 5 5 | utc 5 | clock 5 5 | accuracy 5 5 | rank 5 | forget 5 |
        run errors-itself.txt 5 | help 5 | write utc inverted dn=3 | clock subframe1 inverted |
        accuracy subframe1 ura=3 inverted | time 2000 0 utc inverted''')
    s.fail('too many words', 'word %s 5' % ZEROS)
    s.ask_held()

def numbers(s):
    s.comment('a number that is missing, or is none')
    s.fail('not a number', '''check example.log | find example.log | read example.log | words example.log |
        feed example.log | feed example.log 5 | feed-all example.log | flip written | set | almanac | clock |
        accuracy | time | time 2000''')
    for none in ('x', '-1', '+1', '1.5', '0x1', '1,000', '5x', str(GREATEST + 1), '1' + str(GREATEST)):
        s.fail('not a number', 'check example.log ' + none, 'set ' + none)
    s.fail('not a number', '''find example.log x | read example.log x | words example.log x | feed example.log x 5 |
        feed example.log 5 x | feed-all example.log x | flip written x | almanac x | clock x | accuracy x | time x 0 |
        time 2000 x''')
    s.comment('it is looked at before the log and before the words after it')
    s.fail('not a number', 'check missing.log x | feed missing.log 0 x | check example.log x 5 | set x 5')
    s.comment('the largest number')
    s.check('example.log', GREATEST, 'refused 3 %d' % GREATEST)
    s.set(GREATEST, 'refused 13 %d' % GREATEST)
    s.ask_held()

def values(s):
    s.comment('kinds and fields')
    s.fail('no such kind', 'write | write subframe4 | write Utc dn=3 | write dn=3')
    s.fail('no such field', '''write utc week=3 | write subframe1 dn=3 | write utc =3 | write utc Dn=3 |
        write utc dn=3 d=3 | clock subframe1 dn=3 | accuracy subframe1 dn=3 | time 2000 0 utc week=3''')
    s.comment('a value that is no number, or is not between -(2^63 - 1) and 2^63 - 1')
    for none in ('', 'x', '-', '--1', '+1', '1.5', '0x1', '3=3', str(2 ** 63), str(-2 ** 63), str(GREATEST + 1)):
        s.fail('not a number', 'write utc dn=' + none)
    s.fail('not a number', '''write utc x | clock subframe1 tgd=x | accuracy subframe1 x |
        time 2000 0 utc dn=x''')
    s.comment('the ends of that range are refused by 11, and the block that was written before stays')
    for dn in (2 ** 63 - 1, -2 ** 63 + 1):
        s.write('utc', dn=dn, expect='refused 11 0')
    s.ask_held()

# Records on the line of a question that takes another kind.
def other_kinds(s):
    s.comment('clock and accuracy take a subframe 1, time a UTC page; the kind comes before a value beyond its field')
    s.fail('no such kind', '''clock utc dn=3 | accuracy subframe2 | time 2000 0 subframe1 | clock other id=300 |
        accuracy almanac | clock subframe3 1 2 3 | time 8192 604800 other''')
    s.comment('a value of a wrong form comes before a word too many, and that before the kind')
    s.fail('not a number', '''clock utc dn=x | accuracy subframe2 x | time 2000 0 subframe1 week= | time x 0 subframe1 |
        write utc dn=x inverted 5 | clock utc dn=x inverted | time 2000 0 utc dn=x inverted''')
    s.fail('no such field', '''clock utc week=3 | accuracy subframe2 dn=3 | time 2000 0 subframe1 dn=3 |
        write utc week=3 inverted 5 | clock subframe1 dn=3 inverted''')
    s.fail('too many words', '''clock utc inverted | accuracy subframe2 iode=3 inverted |
        time 2000 0 subframe1 inverted | clock other id=300 inverted''')
    s.ask_held()

def files(s):
    s.comment('files that are not there')
    s.fail('cannot be read', '''check missing.log 0 | find missing.log 0 | list missing.log | read missing.log 0 |
        words missing.log 0 | feed missing.log 0 5 | feed-all missing.log 5 | run missing.txt | list | run''')
    s.comment('a file that runs itself')
    run_itself(s)
    s.comment('a file with an error, whose last line has no line feed; an empty file')
    s.do('run errors-unended.txt', '# a file', record_line(s.collector.utc()))
    s.errors.append('no such command: lookup')
    s.do('run empty.log')
    s.ask_held()

# Eight inputs at once, and no more: seven files below standard input, or eight. Then each file goes on after its
# command.
def run_itself(s, files=7):
    s.do('run errors-itself.txt', *['# in'] * files, *['# out'] * files)
    s.errors.append('too many files: run errors-itself.txt')

def changes(s):
    s.comment('words and changes')
    for bits in ('', ' 0012', ' ' + ZEROS[1:], ' ' + ZEROS + '0', ' ' + ZEROS[1:] + '2'):
        s.fail('not 32 digits 0 or 1', 'word' + bits)
    s.fail('only `written` can be changed', 'invert | invert example.log | flip example.log 0 | invert Written')
    s.fail('not a bit 0 to 301', 'flip written 302', 'flip written %d' % GREATEST)
    s.ask_held()
    s.flip(301)
    s.invert()
    s.check('written', 0, 'refused 5 10 a word breaks the table syndrome 000001 equations 30')
    s.comment('a number alone is for the field of its place, also after a name')
    page = s.write('utc', reserved=3, wnlsf=137)
    s.do('write utc wnlsf=137 3', *page)
    s.do('write utc -0 03 wnlsf=0137', *page)

# The last line has no line feed.
def forgotten(s):
    s.comment('nothing is held after forget, and the block that was written last stays')
    s.forget()
    s.set(5, 'refused 17 1')
    s.utc('refused 20 0')
    s.check('written', 0, 'accepted')

def errors():
    s = Errors('errors')
    for part in (nothing_written, hold, lines, commands, numbers, values, other_kinds, files, changes, forgotten):
        part(s)
    assert {error.split(':')[0] for error in s.errors} == set(MESSAGES.replace('\n', ' ').split(', '))
    return s

# ---- calls.txt: nothing is held from one call to the next

CALLS = [
    lambda s: s.check(SV05, 0, 'accepted'),
    lambda s: s.check(SV05, 1, 'refused 4 1'),
    lambda s: s.check('garbage.log', 1283, 'refused 5 4 a word breaks the table syndrome 000111 equations 28 29 30'),
    lambda s: s.find('example.log', 0, 'found 5\npart bytes=302 polarity=U subframe=1 count=0'),
    lambda s: s.find('example.log', 6, 'refused 10 6\npart bytes=0'),
    lambda s: s.list('example.log', 'place id count polarity\n5 1 0 U'),
    lambda s: s.read(SV05, 300, 'kind subframe1\ncount 17996'),
    lambda s: s.read('example.log', 6, 'refused 3 6'),
    lambda s: s.words(SV05, 300, subject.ten_words({})),
    lambda s: s.word(bits_of(ZEROS), 'passes %s syndrome 000000' % ZEROS[:24]),
    lambda s: s.word(bits_of(ZEROS[:31] + '1'), 'fails %s syndrome 000001 equations 30' % ZEROS[:24]),
    lambda s: s.write('subframe1', count=100799),
    lambda s: s.write('utc', inverted=True, **UTC),
    lambda s: s.write('almanac', sv_id=33, expect='refused 11 0'),
    lambda s: s.feed(SV05, 300, 5, 'feed 300 5 accepted'),
    lambda s: s.feed_all('example.log', 33, 'feed 5 33 refused 13 33\nrefused 10 305'),
    lambda s: s.set(5, 'refused 17 1'),
    lambda s: s.almanac(3, 'refused 20 0'),
    lambda s: s.utc('refused 20 0'),
    lambda s: s.clock(tgd=-1, af0=1, expect='tgd -0.0000000004656612873077392578125 s be00000000000000'),
    lambda s: s.clock(5, 'refused 17 1'),
    lambda s: s.accuracy(ura=1),
    lambda s: s.accuracy(ura=15, expect='no prediction'),
    lambda s: s.time(2000, 0, 'utc', '23:59:42', **UTC),
    lambda s: s.time(2000, 0, expect='refused 20 0'),
    lambda s: s.rank('satellite ura metres count issue'),
    lambda s: s.do('forget'),
    lambda s: s.do('help', *words.HELP.splitlines()),
    lambda s: run_itself(s, 8),
    lambda s: s.fail('no such command', 'lookup 5'),
    lambda s: s.fail('not a number', 'set x'),
    lambda s: s.fail('too many words', 'utc 5'),
    lambda s: s.fail('no such kind', 'write subframe4'),
    lambda s: s.fail('no such field', 'write utc week=3'),
    lambda s: s.fail('cannot be read', 'run missing.txt'),
    lambda s: s.fail('nothing is written', 'check written 0'),
    lambda s: s.fail('only `written` can be changed', 'invert example.log'),
    lambda s: s.fail('not 32 digits 0 or 1', 'word 0012'),
]

def calls():
    commands, output, messages = [], [], []
    for call in CALLS:
        s = Errors('calls')
        call(s)
        command, = s.commands[1:]
        commands.append(command)
        output += ['# ' + command] + s.output
        messages += s.errors
    return commands, output, messages

# The content of each file that is made, by its name in the crate's folder.
def files_of():
    s, (commands, output, messages) = errors(), calls()
    return {
        'data/errors.txt': text_of(s.commands)[:-1],
        'data/errors-itself.txt': text_of(['# in', 'run errors-itself.txt', '# out']),
        'data/errors-unended.txt': text_of(['# a file', 'lookup', 'utc'])[:-1],
        'errors.stdout': text_of(s.output),
        'errors.stderr': text_of(s.errors),
        'calls.txt': text_of(commands),
        'calls.stdout': text_of(output),
        'calls.stderr': text_of(messages),
    }
