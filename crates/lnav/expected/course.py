# The nine logs of docs/COURSE.md: a file of commands for each, which the subject's own file runs. Stated by hand from
# document 01: what is right of every block and every set, and what each wrong reader says otherwise. The script stops
# where the right reader of readers.py says anything else than paper.py, where a wrong one says what is right, and where
# docs/COURSE.md quotes what is not said (quotes.py), also of the subject support, or does not have its table.
import course_logs
import gpsdecode
import paper
import quotes
import readers
import subject
import support
from subject import agree, agrees

# What is right of each log: the answer of the check at place 0; then of each block the place, the polarity, fields, and
# the answer for the set after it was fed, which is a refusal, or the issue and the counts. The numbers of recorded
# fields are gpsdecode's; written fields have the numbers that were asked for.
BY_HAND = {
    # One issue, 68: the third block completes the set.
    'data-bits': '''accepted
0 U subframe1 count=85871 week=538 health=0 iodc_high=0 iodc_low=68: refused 17 2
300 U subframe2 count=85872 iode=68 e=109342428 root_a=2702011768: refused 17 3
600 U subframe3 count=85873 iode=68: given 68 85871 85872 85873''',
    # The log begins with the bits 1 and 0. Its first block has its start pair at 35, and two blocks make no set.
    'mid-stream': '''refused 4 0
35 I subframe1 count=18001 week=457 health=0 iodc_high=0 iodc_low=48: refused 17 2
335 I subframe2 count=18002 iode=48 e=75265070 root_a=2701965775: refused 17 3''',
    # Health 32 is the first of six bits alone. The set stays refused until a subframe 1 has that bit clear.
    'health': '''accepted
0 U subframe1 count=18001 week=457 health=0 iodc_high=0 iodc_low=48: refused 17 2
300 U subframe2 count=18002 iode=48 e=75265070 root_a=2701965775: refused 17 3
600 U subframe3 count=18003 iode=48: given 48 18001 18002 18003
900 U subframe1 count=18006 week=457 health=32 iodc_high=0 iodc_low=48: refused 19 32
1200 U subframe2 count=18007 iode=48 e=75265070 root_a=2701965775: refused 19 32
1500 U subframe3 count=18008 iode=48: refused 19 32''',
    # IODC is 256 + 48. Its low eight bits are IODE.
    'iodc': '''accepted
0 U subframe1 count=18006 week=457 health=0 iodc_high=1 iodc_low=48: refused 17 2
300 U subframe2 count=18007 iode=48 e=75265070 root_a=2701965775: refused 17 3
600 U subframe3 count=18008 iode=48: given 48 18006 18007 18008''',
    # No subframe 1 comes. af0 is 8 * 34 + 2 and 8 * 30 + 5.
    'almanac': '''accepted
0 U subframe2 count=18012 iode=48 e=75265070 root_a=2701965775: refused 17 1
300 U subframe3 count=18013 iode=48: refused 17 1
600 U almanac count=18014 sv_id=26 e=40210 root_a=10554505 af0=274 af1=2: refused 17 1
900 U almanac count=18015 sv_id=3 e=22238 root_a=10554626 af0=245 af1=1: refused 17 1''',
    'word-before': '''accepted
0 U subframe1 count=73766 week=69 health=0 iodc_high=0 iodc_low=94: refused 17 2
300 U subframe2 count=73767 iode=94 e=26888654 root_a=2702062248: refused 17 3
600 U subframe3 count=73768 iode=94: given 94 73766 73767 73768''',
    'inverted': '''accepted
0 I subframe1 count=17996 week=457 health=0 iodc_high=0 iodc_low=47: refused 17 2
300 I subframe2 count=17997 iode=47 e=75271652 root_a=2701966485: refused 17 3
600 I subframe3 count=17998 iode=47: given 47 17996 17997 17998''',
    # After 900 subframe 1 alone is of issue 48, after 1200 subframe 3 alone is of issue 47.
    'cutover': '''accepted
0 U subframe1 count=17996 week=457 health=0 iodc_high=0 iodc_low=47: refused 17 2
300 U subframe2 count=17997 iode=47 e=75271652 root_a=2701966485: refused 17 3
600 U subframe3 count=17998 iode=47: given 47 17996 17997 17998
900 U subframe1 count=18001 week=457 health=0 iodc_high=0 iodc_low=48: refused 18 0
1200 U subframe2 count=18002 iode=48 e=75265070 root_a=2701965775: refused 18 0
1500 U subframe3 count=18003 iode=48: given 48 18001 18002 18003''',
    # Word 2 of the first block ends unlike its start pair. The second block brings its own, so it stands at 302.
    'fillers': '''refused 7 2
302 U subframe1 count=18001 week=457 health=0 iodc_high=0 iodc_low=48: refused 17 2''',
}
# The places of the accepted blocks that are read, and what is asked of the block at place 0 before any is fed.
READ = {'data-bits': [300], 'mid-stream': [35, 335], 'health': [900, 1200, 1500], 'iodc': [0],
        'almanac': [0, 300, 600, 900], 'inverted': [0, 300], 'fillers': [302]}
BEFORE = {'word-before': ['words'], 'fillers': ['words', 'read']}

COUNTS = 'subframe1 count=%d\nsubframe2 count=%d\nsubframe3 count=%d'
NONE_FOUND = 'place id count polarity\nfeed %d 5 refused %s'
# Each mistake, in the order of the lessons: its reader, its log, and lines stated by hand that this reader says in
# their order and the right one does not.
MISTAKES = [
    # Word 6 has the first eight bits of e: 6 is read as 249, which adds 243 * 2^24.
    ('DataBitsAsReceived', 'data-bits', 'kind subframe2\ncount 85872\niode 68\ne 4186205916\nroot_a 2702011768'),
    # Words 3 and 8 are inverted, word 2 is not: 1023 - 457, 63 - 0, 3 - 0 and 255 - 47.
    ('DataBitsAsReceived', 'inverted', 'count 17996\nweek 566\nhealth 63\niodc_high 3\niodc_low 208'),
    ('UprightPreambleOnly', 'mid-stream', NONE_FOUND % (35, '6 0')),
    ('FinishedSetSurvives', 'health', 'feed 1500 5 accepted\n' + COUNTS % (18001, 18002, 18003)),
    ('RowCleared', 'health', 'feed 900 5 accepted\nrefused 17 1'),
    ('TenBitsOfIodc', 'iodc', 'feed 600 5 accepted\nrefused 18 0'),
    # 40210 - 2^16.
    ('EExtended', 'almanac', 'sv_id 26\ne -25326\nroot_a 10554505\naf0 274\naf1 2'),
    # 2701965775 - 2^32.
    ('RootAExtended', 'almanac', 'count 18012\ne 75265070\nroot_a -1593001521'),
    # The first three bits of af1, 2, are 000: 8 * 34.
    ('Af0Adjacent', 'almanac', 'sv_id 26\ne 40210\nroot_a 10554505\naf0 272\naf1 2'),
    # Word 2 has Q = 1. Taken as 0, it is as if Q were flipped: the equations of column Q fail.
    ('LastBitBeforeUnread', 'word-before', 'refused 5 2 a word breaks the table syndrome 010101 equations 26 28 30\n'
     + NONE_FOUND % (0, '5 2')),
    ('InvertedRefused', 'inverted', 'refused 4 0\n' + NONE_FOUND % (0, '4 0')),
    ('ThirdIssueUnread', 'cutover', 'feed 1200 5 accepted\n' + COUNTS % (18001, 18002, 17998)),
    ('NoIssueRead', 'cutover', 'feed 900 5 accepted\n' + COUNTS % (18001, 17997, 17998)),
    ('EndingsUnread', 'fillers', 'accepted\n0 1 18001 U\n302 1 18001 U\nkind subframe1\nweek 457'),
]
# The readers that find no block: their listing is the header alone.
SILENT = ('UprightPreambleOnly', 'LastBitBeforeUnread', 'InvertedRefused')

# What the set is to say.
def set_stated(answer):
    if answer.startswith('refused'):
        return answer
    _, issue, one, two, three = answer.split()
    lines = 'subframe1 count=%s iodc_low=%s\nsubframe2 count=%s iode=%s\nsubframe3 count=%s iode=%s'
    return lines % (one, issue, two, issue, three, issue)

# The commands for a log, as a subject of their own.
def lesson(name, log):
    s = subject.Subject('course-' + name)
    file = s.make(s.name + '.log', log)
    check, *blocks = BY_HAND[name].splitlines()
    s.comment(file)
    s.check(file, 0, check)
    blocks = [(int(block.split()[0]), *block.split(': ')) for block in blocks]
    lines = s.list(file)
    assert [int(line.split()[0]) for line in lines[1:]] == [place for place, _, _ in blocks]
    for question in BEFORE.get(name, []):
        getattr(s, question)(file, 0)
    for place, fields, answer in blocks:
        block = log[place:place + 302]
        record = subject.record_line(paper.read(block))
        assert agrees(fields, '%d %s %s' % (place, paper.polarity(block), record)), fields
        if place in READ.get(name, []):
            s.read(file, place)
        s.feed(file, place, 5, 'feed %d 5 accepted' % place)
        s.set(5, set_stated(answer))
    assert readers.Reader(s.log).run(s.commands) == s.output
    return s

# What each mistake's reader says of its log, by the words of the script wrong.py.
def wrong_outputs(lessons):
    outputs = {}
    for reader, name, stated in MISTAKES:
        s = lessons[name]
        output = getattr(readers, reader)(s.log).run(s.commands)
        if agree(stated.splitlines(), s.output) or not agree(stated.splitlines(), output):
            raise subject.Differs('%s: %s\nstated: %s\nsaid: %s' % (s.name, reader, stated, '\n'.join(output)))
        assert (reader in SILENT) == (not any(line.endswith(('\tU', '\tI')) for line in output))
        outputs['%s %s.txt' % (reader, s.name)] = output
    return outputs

def build(s):
    recordings = {name: s.recording(name) for name in (course_logs.SV05, course_logs.NOVATEL, course_logs.M8T)}
    logs = course_logs.logs_of(recordings)
    course_logs.said_of_all(logs, recordings)
    lessons = {name: lesson(name, log) for name, log in logs.items()}
    for one in lessons.values():
        s.make(one.name + '.log', one.made[one.name + '.log'])
        s.make(one.name + '.txt', subject.text_of(one.commands))
        s.do('run %s.txt' % one.name, *one.output)
    page = subject.Subject('support')
    support.build(page)
    quotes.check_course([*lessons.values(), page], wrong_outputs(lessons), support.table_lines())

# The blocks of the logs, also those that are written.
def compare():
    recordings = {name: subject.recording(name) for name in (course_logs.SV05, course_logs.NOVATEL, course_logs.M8T)}
    compared = []
    for name, log in course_logs.logs_of(recordings).items():
        satellite = 3 if course_logs.RECORDED[name][0] != course_logs.SV05 else 5
        compared += [gpsdecode.compare(log[place:place + 302], satellite) for place in paper.walk(log)[0]]
    return gpsdecode.figures(compared)
