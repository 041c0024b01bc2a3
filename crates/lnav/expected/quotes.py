# Compares the quotes of docs/COURSE.md and of README.md with what they quote. A quote is a fenced block with the word
# text after the fence. Its first line says of what:
#     $ lnav run course-health.txt                 what lnav prints
#     $ lnav read course-health.log 900            the same of one command, which stands in a file of commands
#     $ lnav help                                  the same
#     $ wrong.py RowCleared course-health.txt      what a wrong reader says
#     crates/lnav/data/course-health.txt           the lines of a file of commands
#     crates/reader/must-fail/q_not_undone.edit    the lines of an edit
# The other lines are all that is printed or stands there, from the first to the last. A line `..` stands for lines that
# are left out, and a word `..` for words; tabs are shown as blanks. The course has no other fenced block than quotes,
# it quotes every wrong reader, and every edit that it names must exist. It also has the table of support.py.
import os
import re
from subject import Differs

ROOT = os.path.join(os.path.dirname(os.path.abspath(__file__)), *[os.pardir] * 3)
COURSE, README = 'docs/COURSE.md', 'README.md'
ON_A_LOG = ('check', 'find', 'list', 'read', 'words')

def text_of_file(name):
    with open(os.path.join(ROOT, name), encoding='utf-8') as file:
        return file.read()

# ---- a quote and the lines that it quotes

# The expression that a text with these lines fits.
def expression_of(lines):
    texts = []
    for line in lines:
        words = ['.*' if word == '..' else re.escape(word) for word in line.split(' ')]
        texts.append('(?:.*\n)*' if line == '..' else ' '.join(words) + '\n')
    return ''.join(texts)

def stands_in(quoted, lines):
    text = ''.join(line.replace('\t', ' ') + '\n' for line in lines)
    return re.fullmatch(expression_of(quoted), text) is not None

# The first quoted line that does not stand there after those before it, or None.
def first_wrong(quoted, lines):
    for k, line in enumerate(quoted):
        if not stands_in(quoted[:k + 1] + ['..'], lines):
            return line
    return None if stands_in(quoted, lines) else '(the end)'

# ---- what is quoted

# Whether the answer to a command is the same at any time: that to a question about a log which is a file.
def depends_on_nothing(command):
    name, *given = command.split()
    return name in ON_A_LOG and given[0] != 'written'

# What the first lines of quotes stand for that quote these subjects.
def said_by(subjects):
    said = {}
    for s in subjects:
        said['$ lnav run %s.txt' % s.name] = s.output
        said['crates/lnav/data/%s.txt' % s.name] = s.commands
        said.update(('$ lnav ' + command, lines) for command, lines in s.answers.items() if depends_on_nothing(command))
    return said

# The edits that a text names, with their lines.
def edits_in(document, text):
    names = re.findall(r'crates/\w+/must-fail/\w+\.edit', text)
    for name in names:
        if not os.path.exists(os.path.join(ROOT, name)):
            raise Differs('%s: %s does not exist' % (document, name))
    return {name: text_of_file(name).splitlines() for name in names}

# ---- the two documents

# The word after the fence and the lines of each fenced block.
def fenced_in(document, text):
    fence = '^ {0,3}```'
    blocks = re.findall(fence + r'([^\n]*)\n(.*?)' + fence + ' *$', text, re.MULTILINE | re.DOTALL)
    if len(re.findall(fence, text, re.MULTILINE)) != 2 * len(blocks):
        raise Differs('%s: a fenced block without an end' % document)
    return [(word.strip(), block.splitlines()) for word, block in blocks]

# Compares the quotes of a document with what they stand for, and gives their first lines.
def check(document, blocks, said):
    quotes = [lines or [''] for word, lines in blocks if word == 'text']
    for first, *quoted in quotes:
        if first not in said:
            raise Differs('%s: nothing is said by %s' % (document, first))
        wrong_line = first_wrong(quoted, said[first])
        if wrong_line is not None:
            raise Differs('%s: below %s there does not stand\n%s' % (document, first, wrong_line))
    return [first for first, *_ in quotes]

# The lines of the table stand in the text, one below the other.
def check_table(document, text, table):
    wrong_line = first_wrong(['..', *table, '..'], text.splitlines())
    if wrong_line is not None:
        raise Differs('%s: in the table there does not stand\n%s' % (document, wrong_line))

def check_course(lessons, wrong, table):
    text = text_of_file(COURSE)
    check_table(COURSE, text, table)
    blocks = fenced_in(COURSE, text)
    if any(word != 'text' for word, _ in blocks):
        raise Differs('%s: a fenced block that is no quote' % COURSE)
    by_wrong = {'$ wrong.py ' + words: lines for words, lines in wrong.items()}
    quoted = check(COURSE, blocks, {**said_by(lessons), **by_wrong, **edits_in(COURSE, text)})
    for first in by_wrong:
        if first not in quoted:
            raise Differs('%s: no quote of %s' % (COURSE, first))

def check_readme(subjects, help_lines):
    said = {**said_by(subjects), '$ lnav help': help_lines}
    check(README, fenced_in(README, text_of_file(README)), said)
