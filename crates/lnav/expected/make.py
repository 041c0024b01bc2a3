# Makes the commands and the expected output of the program lnav, from documents 01 and 02 and the recordings of data/:
#     data/SUBJECT.txt    the commands of each subject
#     data/*.log          the logs that are made
#     stdin, stdout       the subjects in their order, and all that they are to print
#     errors.*, calls.*   what cannot be done, with its messages, and calls with one command (errors.py)
# A subject is a module here, with _ for a - of its name. It has a function build, which is given a subject.Subject, and
# perhaps a function compare, for gpsdecode. Needs Python 3.10. It stops where an answer is not the one that a subject
# states by hand, where docs/COURSE.md or README.md quotes what is not said (quotes.py), and where docs/COURSE.md does
# not have the table of support.py.
#     python3 make.py                makes these files
#     python3 make.py --check        makes nothing; stops where a file is missing or is not what would be made, and
#                                    where data/ has a file that no subject uses
#     python3 make.py --gpsdecode    also compares with gpsd's command gpsdecode (Debian's gpsd-clients, version 3.22)
import argparse
import importlib
import os
import sys

sys.dont_write_bytecode = True
import errors
import questions
import quotes
import subject
import words

SUBJECTS = 'first-steps words blocks logs records round_trip season timing ranking support course'.split()
HERE = os.path.dirname(os.path.abspath(__file__))
CRATE = os.path.join(HERE, os.pardir)

def modules():
    return {name: importlib.import_module(name.replace('-', '_')) for name in SUBJECTS}

def built(name, module):
    made = subject.Subject(name)
    try:
        module.build(made)
    except subject.Differs as differs:
        sys.exit(str(differs))
    except FileNotFoundError as missing:
        sys.exit('data/%s is missing' % os.path.basename(missing.filename))
    return made

def check_readme(subjects):
    try:
        quotes.check_readme(subjects, words.HELP.splitlines())
    except subject.Differs as differs:
        sys.exit(str(differs))

# The content of each file that is made, by its name in the crate's folder.
def files_of(subjects):
    files = {'stdin': subject.text_of('run %s.txt' % s.name for s in subjects),
             'stdout': subject.text_of(line for s in subjects for line in s.output)}
    for s in subjects:
        for name, content in {**s.made, s.name + '.txt': subject.text_of(s.commands)}.items():
            if files.setdefault('data/' + name, content) != content:
                sys.exit('data/%s: two subjects make it otherwise' % name)
    return files

def check(files):
    for name, content in files.items():
        path = os.path.join(CRATE, name)
        if not os.path.exists(path):
            sys.exit('%s is missing' % name)
        with open(path, 'rb') as file:
            if file.read() != content:
                sys.exit('%s is not what is made' % name)

# Each file of data/ is made or is a recording, and a command names it. errors.txt is read from standard input.
def check_all_used(files, subjects):
    known = set(files).union('data/' + name for s in subjects for name in s.recordings)
    commands = [content.decode() for name, content in files.items() if name == 'stdin' or name.endswith('.txt')]
    named = {'errors.txt', *' '.join(commands).split()}
    for name in sorted(os.listdir(subject.DATA)):
        if 'data/' + name not in known or name not in named:
            sys.exit('no subject uses data/%s' % name)

def write(files):
    for name, content in files.items():
        with open(os.path.join(CRATE, name), 'wb') as file:
            file.write(content)

def main():
    parser = argparse.ArgumentParser()
    parser.add_argument('--check', action='store_true')
    parser.add_argument('--gpsdecode', action='store_true')
    asked = parser.parse_args()
    questions.check_board()
    subjects = [built(name, module) for name, module in modules().items()]
    check_readme(subjects)
    files = {**files_of(subjects), **errors.files_of()}
    if asked.check:
        check(files)
        check_all_used(files, subjects)
    else:
        write(files)
    for s in subjects:
        print('%s: %d commands, %d lines' % (s.name, len(s.commands), len(s.output)))
    if asked.gpsdecode:
        for name, module in modules().items():
            if hasattr(module, 'compare'):
                print('%s: %s' % (name, module.compare()))

main()
