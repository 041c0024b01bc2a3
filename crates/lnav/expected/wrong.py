# Does the commands of a file as lnav would with one of the mistakes of docs/COURSE.md. Run in data/:
#     python3 ../expected/wrong.py READER FILE
# For example RowCleared course-health.txt. It knows the commands of the course's files: check, list, words, word, read,
# feed, set and forget.
import argparse
import sys

sys.dont_write_bytecode = True
import readers

def content(name):
    with open(name, 'rb') as file:
        return file.read()

def main():
    names = [reader.__name__ for reader in readers.Reader.__subclasses__()]
    parser = argparse.ArgumentParser()
    parser.add_argument('reader', choices=names)
    parser.add_argument('file')
    asked = parser.parse_args()
    reader = getattr(readers, asked.reader)(content)
    print('\n'.join(reader.run(content(asked.file).decode().splitlines())))

main()
