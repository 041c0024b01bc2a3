# The first steps of a user, which README.md quotes: a recording is listed, fed and read, and a block is written and
# spoilt. Stated by hand: every block of the recording, the latest set, and the word with the flipped bit. The numbers
# of recorded fields are gpsdecode's.
import records
from subject import ten_words

LOG = records.SV05.name
# The latest set of satellite 5.
SET = '''subframe1 count=18031 week=457 health=0 iodc_low=48
subframe2 count=18032 iode=48 e=75265070 root_a=2701965775
subframe3 count=18033 iode=48'''

def recorded(s):
    s.recording(LOG)
    s.comment('the blocks of a recording: place, subframe number, count and polarity')
    records.list_joined(s, LOG, (records.SV05, 'U'))
    s.comment('every block is fed to the collector as satellite 5\'s, and the orbit set of satellite 5 is asked for')
    records.feed_whole(s, records.SV05)
    s.set(5, SET)
    s.comment('every field of the block at place 300: its name, its number, and its value with the unit')
    s.read(LOG, 300, 'kind subframe1\ncount 17996 107976 s\nsubframe 1\nweek 457\niodc_low 47\ntoc 6750 108000 s')

# Index 100 is in word 4 alone, which has the indices 92 to 121. Its last two, 120 and 121, are also in the window of
# word 5. Index 100 is bit 9, which stands in the lines 28, 29 and 30 of the parity table.
def written(s):
    s.comment('the block of a subframe 1 with week 69 and TGD -9; it is accepted')
    s.write('subframe1', week=69, tgd=-9)
    s.check('written', 0, 'accepted')
    s.comment('one bit of it is flipped: word 4 breaks the parity table, and the block is refused')
    s.flip(100)
    s.check('written', 0, 'refused 5 4 a word breaks the table syndrome 000111 equations 28 29 30')
    s.words('written', 0, ten_words({4: '000111 equations 28 29 30'}))
    s.comment('the collector does not take it, and the set stays as it was')
    s.feed('written', 0, 5, 'feed 0 5 refused 5 4')
    s.set(5, SET)

def build(s):
    recorded(s)
    written(s)
