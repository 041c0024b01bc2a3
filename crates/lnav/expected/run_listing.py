# Runs the program listing, whose path is the argument, and compares what it prints with document 01's listing, by
# paper.py: on every log of data/, on logs that are made here, and on logs that come through a pipe piece by piece.
import os
import random
import subprocess
import sys
import time

sys.dont_write_bytecode = True
import paper
import subject
from logs import example, random_bits
from paper import BLOCK, MOST, inverse

PAUSE = 0.05  # seconds between two pieces

# A log of the greatest length: 160 recorded blocks, every other one inverted, each after one random bit more than the
# one before it. The last of them ends with the log. Also gives their places.
def mixed():
    recording, source = subject.recording('ublox-m8t-sv03.log'), random.Random(160)
    blocks = [recording[300 * k:300 * k + BLOCK] for k in range(80)] * 2
    log, places = random_bits(source, MOST - sum(k + BLOCK for k in range(160))), []
    for k, block in enumerate(blocks):
        log += random_bits(source, k)
        places.append(len(log))
        log += inverse(block) if k % 2 else block
    return log, places

# The log in pieces that end at these places.
def pieces(log, *ends):
    return [log[start:end] for start, end in zip((0, *ends), (*ends, len(log)))]

# What the program writes on standard output and on standard error. A wrong one may end before all pieces are read.
def printed(program, parts):
    run = subprocess.Popen([program], stdin=subprocess.PIPE, stdout=subprocess.PIPE, stderr=subprocess.PIPE)
    try:
        for i, part in enumerate(parts):
            time.sleep(PAUSE if i else 0)
            run.stdin.write(part)
            run.stdin.flush()
    except BrokenPipeError:
        pass
    return run.communicate()

def cases():
    for name in sorted(os.listdir(subject.DATA)):
        if name.endswith('.log'):
            yield name, [subject.recording(name)]
    full, places = mixed()
    assert len(full) == MOST and paper.walk(full)[0] == places
    yield 'the example, inverted', [inverse(example())]
    yield 'a full log of both polarities', [full]
    yield 'its inverse', [inverse(full)]
    yield 'one byte more', [full + bytes(1)]
    yield 'one byte less', [full[:-1]]
    yield 'the example in pieces', pieces(example(), 1, 5, 6, 7, 100, 306)
    yield 'a full log in pieces', pieces(full, 1, 400, 401, 4096, 8192, 65535)
    yield 'one byte more in pieces', pieces(full + bytes(1), 4097, 65535, 65536)

def main():
    program, = sys.argv[1:]
    count = 0
    for name, parts in cases():
        if printed(program, parts) != (subject.text_of(paper.listing(b''.join(parts))), b''):
            sys.exit('listing: %s: the output is not what document 01 has' % name)
        count += 1
    print('listing: %d logs are listed as document 01 says' % count)

main()
