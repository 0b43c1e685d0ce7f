"""What the parts of `c/frames` share."""
import collections
import sys

Instruction = collections.namedtuple('Instruction', 'at verb words relocated')
# Where the caller's stack pointer is from the stack pointer, and below it each register that was saved.
Frame = collections.namedtuple('Frame', 'depth saved')
# Where a jump leads that leads to no place of its section by itself.
AWAY, BY_TABLE = 'away', 'by a table'


def stop(why):
    sys.exit(f'c/frames: {why}')
