"""aarch64 for `c/frames`: what moves the stack pointer and saves registers, which ways lead on, and where a jump by a table leads."""
import re

from unwind.frame import AWAY, BY_TABLE, Frame, stop

OBJDUMP = 'aarch64-linux-gnu-objdump'
INSTRUCTION = re.compile(r'\s*([0-9a-f]+):\t(\S+)\s*([^<\t/]*)')
RELOCATED = ': R_AARCH64_'
DISTANT = 'R_AARCH64_PREL32'
AT_CALL = Frame(0, ())
# The caller's stack pointer is sp, and the return address is in x30.
FIRST_RULES = "30, 1, 0x1b, 12, 31, 0"
# Of vector registers only the lower halves are kept: d8 is that of v8.
KEPT = {f'x{n}': n for n in range(19, 31)} | {f'd{n}': 64 + n for n in range(8, 16)}
NAMED = re.compile(r'\b(?:[xw](19|2\d|30)|[vqdshb]([89]|1[0-5]))\b')
PAIR_OR_ONE = r'([xdq]\d+|xzr)(?:, ([xdq]\d+|xzr))?'
SAVES = re.compile(PAIR_OR_ONE + r', \[sp(?:, #(-?\d+))?\](!?)')
RESTORES = re.compile(PAIR_OR_ONE + r', \[sp(?:, #(\d+))?\](?:, #(\d+))?')
MOVES = re.compile(r'sp, sp, #0x([0-9a-f]+)(, lsl #12)?')
ENDS = re.compile(r'ret|udf|brk')
BRANCHES = re.compile(r'b|b\.\w+|cbn?z|tbn?z')


def saved_by(frame, words):
    """The frame after a store of one or two registers at the stack pointer, or None if that is no save."""
    found = SAVES.fullmatch(words)
    if not found:
        return None
    offset, depth, saved = int(found[3] or 0), frame.depth, dict(frame.saved)
    if found[4]:
        depth, offset = depth - offset, 0
    for n, register in enumerate(it for it in found.group(1, 2) if it):
        if register in KEPT:
            saved.setdefault(register, depth - offset - 8 * n)
    return Frame(depth, tuple(saved.items()))


def restored_by(frame, words):
    """The frame after a load of one or two registers from the stack pointer, or None if that restores none."""
    found = RESTORES.fullmatch(words)
    if not found:
        return None
    places = {(register, frame.depth - int(found[3] or 0) - 8 * n) for n, register in enumerate(found.group(1, 2))}
    return Frame(frame.depth - int(found[4] or 0), tuple(it for it in frame.saved if it not in places))


def changed(frame, instruction, named):
    """The frame after the instruction."""
    verb, words = instruction.verb, instruction.words.strip()
    after = saved_by(frame, words) if verb in ('stp', 'str') else restored_by(frame, words) if verb in ('ldp', 'ldr') else None
    if after is None:
        after = frame
        if re.match(r'sp\b(?!\])', words) and verb not in ('cmp', 'cmn') or re.search(r'\[sp(\], |.*\]!)', words):
            moved = MOVES.fullmatch(words)
            if verb not in ('add', 'sub') or not moved:
                stop(f'{named} changes the stack pointer by {verb} {words}')
            number = int(moved[1], 16) << (12 if moved[2] else 0)
            after = frame._replace(depth=frame.depth + (number if verb == 'sub' else -number))
    operands = words.rpartition(',')[0] if BRANCHES.fullmatch(verb) or verb == 'bl' else words
    used = {f'x{found[1]}' if found[1] else f'd{found[2]}' for found in NAMED.finditer(operands)} | ({'x30'} if verb in ('bl', 'blr') else set())
    # What a function reads of these registers it has put there, so it has saved them.
    if lost := used - {register for register, _ in (*frame.saved, *after.saved)}:
        stop(f'{named} changes {min(lost)}, which it has not saved')
    return after


def jump(instruction):
    """Where the instruction may lead but to the next one: a place of its section, AWAY, BY_TABLE or None. And whether it may lead to the next one."""
    verb, words = instruction.verb, instruction.words
    if ENDS.match(verb):
        return AWAY if verb == 'ret' else None, False
    if verb == 'br':
        return BY_TABLE, False
    if not BRANCHES.fullmatch(verb):
        return None, True
    return AWAY if instruction.relocated else int(words.split()[-1], 16), verb != 'b'


class Tables:
    """Compilers write tables of jumps in several forms. So such a jump is taken to lead to each place that nothing else leads to and that comes
    after an instruction which doesn't lead on."""

    def __init__(self, relocations):
        del relocations

    def places(self, walk, n):
        del n
        ended = [m for m in range(1, len(walk.instructions)) if not jump(walk.instructions[m - 1])[1]]
        return [walk.instructions[m].at for m in ended if walk.instructions[m].at not in walk.frames and walk.instructions[m].verb != 'nop']
