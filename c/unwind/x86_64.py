"""x86-64 for `c/frames`: what `push`, `pop`, `add` and `sub` do to the stack pointer, which ways lead on, and where a jump by a table leads."""
import re

from unwind.frame import AWAY, BY_TABLE, Frame, stop

OBJDUMP = 'objdump'
# An instruction in what objdump says: its place, its verb and its operands.
INSTRUCTION = re.compile(r'\s*([0-9a-f]+):\t(?:(?:lock|rep[nz]*|data16|cs|bnd|notrack) )*(\S+) *([^#<\t]*)')
RELOCATED = ': R_X86_64_'
# What refers to a place by its distance.
DISTANT = 'R_X86_64_PC32'
AT_CALL = Frame(8, ())
# What all tables begin with: the caller's stack pointer is rsp + 8, and the return address is below it.
FIRST_RULES = "16, 1, 0x1b, 12, 7, 8, 0x90, 1"
# The registers that a function must give back as it got them, with their numbers in such tables.
KEPT = {'rbx': 3, 'rbp': 6, 'r12': 12, 'r13': 13, 'r14': 14, 'r15': 15}
# A register by any name of a part of it.
PARTS = {part: whole for short, whole in (('b', 'rbx'), ('bp', 'rbp'))
         for part in ('r' + short, 'e' + short, short, short + 'l', short + 'x', 'e' + short + 'x', short + 'h', 'r' + short + 'x')}
PARTS |= {f'r{n}{suffix}': f'r{n}' for n in range(12, 16) for suffix in ('', 'd', 'w', 'b')}
ONLY_READ = re.compile(r'cmp[bwlq]?|test[bwlq]?|bt[bwlq]?|push|call|jmp|nop[wl]?')
ENDS = re.compile(r'ret|ud2|hlt')


def changed(frame, instruction, named):
    """The frame after the instruction."""
    operands = re.sub(r'\([^)]*\)', '', instruction.words)
    last = operands.rpartition('%')[2] if re.search(r'(^|,)%\w+$', operands) else ''
    if instruction.verb == 'push':
        depth, saved = frame.depth + 8, dict(frame.saved)
        if last in KEPT:
            saved.setdefault(last, depth)
        return Frame(depth, tuple(saved.items()))
    if instruction.verb == 'pop':
        return Frame(frame.depth - 8, tuple(it for it in frame.saved if it != (last, frame.depth)))
    if last in ('rsp', 'esp') and not ONLY_READ.fullmatch(instruction.verb) or instruction.verb in ('leave', 'enter'):
        moved = re.fullmatch(r'\$0x([0-9a-f]+),%rsp', instruction.words)
        if instruction.verb not in ('add', 'sub') or not moved:
            stop(f'{named} changes the stack pointer by {instruction.verb} {instruction.words}')
        number = int(moved[1], 16)
        number -= 1 << 64 if number >> 63 else 0
        return frame._replace(depth=frame.depth + (number if instruction.verb == 'sub' else -number))
    if last in PARTS and not ONLY_READ.fullmatch(instruction.verb) and PARTS[last] not in dict(frame.saved):
        stop(f'{named} changes %{last}, which it has not pushed')
    return frame


def jump(instruction):
    """Where the instruction may lead but to the next one: a place of its section, AWAY, BY_TABLE or None. And whether it may lead to the next one."""
    verb, words = instruction.verb, instruction.words
    if ENDS.match(verb):
        return None if verb == 'ud2' else AWAY, False
    if verb == 'jmp' and words.startswith('*'):
        return BY_TABLE, False
    if not verb.startswith('j'):
        return None, True
    return AWAY if instruction.relocated else int(words.split()[0], 16), verb != 'jmp'


class Tables:
    """The tables of jumps, each with the places to which it leads."""

    def __init__(self, relocations):
        self.relocations = relocations
        # Where some table begins, or other data: there the one before it ends.
        self.starts = {(section, at + 4) for places in relocations.values() for section, at in places.values()}

    def loaded(self, function, instruction, after):
        """The section and the place that this instruction loads the address of, or None."""
        if instruction.verb != 'lea' or '(%rip)' not in instruction.words:
            return None
        section, at = self.relocations[function.section].get(after - 4, (None, 0))
        return section and (section, at + 4)

    def targets(self, function, table):
        """The places in the function to which the entries of a table lead."""
        section, start = table
        found = []
        entries = self.relocations[section]
        at = start
        while at in entries and (at == start or (section, at) not in self.starts):
            to, place = entries[at]
            found += [place - (at - start)] if to == function.section else []
            at += 4
        return found

    def places(self, walk, n):
        """Where a jump by a table leads: by the table whose address was loaded last."""
        loads = (self.loaded(walk.function, walk.instructions[before], walk.after(before)) for before in range(n, -1, -1))
        return next((places for table in loads if table and (places := self.targets(walk.function, table))), [])
