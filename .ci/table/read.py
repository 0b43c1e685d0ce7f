"""Reads c/calls.txt and c/statuses.txt, whose first lines say what they hold."""
import os
import re
from typing import NamedTuple, Optional

TOP = os.path.join(os.path.dirname(os.path.abspath(__file__)), '..', '..')
CALLS, STATUSES = 'c/calls.txt', 'c/statuses.txt'
# Types, as the table and the exports name them, with their names in C.
IN_C = {'u64': 'uint64_t', 'u32': 'uint32_t', 'usize': 'size_t', 'Handle': 'cefrodil_handle', 'Shape': 'cefrodil_shape', 'Reply': 'cefrodil_reply',
        'Answer': 'cefrodil_answer', 'PutAnswer': 'cefrodil_put_answer', 'Status': 'cefrodil_status'}
IN_RUST = {'Handle': 'RawHandle', 'Shape': 'RawShape', 'Reply': 'RawReply', 'Answer': 'RawAnswer', 'PutAnswer': 'RawPut', 'Status': 'u32'}
MARKS = ('number', 'series', 'unchecked', 'list', 'turn', 'write')


class Wrong(Exception):
    """What is wrong in the table."""


class Parameter(NamedTuple):
    name: str
    null: bool
    way: str  # 'const' or 'mut' for a pointer, '' for a number
    type: str
    length: Optional[str]  # the name of an array's length


class Method(NamedTuple):
    """What a Handle or a Writing calls it."""
    name: str
    in_rust_alone: bool
    unchecked: bool


class Call(NamedTuple):
    name: str
    parameters: list
    marks: list
    widths: Optional[str]  # the file of its exports for each width
    handle: Optional[Method]
    writing: Optional[Method]
    row: Optional[str]  # of USING's table

    @property
    def nullable(self):
        return [parameter for parameter in self.parameters if parameter.null]

    @property
    def value(self):
        """The parameter whose width its exports have in their names."""
        return next(parameter for parameter in self.parameters if parameter.length == 'words')


class Status(NamedTuple):
    number: int
    name: str
    text: str
    errors: list  # pairs of Rust's type and variant
    own_text: set  # those whose text is another one
    says: str


def read(path):
    with open(os.path.join(TOP, path), encoding='utf-8') as file:
        return file.read()


def rows(path, columns):
    """The rows below the comment, as lists of cells. A line that begins with `=` is a row of one cell."""
    for number, line in enumerate(read(path).splitlines(), 1):
        if not line or line.startswith('#'):
            continue
        cells = [line] if line.startswith('=') else [cell.strip() for cell in line.split('|')]
        if len(cells) not in (1, columns):
            raise Wrong(f'{path}:{number}: {len(cells)} columns, and there are {columns}')
        yield cells


def parameter_of(text):
    found = re.fullmatch(r'(\w+)(\??): (?:&(mut )?)?(?:\[(\w+); (\w+)\]|(\w+))', text)
    if not found:
        raise Wrong(f'{CALLS}: no parameter: {text}')
    name, null, mutable, element, length, plain = found.groups()
    way = ('mut' if mutable else 'const') if '&' in text else ''
    kind = element or plain
    if kind not in IN_C or (element and not way):
        raise Wrong(f'{CALLS}: no type: {text}')
    return Parameter(name, bool(null), way, kind, length)


def method_of(text):
    found = re.fullmatch(r'-|(Rust: )?(\w+)(\*?)', text)
    if not found:
        raise Wrong(f'{CALLS}: no method: {text}')
    return Method(found[2], bool(found[1]), bool(found[3])) if found[2] else None


def call_of(cells, row):
    name, parameters, marks, handle, writing = cells
    parts = [parameter_of(part) for part in re.findall(r'\w+\??: (?:&(?:mut )?)?(?:\[[^]]*\]|\w+)', parameters)]
    marks = marks.split()
    widths = [mark for mark in marks if mark not in MARKS]
    if len(widths) > 1 or any(not mark.endswith('_by_width') for mark in widths):
        raise Wrong(f'{CALLS}: no marks: {" ".join(marks)}')
    if re.sub(r'\s', '', parameters).count(':') != len(parts):
        raise Wrong(f'{CALLS}: not all parameters of {name} have a type')
    if 'list' in marks and not any(part.null and part.length for part in parts):
        raise Wrong(f'{CALLS}: {name} is a list, and takes no null pointer')
    return Call(name, parts, [mark for mark in marks if mark in MARKS], widths[0] if widths else None, method_of(handle),
                method_of(writing), row)


def calls():
    found, row = [], None
    for cells in rows(CALLS, 5):
        if len(cells) == 1:
            row = cells[0][1:].strip()
        else:
            found.append(call_of(cells, row))
    names = [call.name for call in found]
    if len({*names}) != len(names):
        raise Wrong(f'{CALLS}: a call is there twice')
    return found


def statuses():
    found = []
    for number, (written, name, text, errors, says) in enumerate(rows(STATUSES, 5)):
        if written != str(number):
            raise Wrong(f'{STATUSES}: {name} has the number {written}, and comes after {number - 1}')
        pairs = [tuple(error.rstrip('*').split('::')) for error in errors.split()]
        own = {pair for pair, error in zip(pairs, errors.split()) if error.endswith('*')}
        found.append(Status(number, name, text, pairs, own, says))
    if len({status.name for status in found}) != len(found):
        raise Wrong(f'{STATUSES}: a status is there twice')
    return found


def filled(head, parts, tail, width=140):
    """The parts after the head, with commas, in lines of this width. Later lines begin below the first part."""
    lines, line, first = [], head, True
    for n, part in enumerate(parts):
        piece = part + (',' if n + 1 < len(parts) else tail)
        if not first and len(line) + 1 + len(piece) > width:
            lines.append(line)
            line, first = ' ' * len(head), True
        line += piece if first else ' ' + piece
        first = False
    return lines + [line if parts else head + tail]
