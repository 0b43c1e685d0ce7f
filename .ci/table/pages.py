"""What the documents and tests have of the table, and which methods of C++ and Rust it names that are not there."""
import re

from header import names_of
from read import read

CXX_CALLS, CXX = 'c/include/cefrodil/inside/calls.hpp', 'c/include/cefrodil.hpp'
# Where C++ and Rust have the methods of a Handle and of a Writing: files, and where each begins and ends.
METHODS = {
    ('C++', 'handle'): ((CXX_CALLS, 'class Calls', 'protected:'), (CXX, 'class Handle', '\n};')),
    ('C++', 'writing'): ((CXX, 'class Writing :', 'private:\n'),),
    ('Rust', 'handle'): (('rust/src/handle.rs', '', None), ('rust/src/bounded.rs', '', 'impl<const WORDS: usize> Writing'), ('rust/src/hold.rs', '', None)),
    ('Rust', 'writing'): (('rust/src/writing.rs', '', None), ('rust/src/bounded.rs', 'impl<const WORDS: usize> Writing', None)),
}
# What each_call.c passes for a parameter. Another one is passed by its own name.
PASSED = {'handle': 'handle', 'near': 'key', 'item': '0', 'most': '1', 'words': 'words', 'old_words': 'words', 'value_words': 'words',
          'entry_words': 'ROOM', 'key_count': '1', 'answer_count': '1', 'reply': '&told.reply', 'len': '&told.len', 'moment': '&told.moment', 'capacity': '&told.capacity'}
# What a test in C++ passes for a parameter.
IN_CXX = {'key': '1', 'near': '1', 'item': '0', 'most': '1', 'since': '1', 'tries': '1', 'value': '{1}', 'keys': 'nullptr, 0', 'values': 'nullptr',
          'answers': 'nullptr', 'moment': 'number', 'len': 'number', 'capacity': 'number', 'entries': 'list', 'handles': '1, handles'}
# What a test in Rust passes.
IN_RUST = {'key': '7', 'near': '7', 'item': '0', 'most': '1', 'since': '1', 'tries': '3', 'value': '&[71]'}


def row_of(row, calls):
    """A row of USING's table, with the calls of C and the methods of C++ and Rust."""
    columns = [[f'`{method.name}`{" in Rust" if method.in_rust_alone else ""}' for call in calls if (method := getattr(call, kind))]
               for kind in ('handle', 'writing')]
    return f'|{row}|{", ".join(f"`{call.name}`" for call in calls)}|{"|".join(map(", ".join, columns))}|'


def names(calls, _):
    rows = {}
    for call in calls:
        rows.setdefault(call.row, []).append(call)
    return ['', '|call|C|a `Handle`|a `Writing`|', '|---|---|---|---|', *(row_of(row, named) for row, named in rows.items() if row), '']


def has_method(language, text, name):
    if language == 'Rust':
        return re.search(rf'\bpub fn {name}\b', text)
    return re.search(rf'\b{name}\([^;]*\) (?:&\s)?noexcept|\busing [^;]*\bCalls::{name}\b', text)


def missing(calls):
    """The methods of the table that C++ or Rust has not."""
    for (language, kind), places in METHODS.items():
        text = ''
        for path, begin, end in places:
            found = read(path)
            found = found[found.index(begin):]
            text += found[:found.index(end)] if end else found
        for call in calls:
            method = getattr(call, kind)
            if method and not (method.in_rust_alone and language == 'C++') and not has_method(language, text, method.name):
                yield f'{language} has no {method.name} of a {kind.capitalize()}'


def passed_for(name, parameter):
    """What each_call.c passes: a place of what is told, or what it has by this name."""
    if name == 'count':
        return '&told.count' if parameter else '1'
    if parameter and parameter.type == 'PutAnswer':
        return 'told.put_answers'
    return PASSED.get(name) or (f'told.{name}' if parameter and parameter.way == 'mut' else name)


def tested(calls, _):
    """Each call of a handle: for what it can be refused beside a handle that is not open, whether it has a reply, and its arguments."""
    rows = []
    for call in calls:
        if not call.parameters or call.parameters[0].name != 'handle':
            continue
        kinds = {parameter.name: parameter for parameter in call.parameters}
        passed = [passed_for(name, kinds.get(name)) for name in names_of(call)]
        facts = {'WIDTH': 'words' in passed, 'TURN': {'turn', 'write'} & {*call.marks}, 'LIMIT': 'write' in call.marks, 'REPLY': 'reply' in kinds}
        known = ' | '.join(fact for fact, holds in facts.items() if holds) or 'NOTHING'
        rows.append(f'{call.name}, {known}, ({", ".join(passed)})')
    return macro('EACH_CALL', rows)


def macro(name, rows):
    return [f'#define {name}(row) \\', *(f'    row({row}) \\' for row in rows[:-1]), f'    row({rows[-1]})']


def in_cxx(call):
    """The arguments of a method of C++. What is left out is returned."""
    if call.name == 'hold':
        return 'writing'
    known = (IN_CXX.get(own.name) for own in call.parameters[1:] if not (own.way == 'mut' and own.length in ('words', 'old_words')))
    return ', '.join(filter(None, known))


def methods(calls, _):
    """The methods of C++: those whose status must be looked at, and the others."""
    rows = {True: [], False: []}
    for kind in ('handle', 'writing'):
        for call in calls:
            method = getattr(call, kind)
            if method and not method.in_rust_alone:
                rows[method.unchecked].append(f'{kind}, {method.name}, ({in_cxx(call)})')
    return macro('EACH_METHOD', rows[False]) + macro('EACH_UNCHECKED_METHOD', rows[True])


def tries(calls, _):
    """The methods of Rust that try for a turn."""
    lines = []
    for call in calls:
        if call.handle and {'turn', 'write'} & {*call.marks}:
            passed = (IN_RUST.get(own.name) for own in call.parameters[1:] if not own.way == 'mut')
            lines.append(f'    ("{call.handle.name}", |handle| is_held(handle.{call.handle.name}({", ".join(filter(None, passed))}))),')
    return lines


def texts(statuses, _):
    return macro('EACH_STATUS', [f'{status.name}, {status.name.lower()}, "{status.text}"' for status in statuses])
