"""What the C header has of the table, and the statuses of C++."""
import re
import textwrap

from read import IN_C, filled

WIDTHS = range(1, 9)
WIDEST = 148  # columns of a line


def in_c(parameter):
    """A parameter as C declares it, with the length of an array."""
    if not parameter.way:
        return [f'{IN_C[parameter.type]} {parameter.name}']
    pointer = f'{"const " if parameter.way == "const" else ""}{IN_C[parameter.type]} *{parameter.name}'
    return [pointer, f'size_t {parameter.length}'] if parameter.length else [pointer]


def parameters_of(call, without_length=None):
    return [part for parameter in call.parameters for part in in_c(parameter) if part != f'size_t {without_length}']


def names_of(call):
    return [name for parameter in call.parameters for name in (parameter.name, parameter.length) if name]


def exported(call, name, parameters, tail):
    mark = 'CEFRODIL_NO_NULL' if 'unchecked' in call.marks else 'CEFRODIL_CALL'
    return filled(f'{mark} cefrodil_status cefrodil_{name}(', parameters, tail)


def prototype(call):
    if 'number' in call.marks:
        return [f'uint32_t cefrodil_{call.name}(void);']
    if 'series' not in call.marks:
        return exported(call, call.name, parameters_of(call), ');')
    series = f'CEFRODIL_OF_SERIES(cefrodil_{call.name});'
    lines = exported(call, call.name, parameters_of(call), ')')
    if len(lines[-1]) + 1 + len(series) <= 140:
        return lines[:-1] + [f'{lines[-1]} {series}']
    return [*lines, '    ' + series]


def prototypes(calls, before):
    """Each call with the comment above it, which is written by hand. One without a comment comes right after the call before it."""
    comments, comment = {}, []
    for line in before.splitlines():
        named = re.search(r'^(?:[A-Z_]+ )*\w+ cefrodil_(\w+)\(', line)
        if line.startswith(('/*', ' *')):
            comment.append(line)
        elif named:
            comments[named[1]], comment = comment, []
    lines = []
    for call in calls:
        comment = comments.get(call.name, [])
        lines += ([''] if comment else []) + comment + prototype(call)
    return [*lines, '']


def at_widths(calls, _):
    """The exports for each width."""
    lines = []
    for call in calls:
        for width in WIDTHS if call.widths else ():
            lines += exported(call, f'{call.name}_{width}', parameters_of(call, call.value.length), ');')
    return lines


def opened(call, name, own):
    """The first line of the header's own function of a call."""
    checked = '' if 'unchecked' in call.marks else 'CEFRODIL_CHECKED '
    return filled(f'{checked}{own} cefrodil_status cefrodil_{name}(', parameters_of(call), ') {', WIDEST)


def wrapper_name(call):
    """The header's own function of a call, which takes null pointers or calls the export for a width. None: it has none."""
    if call.widths:
        return f'{call.name}_of_width'
    if call.nullable:
        return f'{call.name}_unless_null' if call.nullable[0].type == 'Handle' else f'{call.name}_or_none'
    return None


def of_width(call):
    """Calls the export for the width, if the compiler knows it. A reply may be null."""
    # The compiler counts lengths, too.
    never_null = [str(names_of(call).index(parameter.name) + 1) for parameter in call.parameters if parameter.way and not parameter.null]
    told = {parameter.name: 'told' for parameter in call.nullable}
    lines = opened(call, wrapper_name(call), f'CEFRODIL_INLINED(nonnull{"(" + ", ".join(never_null) + ")" if told else ""})')
    if told:
        lines += ['    cefrodil_reply unread;', '    cefrodil_reply *const told = reply ? reply : &unread;']
    passed = ', '.join(told.get(parameter.name, parameter.name) for parameter in call.parameters)
    every = ', '.join(told.get(name, name) for name in names_of(call))
    lines.append('    switch (CEFRODIL_KNOWN(words) ? words : 0) {')
    lines += [f'    case {width}: return cefrodil_{call.name}_{width}({passed});' for width in WIDTHS]
    return [*lines, f'    default: return cefrodil_{call.name}({every});', '    }', '}']


def or_none(call):
    """Passes a place of its own for an array without elements."""
    kinds = {}
    for parameter in call.nullable:
        kinds.setdefault(IN_C[parameter.type], []).append(f'no_{parameter.name}')
    lines = opened(call, wrapper_name(call), 'CEFRODIL_INLINE')
    # A number is read, so it has a value; a struct is written alone.
    lines += ['    ' + kind + ' ' + ', '.join(name + (' = 0' if kind.startswith('uint') else '') for name in names) + ';' for kind, names in kinds.items()]
    passed = []
    for parameter in call.parameters:
        passed.append(f'{parameter.length} != 0 ? {parameter.name} : &no_{parameter.name}' if parameter.null else parameter.name)
        passed += [parameter.length] if parameter.length else []
    return [*lines, *filled(f'    return cefrodil_{call.name}(', passed, ');'), '}']


def short(call, text):
    return [*opened(call, wrapper_name(call), 'CEFRODIL_INLINE'), f'    return {text};', '}']


def wrappers(calls, _):
    lines = []
    for call in calls:
        if call.widths:
            lines += of_width(call) + ['']
        elif call.nullable and call.nullable[0].type == 'Handle':
            lines += short(call, f'handle ? cefrodil_{call.name}(handle) : CEFRODIL_CLOSED') + ['']
        elif 'list' in call.marks:
            counted = f'cefrodil_{call.name}({", ".join(names_of(call))})'
            lines += short(call, f'{call.nullable[0].length} != 0 ? {counted} : cefrodil_list_without_room(handle, count)') + ['']
        elif call.nullable:
            lines += or_none(call) + ['']
    return lines[:-1]


def in_own_process(calls, _):
    """The calls that c/forks.c defines, by an export, also of each width: those that a forked child may make by a handle of its parent."""
    lines = []
    for call in calls:
        first = call.parameters[:1]
        if not first or first[0].type != 'Handle' or first[0].length or first[0].null:
            continue
        lines += own_process(call.name, parameters_of(call), names_of(call))
        for width in WIDTHS if call.widths else ():
            length = call.value.length
            lines += own_process(f'{call.name}_{width}', parameters_of(call, length), [name for name in names_of(call) if name != length])
    return lines


def own_process(name, parameters, names):
    passed = f'({", ".join(names)}))'
    lines = filled(f'OF_PROCESS({name}, (', parameters, '),', WIDEST)
    return [f'{lines[0]} {passed}'] if len(lines) == 1 and len(lines[0]) + 1 + len(passed) <= WIDEST else [*lines, ' ' * 11 + passed]


def macros(calls, _):
    return [f'#define cefrodil_{call.name} cefrodil_{wrapper_name(call)}' for call in calls if wrapper_name(call)]


def commented(code, says, column, width=WIDEST):
    """A line of code with a comment in this column, whose later lines begin below its first word."""
    if not says:
        return [code]
    words = textwrap.wrap(says + ' */', width - column - 3)
    return [code.ljust(column) + '/* ' + words[0], *(' ' * (column + 1) + '* ' + line for line in words[1:])]


def numbers(statuses, _):
    lines = []
    for status in statuses:
        code = f'    CEFRODIL_{status.name} = {status.number}{"," if status.number + 1 < len(statuses) else ""}'
        lines += commented(code, status.says, 31)
    return lines


def texts(statuses, _):
    return [f'    case CEFRODIL_{status.name}: return "{status.text}";' for status in statuses]


def in_cxx(statuses, _):
    return [f'    {status.name.lower()} = CEFRODIL_{status.name},' for status in statuses]
