"""What the crate of Rust has of the table."""
from read import IN_RUST, Parameter
from header import WIDTHS, names_of

LINE = 130
HANDLE = Parameter('handle', False, 'mut', 'Handle', None)


def in_rust(parameter):
    kind = IN_RUST.get(parameter.type, parameter.type)
    own = f'{parameter.name}: {f"*{parameter.way} " if parameter.way else ""}{kind}'
    return [own, f'{parameter.length}: usize'] if parameter.length else [own]


def parameters_of(call):
    return [part for parameter in call.parameters for part in in_rust(parameter)]


def without_length(call, parameters):
    """The parameters of an export for one width."""
    return [part for part in parameters if part != f'{call.value.length}: usize']


def laid_out(head, parameters, tail):
    """A signature, laid out as rustfmt does."""
    short = f'{head}({", ".join(parameters)})'
    # rustfmt leaves room for ` {`, also before a semicolon.
    if len(short + tail.rstrip(' {;')) + 2 <= LINE:
        return [short + tail]
    indent = head[:len(head) - len(head.lstrip())]
    if tail.endswith(';') and len(short + tail.rstrip(';')) <= LINE:
        return [short, f'{indent}    {tail.strip()}']
    return [f'{head}(', *(f'{indent}    {parameter},' for parameter in parameters), f'{indent}){tail}']


def declarations(calls, _):
    lines = []
    for call in calls:
        parameters = parameters_of(call)
        name = f'cefrodil_{call.name}'
        lines += [f'    #[link_name = of_series!("{name}")]'] if 'series' in call.marks else []
        lines += laid_out(f'    pub fn {name}', parameters, ' -> u32;')
        for width in WIDTHS if call.widths else ():
            lines += laid_out(f'    pub fn {name}_{width}', without_length(call, parameters), ' -> u32;')
    return lines


def of_widths(calls, _):
    """Macros that call the export for a width. Another width has none."""
    lines = []
    for call in calls:
        if not call.widths:
            continue
        passed = ', '.join(f'${parameter.name}' for parameter in call.parameters)
        lines += [f'macro_rules! {call.name}_of_width {{', f'    ($words:expr, {", ".join(f"${own.name}:expr" for own in call.parameters)}) => {{',
                  '        match $words {', *(f'            {width} => raw::cefrodil_{call.name}_{width}({passed}),' for width in WIDTHS),
                  f'            _ => raw::cefrodil_{call.name}({", ".join("$" + name for name in names_of(call))}),', '        }', '    };', '}',
                  f'pub(crate) use {call.name}_of_width;']
    return lines


def is_method(call):
    """Whether the safe calls have it: neither what opens handles nor what closes one."""
    return call.parameters[:1] == [HANDLE] and not any(parameter.type == 'Handle' for parameter in call.parameters[1:])


def taken(call, parameter):
    """A parameter of the safe call. None: what the call writes there is returned."""
    if parameter.way == 'mut' and not parameter.length or parameter.name == 'handle':
        return None
    if not parameter.way:
        return f'{parameter.name}: {parameter.type}'
    width = '; WORDS' if call.widths and parameter.length == call.value.length else ''
    return f'{parameter.name}: &{"mut " if parameter.way == "mut" else ""}[{IN_RUST.get(parameter.type, parameter.type)}{width}]'


def passed_on(call, parameter):
    """What the safe call passes to the export."""
    if parameter.name == 'handle':
        return '&mut self.raw'
    if not parameter.length:
        return f'&mut {parameter.name}' if parameter.way else parameter.name
    pointer = f'{parameter.name}.as_{"mut_" if parameter.way == "mut" else ""}ptr()'
    return pointer if call.widths else f'{pointer}, {parameter.length}'


def counted(call):
    """How the answer of a call is counted. What needs a turn is no use of its key."""
    many = next((parameter for parameter in call.parameters if parameter.type in ('Answer', 'PutAnswer')), None)
    if many:
        return [f'        if status == raw::OK {{ self.counter.{"looked_up" if many.type == "Answer" else "wrote_all"}(answers); }}']
    if 'write' in call.marks:
        return ['        self.counter.wrote(status, &reply);']
    looks = any(parameter.type == 'Reply' for parameter in call.parameters) and 'turn' not in call.marks
    return [f'        self.counter.{"looked" if looks else "tried"}(status);']


def safe_calls(calls, _):
    """The calls as methods that borrow what the exports take as pointers."""
    lines = []
    for call in filter(is_method, calls):
        told = [parameter for parameter in call.parameters[1:] if not taken(call, parameter)]
        arrays = [parameter for parameter in call.parameters if parameter.length and not call.widths]
        kinds = [IN_RUST.get(parameter.type, parameter.type) for parameter in told]
        result = f'({", ".join(["u32", *kinds])})' if told else 'u32'
        given = ', '.join(['&mut self', *filter(None, (taken(call, parameter) for parameter in call.parameters))])
        export = f'raw::{call.name}_of_width!(WORDS, ' if call.widths else f'raw::cefrodil_{call.name}('
        lines += ['', '    #[inline]'] if call.widths and call.value.way == 'mut' else ['']
        lines.append(f'    pub fn {call.name}{"<const WORDS: usize>" if call.widths else ""}({given}) -> {result} {{')
        lines += [f'        let mut {parameter.name} = {"0" if kind == "u64" else kind + "::default()"};' for parameter, kind in zip(told, kinds)]
        lines += [f'        let {parameter.length} = {parameter.name}.len();' for parameter in arrays]
        lines += [f'        let status = unsafe {{ {export}{", ".join(passed_on(call, parameter) for parameter in call.parameters)}) }};']
        lines += [*counted(call), f'        ({", ".join(["status", *(own.name for own in told)])})' if told else '        status', '    }']
    return lines[1:]


def numbers(statuses, _):
    return [f'pub const {status.name}: u32 = {status.number};' for status in statuses]


def errors(statuses, _):
    """The statuses of each error, with their texts."""
    kinds = {}
    for status in statuses:
        for kind, variant in status.errors:
            text = '' if (kind, variant) in status.own_text else f' "{status.text}"'
            kinds.setdefault(kind, []).append(f'    {status.name} => {variant}{text},')
    lines = []
    for kind, variants in sorted(kinds.items()):
        lines += [f'statuses! {{ {kind}', *variants, '}']
    return lines
