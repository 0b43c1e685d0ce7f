"""What the crates of Rattle have of the table. What is proved is the text that is written."""
import re

from read import Wrong, read

SOURCES = 'crates/cefrodil/src/'
COUNTS = ('one word', 'two words', 'three words', 'four words', 'five words', 'six words', 'seven words', 'eight words')
VARIANTS = ('One', 'Two', 'Three', 'Four', 'Five', 'Six', 'Seven', 'Eight')
# The files of the exports for any width.
FILES = ('lookups.rt', 'writes.rt')
HEAD = """\
//! `{export}` for each width of a value. The header calls these if the width is a constant.
ghost use Rattle.std.specs.Prelude.{{◌≡◌}};
ghost use Rattle.cefrodil.specs.Calls.{{{{{gives}}}}};
ghost use Rattle.cefrodil.specs.Open.{{kept}};

use crate::raw_handle::{{RawHandle, told_of_handle}};
use mc_door::status::WIDTH;
use mc_door::{{AnySide, Outcome, RawReply{uses}}};

// {does} by a handle whose values have this width, and refuses any other. So a program that uses one width needs no code of the others.
macro_rules! {name}_at {{
    ($width:ident, $handle:ident, $key:ident, $value:ident, $reply:ident) => {{
        told_of_handle!($handle, $reply, held => match held {{
            AnySide::$width(side) => side.{name}($key, $value.{slice}(), $reply),
            _ => Outcome::plain(WIDTH).tell($reply),
        }})
    }};
}}
"""


def export_of(name):
    """The attributes, signature and contract of the export for any width."""
    for file in FILES:
        found = re.search(rf'(?m)^(?:#\[.*\]\n)+pub extern "C" fn cefrodil_{name}\((?:.|\n)*?\n\{{\n', read(SOURCES + file))
        if found:
            return found[0]
    raise Wrong(f'{SOURCES}: no export cefrodil_{name} in {" or ".join(FILES)}')


def by_width(call):
    """The file of a call's exports for each width: the contract is that of the export for any."""
    looks, export = call.value.way == 'mut', f'cefrodil_{call.name}'
    contract = export_of(call.name)
    taken = f'{call.value.name}: &{"mut " if looks else ""}[u64]'
    if taken not in contract:
        raise Wrong(f'{SOURCES}: {export} has no {taken}')
    gives, uses = re.search(r'\w+Gives', contract)[0], ', Write' if 'Write.' in contract else ''
    text = HEAD.replace('{{{{{gives}}}}}', '{{{gives}}}').format(
        export=export, gives=gives, uses=uses, does='Looks up' if looks else 'Puts', name=call.name, slice='as_mut_slice' if looks else 'as_slice')
    passed = ', '.join(parameter.name for parameter in call.parameters)
    for width, (count, variant) in enumerate(zip(COUNTS, VARIANTS), 1):
        of = f'for values of {count}' if looks else f'of a value of {count}'
        own = contract.replace(f'fn {export}(', f'fn {export}_{width}(').replace(taken, f'{taken[:-1]}; {width}]')
        text += f'\n/// `{export}` {of}.\n{own}    {call.name}_at!({variant}, {passed})\n}}\n'
    return text


def in_rattle(name):
    return name.removeprefix('BAD_')


def statuses(table, before):
    """The statuses, each with the comment above it, which is written by hand. One without a comment has the table's."""
    comments = dict(reversed(pair) for pair in re.findall(r'((?:^/// .*\n)+)pub const (\w+): u32 = ', before, re.M))
    known = [status for status in table if status.name != 'PROCESSOR']
    parts = []
    for status in known:
        says = status.says or status.text
        comment = comments.get(in_rattle(status.name), f'/// {says[0].upper()}{says[1:]}.\n')
        parts.append(f'{comment}pub const {in_rattle(status.name)}: u32 = {status.number};\n')
    return before[:before.index('\n') + 1] + '\n' + '\n'.join(parts)
