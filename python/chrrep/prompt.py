"""What people are told who type lines: what may be typed, with the program's own symbols, and what was wrong."""

from .columns import Columns
from .rules import Symbol
from .typed import ANY, LineFault

_MOST_SYMBOLS = 64


def example_of(columns: Columns) -> str:
    """A fact of the first symbol, as it is typed."""
    first = columns.first()
    return _fact(first[0], [str(number) for number in range(1, first[1] + 1)]) if first else "a fact"


def help_of(columns: Columns) -> str:
    """What may be typed, line by line."""
    rows = [
        (example_of(columns), "tells a fact; several stand between commas"),
        ('"São Paulo"', "within the brackets is a name; so is a word with a small first letter. Else: whole numbers"),
        ("?", "shows all facts"),
    ]
    symbols = [(name, arguments) for name, all_ in columns.symbols.items() for arguments in all_][:_MOST_SYMBOLS]
    with_arguments = next((symbol for symbol in symbols if symbol[1]), None)
    if with_arguments:
        name, arguments = with_arguments
        rows += [
            (f"? {name}", "shows those of one symbol"),
            (f"? {_fact(name, ['1'] + [ANY] * (arguments - 1))}", "shows those with these arguments; _ is any"),
        ]
    width = max(len(typed) for typed, _ in rows)
    lines = [f"{typed:<{width}}  {does}" for typed, does in rows]
    return "\n".join([*lines, f"the facts of this program: {', '.join(_form(columns, symbol) for symbol in symbols)}"])


def fault_words(fault: Exception, columns: Columns) -> str:
    """What is wrong with a line, with the column's name where it has one."""
    if not isinstance(fault, LineFault) or fault.symbol is None or fault.argument is None:
        return str(fault)
    argument = columns.argument(fault.symbol, None, fault.argument)
    return f"character {fault.character}, {argument} of {fault.symbol}: {fault.what}"


def _form(columns: Columns, symbol: Symbol) -> str:
    """A symbol with what stands over its columns, where that is known of all of them."""
    headings = columns.headings(symbol)
    return _fact(symbol[0], list(headings)) if all(headings) else f"{symbol[0]}/{symbol[1]}"


def _fact(name: str, arguments: list[str]) -> str:
    return f"{name}({','.join(arguments)})" if arguments else name
