"""names.py: reads names.csv, in which from_yosys.py tells what became of the bits of the source that have no net of their own,
for read_vcd.py, gtkw.py and compare_vcd.py.

The header is `bit,is,net`. A bit is `net` or `not`, the same as a net or its opposite; or the level `0`, `1` or `x`; or `gone`."""
import csv

HEADER = ["bit", "is", "net"]
OF_NETS = ("net", "not")
LEVELS = ("0", "1", "x")
OPPOSITE = {"0": "1", "1": "0"}


class NamesUnreadable(Exception):
    """The file isn't a table of names."""


def row_of(row):
    """The bit of a row, with what it is."""
    bit, kind, net = row
    if not bit or kind not in (*OF_NETS, *LEVELS, "gone") or (kind in OF_NETS) != bool(net):
        raise ValueError
    return bit, (kind, net)


def read_names(path):
    """For each bit of the table what it is, and the net that this names."""
    names, rows = {}, None
    try:
        with open(path, encoding="utf-8", newline="") as file:
            rows = csv.reader(file, strict=True)
            if next(rows, None) != HEADER:
                raise ValueError
            for bit, what in map(row_of, rows):
                if names.setdefault(bit, what) is not what:
                    raise NamesUnreadable(f"{path}, line {rows.line_num}: {bit} is told of twice")
    except OSError as error:
        raise NamesUnreadable(f"{path}: {error.strerror}") from error
    except (ValueError, csv.Error) as error:
        number = max(rows.line_num, 1) if rows else 1
        raise NamesUnreadable(f"{path}, line {number}: not a row of {','.join(HEADER)}, as from_yosys.py writes it") from error
    return names


def level_of(bit, levels, names):
    """The level of a bit, where `levels` has those of all nets; None where the bit is gone, or isn't there at all."""
    if bit in levels:
        return levels[bit]
    kind, net = names.get(bit, ("gone", ""))
    if kind in LEVELS:
        return kind
    level = levels.get(net)
    return OPPOSITE.get(level, level) if kind == "not" else level
