"""Reads value change dumps and compares what they show, tick by tick."""

from itertools import zip_longest

VALUES = b"01xXzZ"


def declared_nets(lines):
    """The name behind each code, read up to the end of the declarations; scopes and kinds play no part."""
    names = {}
    for line in lines:
        words = line.split()
        if words[:1] == [b"$var"]:
            names[words[3]] = words[4]
        if words[:1] == [b"$enddefinitions"]:
            break
    return names


def real_changes(changes, shown):
    """Those of a tick's changes that change what is shown, which is brought up to date."""
    changes = {name: value for name, value in changes.items() if shown[name] != value}
    shown.update(changes)
    return changes


def changes_by_tick(lines, names, horizon):
    """Each tick up to the horizon at which something changes, with the new value of each net that does.

    Of several changes of a net within a tick the last one counts, and before its first one a net is x.
    """
    shown = dict.fromkeys(names.values(), b"x")
    tick, changes = 0, {}
    for line in lines:
        if line[0] in VALUES:
            changes[names[line[1:-1]]] = line[:1]
        elif line[:1] == b"#":
            changes = real_changes(changes, shown)
            if changes:
                yield tick, changes
            tick, changes = int(line[1:]), {}
            if tick > horizon:
                return
    changes = real_changes(changes, shown)
    if changes:
        yield tick, changes


def count_changes(path, horizon):
    """How many changes a dump shows."""
    with open(path, "rb") as lines:
        names = declared_nets(lines)
        return sum(len(changes) for _, changes in changes_by_tick(lines, names, horizon))


def first_difference(first_path, second_path, horizon):
    """The first tick at which two dumps of the same nets show something else, or None where none is.

    Fails with a ValueError where the dumps declare other nets.
    """
    with open(first_path, "rb") as first, open(second_path, "rb") as second:
        first_names, second_names = declared_nets(first), declared_nets(second)
        if sorted(first_names.values()) != sorted(second_names.values()):
            raise ValueError(f"{first_path} and {second_path} declare other nets")
        never = (horizon + 1, {})
        for one, other in zip_longest(changes_by_tick(first, first_names, horizon),
                                      changes_by_tick(second, second_names, horizon), fillvalue=never):
            if one != other:
                return min(one[0], other[0])
    return None
