"""The fields of a line as values, for the scripts beside this file."""
import re
import sys

sys.set_int_max_str_digits(0)

# the least and the greatest value of a number
I16, I32, I64, U64 = ((-(2**15), 2**15 - 1), (-(2**31), 2**31 - 1), (-(2**63), 2**63 - 1), (0, 2**64 - 1))


def values_of(kinds, fields):
    """A value for each field: its bytes, or a number within its kind's limits; or nothing if one is no such number or there are not as many fields as kinds."""
    if len(kinds) != len(fields):
        return None
    values = []
    for kind, field in zip(kinds, fields):
        if kind == "bytes":
            values.append(field)
        elif not re.fullmatch(rb"-?[0-9]+", field) or not kind[0] <= int(field) <= kind[1]:
            return None
        else:
            values.append(int(field))
    return values
