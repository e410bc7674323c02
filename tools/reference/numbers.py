"""Whole millionths: decimals, how they are printed, and lookup tables, all in exact arithmetic."""

import re
from bisect import bisect_right

NUMBER_LIMIT = 2**40
TABLE_LIMIT = 2**34
QUERY_LIMIT = 2**36
MOST_POINTS = 64

DECIMAL = re.compile(rb"([+-]?)(?=\.?[0-9])([0-9]*)\.?([0-9]*)(?:[eE]([+-]?[0-9]+))?")


class Refused(Exception):
    """Why an input isn't read."""


def rounded_power(digits, exponent):
    """`digits * 10^exponent`, rounded to the nearest whole number, half upwards. Magnitudes past every limit are cut short."""
    if digits == 0:
        return 0
    if exponent >= 0:
        return digits * 10 ** min(exponent, 40)
    if -exponent > len(str(digits)) + 1:
        return 0
    divisor = 10**-exponent
    return (2 * digits + divisor) // (2 * divisor)


def decimal(text, tens=0, limit=NUMBER_LIMIT):
    """The decimal's value times 10^tens, in millionths, rounded once, ties away from zero."""
    form = DECIMAL.fullmatch(text)
    if form is None:
        raise Refused(f"no decimal: {text!r}")
    sign, whole, part, power = form.groups()
    magnitude = rounded_power(int(whole + part), int(power or b"0") - len(part) + tens + 6)
    if magnitude >= limit:
        raise Refused(f"out of range: {text!r}")
    return -magnitude if sign == b"-" else magnitude


def not_negative(text, tens=0, limit=NUMBER_LIMIT):
    """A decimal that isn't negative once it is rounded."""
    value = decimal(text, tens, limit)
    if value < 0:
        raise Refused(f"negative: {text!r}")
    return value


def printed(millionths):
    """A number with six decimal places."""
    whole, part = divmod(abs(millionths), 1_000_000)
    return f"{'-' if millionths < 0 else ''}{whole}.{part:06}"


def segment(points, query):
    """Where the segment of a query begins: the last point at or below it that has a next one, or the first point."""
    return max(0, min(bisect_right(points, query) - 1, len(points) - 2))


def weights(points, query):
    """The points at the ends of the query's segment with their weights, and the sum of the weights."""
    if len(points) == 1:
        return [(0, 1)], 1
    low = segment(points, query)
    return [(low, points[low + 1] - query), (low + 1, query - points[low])], points[low + 1] - points[low]


class Table:
    """Values over slews (`xs`) and loads (`ys`), row by row over the slews."""

    def __init__(self, xs, ys, zs):
        for points in (xs, ys):
            if not 1 <= len(points) <= MOST_POINTS or any(low >= high for low, high in zip(points, points[1:])):
                raise Refused("the points of a table's axis don't rise, or are none or too many")
        if len(zs) != len(xs) * len(ys):
            raise Refused("a table has another number of values than of points")
        self.xs, self.ys, self.zs = xs, ys, zs

    def look(self, slew, load, least):
        """The value on the straight lines through the points, rounded once, ties upwards, and held within `least` .. 2^36."""
        across, width = weights(self.xs, min(max(slew, 0), QUERY_LIMIT))
        along, height = weights(self.ys, min(max(load, 0), QUERY_LIMIT))
        columns = len(self.ys)
        total = sum(self.zs[i * columns + j] * x * y for i, x in across for j, y in along)
        area = width * height
        return min(max((2 * total + area) // (2 * area), least), QUERY_LIMIT)

    def delay(self, slew, load):
        return self.look(slew, load, -QUERY_LIMIT)

    def transition(self, slew, load):
        return self.look(slew, load, 0)
