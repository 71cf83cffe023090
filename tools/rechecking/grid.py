"""Numbers, intervals and rounding: docs/FORMATS.md, "Numbers"; docs/RULES.md, "Notes".

A number of the grid is kept as the whole number of units of 2^-512 that it has. The infinite ends
are INF and -INF, which are compared and negated alone. An interval is a pair of ends.
"""

INF = float("inf")
UNIT = 1 << 512  # the number 1
MOST = (2 ** 60 - 1) << 1024
WHOLE, ONE, ZERO = (-INF, INF), (UNIT, UNIT), (0, 0)
DIRECTIONS = ("zr", "aw", "dn", "up", "od", "ne", "no", "nz", "na", "nd", "nu")


def down(n):
    """The greatest number of the grid that isn't above n units, or -INF."""
    if n in (INF, -INF):
        return n
    more = max(0, n.bit_length() - 60)
    n = n >> more << more
    return MOST if n > MOST else -INF if n < -MOST else n


def up(n):
    """The least number of the grid that isn't below n units, or INF."""
    return -down(-n)


def outward(low, high):
    """The interval of two fractions, rounded outward; None is an end that isn't there."""
    return (-INF if low is None else down((low.numerator << 512) // low.denominator),
            INF if high is None else up(-((-high.numerator << 512) // high.denominator)))


def place(n):
    """The greatest k of which n units, not 0, are a multiple of 2^k."""
    return (n & -n).bit_length() - 513


def show(end):
    """An end as it is printed."""
    if end in (0, INF, -INF):
        return {0: "0", INF: "+inf", -INF: "-inf"}[end]
    mantissa, power = end // (end & -end), place(end)
    return "%db%d" % (mantissa, power) if power else str(mantissa)


def finite(i):
    """Whether both ends are numbers."""
    return INF not in (-i[0], i[1])


def inside(i, j):
    """Whether i lies in j."""
    return j[0] <= i[0] and i[1] <= j[1]


def meet(i, j):
    """What both intervals have, or None."""
    low, high = max(i[0], j[0]), min(i[1], j[1])
    return (low, high) if low <= high else None


def neg(i):
    """The negated interval."""
    return (-i[1], -i[0])


def size(i):
    """The interval of the absolute values."""
    return i if i[0] >= 0 else neg(i) if i[1] <= 0 else (0, max(-i[0], i[1]))


def add(i, j):
    """The sum, rounded outward."""
    return (-INF if -INF in (i[0], j[0]) else down(i[0] + j[0]),
            INF if INF in (i[1], j[1]) else up(i[1] + j[1]))


def sub(i, j):
    """The difference, rounded outward."""
    return add(i, neg(j))


def mul(i, j):
    """The product, rounded outward; the whole line if an end is infinite."""
    if not (finite(i) and finite(j)):
        return WHOLE
    ends = [a * b for a in i for b in j]
    return (down(min(ends) >> 512), up(-(-max(ends) >> 512)))


def div(i, j):
    """The quotient, rounded outward, or None if j has 0; the whole line if an end is infinite."""
    if j[0] <= 0 <= j[1]:
        return None
    if not (finite(i) and finite(j)):
        return WHOLE
    ends = [(a << 512, b) for a in i for b in j]
    return (down(min(a // b for a, b in ends)), up(max(-(-a // b) for a, b in ends)))


def multiples(i, k):
    """The least interval that holds the multiples of 2^k in i, or None."""
    step = 1 << max(0, k + 512)
    low = i[0] if i[0] == -INF else -(-i[0] // step) * step
    high = i[1] if i[1] == INF else i[1] // step * step
    return (low, high) if low <= high else None


def rounded(direction, lsb, end):
    """The end rounded to a multiple of 2^lsb; an infinite one stays."""
    if end in (INF, -INF):
        return end
    step = 1 << (lsb + 512)
    low, rest = divmod(end, step)
    if direction[0] == "n" and 2 * rest != step:
        higher = 2 * rest > step
    else:  # of two that are as near, the second letter tells which
        higher = {"dn": False, "nd": False, "up": True, "nu": True, "zr": end < 0, "nz": end < 0,
                  "aw": end > 0, "na": end > 0, "od": low % 2 == 0, "no": low % 2 == 0,
                  "ne": low % 2 == 1}[direction]
    return (low + (higher and rest > 0)) * step


def error(direction, lsb, most):
    """Row 42's interval E of a rounding's error, with `most` as the fraction for each 2^lsb."""
    most = type(most)(2) ** (lsb - 1) if direction[0] == "n" else most
    return outward(-most * (direction != "up"), most * (direction != "dn"))
