"""What stairs and tables ask of a list of strokes, straight from their definitions.

Slow on purpose: every closed window between strokes and every pair of strokes is looked at again for each new stroke.
Nothing here remembers a state, so nothing here can share a mistake with the state that the proved rules keep.
"""

LAST_TICK = 1_000_000_000_000


def keeps_stair(burst, period, strokes):
    """Every closed window holds at most burst strokes, and one more for each whole period in its length."""
    return all(
        last - first + 1 <= burst + (strokes[last] - strokes[first]) // period
        for first in range(len(strokes))
        for last in range(first, len(strokes))
    )


def distance(given, n):
    """The least distance to the n-th stroke after one: given, or the best sum of a given and a shorter distance."""
    if not given:
        return 0
    table = [0] + list(given)
    for m in range(len(table), n + 1):
        table.append(max(table[w] + table[m - w] for w in range(1, len(given) + 1)))
    return table[n]


def keeps_table(given, strokes):
    """Any two strokes are as far apart as the table wants."""
    return all(
        strokes[i + n] - strokes[i] >= distance(given, n)
        for i in range(len(strokes))
        for n in range(1, len(strokes) - i)
    )


def keeps(limit, strokes):
    kind, numbers = limit
    return keeps_stair(*numbers, strokes) if kind == "stair" else keeps_table(numbers, strokes)


def allowed(limits, strokes):
    """What a pile of limits on an open rule allows."""
    rising = all(a <= b for a, b in zip(strokes, strokes[1:]))
    return rising and all(keeps(limit, strokes) for limit in limits)


def earliest(limits, past, tick):
    """The least tick from the given one on that may follow the past, or None: each tick is tried."""
    while tick <= LAST_TICK:
        if allowed(limits, past + [tick]):
            return tick
        tick += 1
    return None


def burst(limits, count):
    """The due ticks of a number of strokes that are asked for at 0."""
    past = []
    for _ in range(count):
        past.append(earliest(limits, past, 0))
    return past


def audit(limits, strokes):
    """The place, from 1, of the first stroke that those before it bar, or None."""
    for place in range(1, len(strokes) + 1):
        if not allowed(limits, strokes[:place]):
            return place
    return None


def jittered(period, jitter, least):
    """The two stairs of a jittered order."""
    first = ("stair", (-(-jitter // period) + 1, period))
    return first, ("stair", (1, least)) if least > 0 and least + jitter > period else first
