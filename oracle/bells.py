"""A bell's line straight from its definition: whole histories, and every tick tried."""

from windows import LAST_TICK, keeps


class Refused(Exception):
    def __init__(self, number):
        self.number = number


class Bell:
    """A bell whose limits were laid, each after so many strokes had been struck already."""

    def __init__(self, layers, struck=()):
        self.layers = layers
        self.struck = list(struck)
        self.granted = []
        self.handed = 0
        self.clock = 0

    def allowed(self, tick):
        strokes = self.struck + [tick]
        rising = all(a <= b for a, b in zip(strokes, strokes[1:]))
        return rising and all(keeps(limit, strokes[laid:]) for limit, laid in self.layers)

    def earliest(self, tick):
        while tick <= LAST_TICK:
            if self.allowed(tick):
                return tick
            tick += 1
        return None

    def waits(self):
        return len(self.granted) - self.handed

    def in_time(self, tick):
        if tick > LAST_TICK:
            raise Refused(2)
        if tick < self.clock:
            raise Refused(11)

    def request(self, tick):
        self.in_time(tick)
        if self.waits() == 32:
            raise Refused(12)
        due = self.earliest(tick)
        if due is None:
            raise Refused(13)
        self.struck.append(due)
        self.granted.append((tick, due))
        self.clock = tick
        return due

    def take(self, tick):
        self.in_time(tick)
        self.clock = tick
        if self.waits() == 0 or self.granted[self.handed][1] > tick:
            return None
        self.handed += 1
        return self.granted[self.handed - 1]

    def gap(self, tick):
        self.in_time(tick)
        return tick - self.granted[self.handed - 1][1] if self.handed else None
