"""Writes what the program `curves` has to print: python3 oracle/curves.py > crates/curves/stdout"""

from windows import audit, burst, jittered


def strokes(n):
    return "stroke" if n == 1 else "strokes"


def tell_stair(stair):
    burst_size, period = stair[1]
    print(f"  at most {burst_size} {strokes(burst_size)}, and one more for every {period} ms of its length;")


def tell_table(table):
    for k, d in enumerate(table[1]):
        if k == 0:
            print(f"  at least {d} ms from a stroke to the next;")
        else:
            print(f"  at least {d} ms from a stroke to one with {k} {strokes(k)} between;")


def tell_dues(limits, count):
    ticks = ", ".join(str(t) for t in burst(limits, count))
    print(f"{count} strokes asked for at 0 ms, each as early as that allows, are due at {ticks} ms.")


def tell_audit(limits, trace):
    mine = [tick for bell, tick in trace if bell == 1]
    place = audit(limits, mine)
    print(f"A recorder wrote down bell 1 at {' '.join(map(str, mine))} ms: ", end="")
    print("no stroke too many." if place is None else f"stroke {place} is one too many, and came too soon.")
    print()


three = [("stair", (1, 1)), ("stair", (3, 4)), ("stair", (5, 8))]
print("Three stairs, each laid on the next. In any stretch of time there are")
for each in three:
    tell_stair(each)
tell_dues(three, 9)
tell_audit(three, [(1, 0), (2, 0), (1, 1), (1, 2), (2, 3), (1, 4), (1, 8), (1, 11), (1, 16)])

two = ("table", (10, 30))
print("A table. There are")
tell_table(two)
tell_dues([two], 5)
tell_audit([two], [(2, 5), (1, 0), (1, 10), (1, 30), (1, 39), (1, 60)])

first, second = jittered(100, 300, 20)
print("A chime drum strikes every 100 ms, each stroke up to 300 ms late, and none less than 20 ms after another.")
print("That takes two stairs. In any stretch of time there are")
tell_stair(first)
tell_stair(second)
tell_dues([first, second], 10)
tell_audit([first, second], [(1, 0), (1, 20), (2, 30), (1, 40), (1, 60), (1, 99), (1, 200)])
