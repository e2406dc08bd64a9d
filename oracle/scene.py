"""Writes what the program `scene` has to print: python3 oracle/scene.py > crates/scene/stdout"""

from bells import Bell, Refused
from windows import LAST_TICK

BELLS = {
    0: Bell([(("stair", (2, 60_000)), 0)]),
    1: Bell([(("table", (400, 1000)), 0)]),
    3: Bell([(("stair", (1, 2000)), 0), (("stair", (2, 3000)), 1)], struck=[500]),
}

WHY = {
    1: "there is no such bell",
    2: "the tick is past the last one",
    11: "the tick is before the bell's clock",
    12: "there is no more room",
    13: "no tick up to the last one suits",
}

ASKED = {
    "ask": "At {t} ms, a stroke of bell {n}? ",
    "take": "At {t} ms, is a stroke of bell {n} due? ",
    "gap": "At {t} ms, how long since bell {n} was due? ",
    "count": "How many strokes of bell {n} wait? ",
}


def answer(kind, n, t):
    if n not in BELLS:
        raise Refused(1)
    bell = BELLS[n]
    if kind == "ask":
        return f"Granted, due at {bell.request(t)} ms."
    if kind == "take":
        stroke = bell.take(t)
        return f"Yes, asked for at {stroke[0]} ms and due at {stroke[1]} ms." if stroke else "No."
    if kind == "gap":
        ticks = bell.gap(t)
        return "It was not rung yet." if ticks is None else f"{ticks} ms."
    return f"{bell.waits()}."


def tell(kind, n, t=None):
    print(ASKED[kind].format(n=n, t=t), end="")
    try:
        print(answer(kind, n, t))
    except Refused as refusal:
        print(f"Refused by {refusal.number}: {WHY[refusal.number]}.")


print("Bell 0 rings twice at once, and then once a minute.")
print("Bell 1 needs 400 ms from a stroke to the next, and 1000 ms to the one after that.")
print("Bell 3 rings once every 2000 ms. It rang at 500 ms, and was then hung to ring twice at once and once every 3000 ms besides.")
print()
tell("ask", 0, 0)
tell("ask", 0, 0)
tell("ask", 0, 0)
tell("gap", 0, 5)
tell("take", 0, 10)
tell("ask", 0, 5)
tell("ask", 1, 5)
tell("ask", 1, 5)
tell("ask", 1, 100)
tell("ask", 2, 100)
tell("ask", 3, 200)
tell("ask", 3, 300)
tell("count", 1)
tell("take", 1, 404)
tell("take", 1, 404)
tell("take", 1, 500)
tell("gap", 0, 60_000)
tell("take", 0, 60_000)
tell("take", 0, 60_000)
tell("take", 0, 60_000)
tell("gap", 0, 3_660_000)
tell("ask", 3, LAST_TICK + 1)
tell("ask", 3, LAST_TICK)
tell("ask", 3, LAST_TICK)
