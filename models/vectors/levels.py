#!/usr/bin/env python3
"""Makes the stored cases of the program level_cases, and the line that it must write. Each run makes the same bytes:

    python3 models/vectors/levels.py

A case: n, t, w, the own number, the round and the answer (4 bytes each, high byte first); the level and the correction, each
as a byte that is 1 for a negative number and a magnitude of 4 bytes; the own value (8 bytes); 32 values of 4 bytes; 32
confidences.

The level is that of Ask 3 of the change requests: where b of the n columns are at confidence 0, the t-b lowest and the t-b
highest of the other heights are dropped, and half of the sum of the lowest and the highest left, rounded down, is the level;
with b above t the call is refused 22. It is worked out here with Python's own integers, minimum, maximum and division, which
rounds down.
"""
import random
import struct
from collections import Counter
from pathlib import Path

LOWEST, HIGHEST = -(2**31), 2**31 - 1
draw = random.Random(20261116)


def refusal(case):
    n, t, w = case["n"], case["t"], case["w"]
    lines = [
        (1, not 1 <= n <= 32),
        (2, n < 3 * t + 1),
        (3, not 1 <= w <= 8),
        (4, not 1 <= case["number"] <= n),
        (6, not any(case["own"][:w])),
        (17, case["round"] != 4),
        (21, w != 4),
        (22, blanks(case) > t),
    ]
    return next((number for number, applies in lines if applies), 0)


def blanks(case):
    """Ask 3's b: how many of the n columns are at confidence 0."""
    return case["confidences"][: case["n"]].count(0)


def confident(case):
    """The heights of confidence above 0."""
    pairs = list(zip(case["heights"], case["confidences"]))[: case["n"]]
    return [height for height, confidence in pairs if confidence > 0]


def outcome(case):
    answer = refusal(case)
    if answer:
        return answer, 0, 0
    kept = confident(case)
    for _ in range(case["t"] - blanks(case)):
        kept.remove(min(kept))
        kept.remove(max(kept))
    level = (min(kept) + max(kept)) // 2
    return 0, level, level - int.from_bytes(case["own"][:4], "big", signed=True)


def packed(case):
    answer, level, correction = outcome(case)
    head = struct.pack(">6I", case["n"], case["t"], case["w"], case["number"], case["round"], answer)
    numbers = b"".join(struct.pack(">BI", x < 0, abs(x)) for x in (level, correction))
    return head + numbers + case["own"] + struct.pack(">32i", *case["heights"]) + bytes(case["confidences"])


HEIGHTS = {
    "any": lambda: draw.randint(LOWEST, HIGHEST),
    "extreme": lambda: draw.choice([LOWEST, LOWEST + 1, HIGHEST - 1, HIGHEST]),
    "around zero": lambda: draw.randint(-3, 3),
    "negative": lambda: -draw.randint(1, 60000),
    "tied": lambda: draw.choice([-1004, -1000, 1000, 1004]),
    "lift": lambda: draw.randint(0, 18000),
}


def own_height():
    """Any but 0, which is blank."""
    return draw.choice([LOWEST, HIGHEST, -1, 1, draw.randint(LOWEST, -1), draw.randint(1, HIGHEST)])


def case_of(n, t, heights, confidences, own=None, w=4, number=None, round=4):
    own = own if own is not None else struct.pack(">i", own_height())
    return {
        "n": n,
        "t": t,
        "w": w,
        "number": number if number is not None else draw.randint(1, max(n, 1)),
        "round": round,
        "own": (own + draw.randbytes(8))[:8],
        "heights": (heights + [draw.randint(LOWEST, HIGHEST) for _ in range(32)])[:32],
        "confidences": (confidences + [draw.randint(0, 2) for _ in range(32)])[:32],
    }


def marked(n, blank):
    """Confidences of which so many are 0, in any places; of the others one of 17 is of a damaged record."""
    places = set(draw.sample(range(n), blank))
    return [0 if j in places else draw.choice([1, 2] * 8 + [255]) for j in range(n)]


def groups():
    """n and t: every t with its smallest n, and others."""
    for t in range(11):
        yield 3 * t + 1, t
    for _ in range(19):
        n = draw.randint(1, 32)
        yield n, draw.randint(0, (n - 1) // 3)
    yield 32, 10
    yield 32, 0


def counts_of_blanks(n, t):
    """None, those about t, where the answer turns, and all; then any at most t, and any."""
    about = {0, t - 1, t, t + 1, n} - {-1}
    return sorted(about) + [draw.randint(0, t), draw.randint(0, n)]


def of_every_group():
    for n, t in groups():
        for kind in HEIGHTS.values():
            for blank in counts_of_blanks(n, t):
                yield case_of(n, t, [kind() for _ in range(n)], marked(n, blank))
        equal = draw.choice([LOWEST, HIGHEST, -7, 1])
        for heights, own in [
            ([equal], None),
            ([LOWEST, HIGHEST], struct.pack(">i", LOWEST)),
            ([LOWEST], struct.pack(">i", HIGHEST)),
            ([HIGHEST], struct.pack(">i", LOWEST)),
        ]:
            yield case_of(n, t, (heights * n)[:n], marked(n, draw.randint(0, t)), own=own)


def of_refusals():
    """Lines of the refusals that apply together."""
    for _ in range(1200):
        n = draw.choice([0, 33, 2**32 - 1] + [draw.randint(1, 32)] * 12)
        most = max(0, (min(n, 32) - 1) // 3)
        t = draw.choice([draw.randint(0, 12), 2**32 - 1, 1431655765] + [draw.randint(0, most)] * 12)
        size = min(n, 32)
        yield case_of(
            n,
            t,
            [draw.choice(list(HEIGHTS.values()))() for _ in range(size)],
            marked(size, draw.choice([draw.randint(0, min(t, size)), draw.randint(0, size)])),
            own=draw.choice([bytes(4), bytes(4), None, None, None, None, None]),
            w=draw.choice([0, 9, 2**32 - 1, 1, 2, 3, 5, 6, 7, 8] + [4] * 20),
            number=draw.choice([0, n + 1 if n < 2**32 - 1 else 0] + [None] * 10),
            round=draw.choice([0, 1, 2, 3, 5, 2**32 - 1] + [4] * 20),
        )


def cases():
    yield from of_every_group()
    for total in range(-40, 41):  # halves of every small number
        low = draw.randint(-50, 50)
        yield case_of(2, 0, [low, total - low], [2, 1])
    yield from of_refusals()
    # The two that the documents work out: a level of -4, and Ask 3's of 1005, which stands last, where a test changes it.
    yield case_of(2, 0, [-5, -2], [2, 2], own=struct.pack(">i", -5), number=1)
    yield case_of(4, 1, [1000, 1004, 1010, 0], [2, 2, 2, 0], own=struct.pack(">i", 1000), number=1)


def main():
    program = Path(__file__).resolve().parents[2] / "crates" / "level_cases"
    stored = list(cases())
    (program / "stdin").write_bytes(b"".join(map(packed, stored)))
    (program / "stdout").write_text(f"level: {len(stored)} vectors agree\n")
    answers = Counter(outcome(case)[0] for case in stored)
    print(f"{len(stored)} cases; " + ", ".join(f"{many} of answer {answer}" for answer, many in sorted(answers.items())))


main()
