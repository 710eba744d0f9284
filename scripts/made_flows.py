"""Random control flow graphs in the notation of the program `flows`, and their answers, found apart: by following paths with their
counts, each as far as twice as many blocks as there are.

That is far enough. Give each block the count of a shortest path to it. A path that comes to a block with another count has gone somewhere
from one block to another whose count isn't the one that comes of the first block's. So two paths come to that other block with different
counts, each a shortest one, to it or to the block before; and both go on from there by a shortest way.
"""
MOST_BLOCKS = 6
MOST_TOKEN = 7


def step_text(step):
    kind, token, *numbers = step
    if kind == "A":
        return f"A{token}{numbers[0]:+d}"
    return f"C{token}({numbers[0]},{numbers[1]})" if kind == "C" else f"{kind}{token}"


def flow_text(blocks, enters, leaves):
    """A flow in a line of its own."""
    shown = []
    for steps, successors in blocks:
        behind = "".join(f" {number}" for number in successors)
        shown.append((" ".join(map(step_text, steps)) or "-") + (f" >{behind}" if behind else ""))
    return f"{' | '.join(shown)} ; {enters}, {leaves}\n"


def random_steps(chance):
    """The steps of a block: none, or some that begin with a point. Most changes are small, so that often nothing is wrong."""
    steps = []
    for _ in range(chance.choice((0, 1, 1, 2, 3))):
        token = chance.randrange(1, MOST_TOKEN)
        steps.append((chance.choice("PPPM"), token))
        kind = chance.choice("  AAACEEE")
        if kind == "A":
            steps.append(("A", token, chance.choice((-1, 1, 1, 2))))
        elif kind == "C":
            steps.append(("C", token, *chance.choice(((0, 1), (1, 0), (1, 1), (0, 0)))))
        elif kind == "E":
            steps.append(("E", token))
    return steps


def random_flow(chance):
    """Up to six blocks, with the counts to enter and to leave with."""
    count = chance.randrange(1, MOST_BLOCKS + 1)
    blocks = []
    for number in range(count):
        successors = [chance.randrange(count) for _ in range(chance.choice((0, 1, 1, 2, 2, 3)))]
        if number + 1 < count and chance.randrange(2):
            successors.append(number + 1)
        blocks.append((random_steps(chance), successors))
    return blocks, chance.choice((0, 0, 0, 1, 2, -1)), chance.choice((0, 0, 0, 1, 2))


def change(step):
    if step[0] == "A":
        return step[2]
    return step[3] - step[2] if step[0] == "C" else 0


def counts_at_starts(blocks, enters):
    """The counts with which paths come to each block, along all paths of at most twice as many blocks as there are."""
    totals = [sum(map(change, steps)) for steps, _ in blocks]
    found = [set() for _ in blocks]
    found[0].add(enters)
    fresh = {0: {enters}}
    for _ in range(2 * len(blocks) - 1):
        coming = {}
        for number, counts in fresh.items():
            behind = {count + totals[number] for count in counts}
            for other in blocks[number][1]:
                coming.setdefault(other, set()).update(behind)
        fresh = {number: counts - found[number] for number, counts in coming.items()}
        for number, counts in fresh.items():
            found[number] |= counts
    return found


def passed_steps(blocks, enters):
    """Each step that such a path passes, with each count with which one comes to it."""
    passed = set()
    for (steps, _), counts in zip(blocks, counts_at_starts(blocks, enters), strict=True):
        added = 0
        for step in steps:
            passed.update((step, count + added) for count in counts)
            added += change(step)
    return passed


def is_too_low(step, count):
    if step[0] == "A":
        return count + step[2] < 0
    return step[0] == "C" and (count < step[2] or count + step[3] - step[2] < 0)


def answer(blocks, enters, leaves):
    """The answer for a flow."""
    passed = passed_steps(blocks, enters)
    counts = {}
    for step, count in passed:
        if step[0] in "PM":
            counts.setdefault(step, set()).add(count)
    different = [step[1] for step, found in counts.items() if len(found) > 1]
    if different:
        return f"Different({min(different)})"
    low = [step[1] for step, count in passed if is_too_low(step, count)]
    if low:
        return f"Below({min(low)})"
    wrong = [(step[1], count) for step, count in passed if step[0] == "E" and count != leaves]
    return "WrongExit({}, {})".format(*min(wrong)) if wrong else "Balanced"
