"""Control flow graphs in the notation of the program `flows`, for scripts/bench.py: each kind by its number of blocks, of steps, of
ends or of successors.
"""


def flow(blocks, leaves=0):
    return (" | ".join(blocks) + f" ; 0, {leaves}\n").encode()


def row(count):
    """Blocks behind one another."""
    return flow([f"P{number} > {number + 1}" for number in range(count - 1)] + [f"P{count} E{count}"])


def differing_arms(count):
    """Ifs, one behind another, each with an arm that acquires: three blocks each."""
    blocks = []
    for number in range(0, count - 2, 3):
        blocks += [f"P{number} > {number + 1} {number + 2}", f"P{number + 1} A{number + 1}+1 > {number + 2}", f"P{number + 2} > {number + 3}"]
    return flow([*blocks, f"P{count} E{count}"])


def back_to_first(count):
    """Blocks behind one another that each may go back to the first."""
    return flow([f"P{number} > 0 {number + 1}" for number in range(count - 1)] + [f"P{count} E{count}"])


def nested_loops(count):
    """Loops around one block, each with the next one inside."""
    heads = [f"M{number} > {number + 1} {number - 1 if number else count + 1}" for number in range(count)]
    return flow([*heads, f"P{count} A{count}+1 A{count}-1 > {count - 1}", f"P{count + 1} E{count + 1}"])


def steps(count):
    """One block of so many steps."""
    pairs = "".join(f"P{number} A{number}{'-+'[number % 2]}1 " for number in range(1, count // 2 + 1))
    return flow([pairs.rstrip()])


def ends(count):
    """A block behind which each path goes to an end of its own."""
    successors = " ".join(str(number) for number in range(1, count + 1))
    return flow([f"P0 > {successors}", *(f"P{number} E{number}" for number in range(1, count + 1))])


def cases(count, leaves=1):
    """A block with so many successors, which each acquire and meet at one end."""
    successors = " ".join(str(number) for number in range(1, count + 1))
    arms = [f"P{number} A{number}+1 > {count + 1}" for number in range(1, count + 1)]
    return flow([f"P0 > {successors}", *arms, f"P{count + 1} E{count + 1}"], leaves)


SIZES = (1000, 10000, 100000, 1000000)

# Each kind with its name, how a flow of so many is made, and the sizes.
KINDS = (
    ("flows: a row", row, SIZES),
    ("flows: ifs of unlike arms", differing_arms, SIZES),
    ("flows: back to the first", back_to_first, SIZES),
    ("flows: nested loops", nested_loops, SIZES),
    ("flows: steps of a block", steps, SIZES),
    ("flows: ends", ends, SIZES),
    ("flows: cases", cases, (20000, 100000)),
)
