#!/usr/bin/env python3
"""Measures the program on each family of files of parsing and of judging, at four sizes in one run.

usage: bench_parsing.py PROGRAM

Prints a row of a table for each: its most tokens, which are those of a unit or as many as it can have; the instructions by the token of
a check, above those of an empty file, of 1,000, 10,000 and 100,000 tokens, where valgrind is installed; the seconds of a tenth and of
the whole, each the least of three runs, and how many times as long the whole takes; of the whole the nanoseconds by the token from its
tokens to its tree, or to its warnings, which are those of a check without those of `-E`, and the bytes by the token at its peak. A file
of parsing has a token more, which the grammar doesn't derive, so that its check ends where its tree would be judged.

Exits 1 where the largest takes more than eleven times as long as a tenth of it, or more bytes than 400, or where parsing takes more
nanoseconds than 400.
"""
import sys

import bench
import bench_texts as texts

COUNTED = (1_000, 10_000, 100_000)
# Behind a unit the grammar derives no such token.
UNDERIVED = b"\n)"
MOST_NANOSECONDS = 400
MOST_BYTES = 400


def parts_for(family, tokens, largest):
    """How often the part of a family stands in a text of about so many tokens, or in its largest text."""
    few, many = (texts.tokens_in(family.make(count)) for count in (100, 200))
    return min(round(tokens / ((many - few) / 100)), largest)


def instructions_of(family, check, largest):
    """The instructions by the token of the texts up to 100,000 tokens, each of another size."""
    counts = sorted({parts_for(family, tokens, largest) for tokens in COUNTED})
    return [check.instructions_a_token(family.make(count)) for count in counts]


def ended(family, end):
    """The family with this behind each text."""
    return family._replace(make=lambda count: family.make(count) + end)


def passes(family, check, expand, most_nanoseconds):
    """Whether the family grows in step, and stays within its time and memory. Prints its row."""
    largest = family.measured_sizes()[-1]
    whole = family.make(largest)
    tokens = texts.tokens_in(whole)
    shorter, _ = check.run(family.make(largest // 10))
    seconds, kibibytes = check.run(whole)
    nanoseconds = (seconds - expand.run(whole)[0]) / tokens * 1e9
    memory = kibibytes * 1024 / tokens
    counted = ", ".join(f"{it:,.0f}" for it in instructions_of(family, check, largest) if it is not None)
    cells = [family.name, f"{tokens:,}", counted, f"{shorter:.3f}, {seconds:.3f}", f"{seconds / max(shorter, bench.LEAST_CALL_SECONDS):.1f}"]
    print("|", " | ".join([*cells, f"{nanoseconds:.0f}", f"{memory:.0f}"]), "|", flush=True)
    grows_in_step = bench.takes_in_step({largest // 10: shorter, largest: seconds}, bench.MOST_CALL_RATIO) or bench.pairs_take_in_step(
        check, family.name, family.make(largest // 10), whole, bench.MOST_CALL_RATIO
    )
    is_small = memory <= MOST_BYTES or kibibytes < bench.LEAST_KIBIBYTES
    return grows_in_step and is_small and nanoseconds <= most_nanoseconds


def main():
    program = sys.argv[1]
    expand = bench.Checker("-E", [program, "-E"], (0,))
    check = bench.Checker("check", [program], (0, 1, 2))
    parsed = [ended(it, UNDERIVED) for it in bench.FAMILIES if it.name.startswith("parsing: ")]
    rows = [(it, check, MOST_NANOSECONDS) for it in parsed]
    rows += [(it, check, float("inf")) for it in bench.JUDGING]
    print("| File | Tokens | Instructions a token | Seconds | Times as long | ns a token | Bytes of memory a token |")
    print("|---|---|---|---|---|---|---|")
    return 0 if all([passes(family, checker, expand, most) for family, checker, most in rows]) else 1


if __name__ == "__main__":
    sys.exit(main())
