"""Examples with a compiler's answers: as lines of a module of definitions, and beside the ones that are committed."""
import sys

# So many rows are one fact.
OF_FACT = 100


def facts(rows, asked):
    """The lines of the facts that what is asked of each shape is its answer."""
    lines = []
    for start in range(0, len(rows), OF_FACT):
        part = rows[start:start + OF_FACT]
        lines += [f"  pub from_{start} :", f"      {asked}"]
        lines += [f"      {'(' if at == 0 else '∷ '}{shape}" for at, (shape, _) in enumerate(part)]
        lines.append("      ∷ [])")
        lines += [f"      {'≡' if at == 0 else '∷'} {answer}" for at, (_, answer) in enumerate(part)]
        lines.append("      ∷ []")
    return lines


def written_or_compared(path, text, told):
    """With the word --write the examples become this text; without it they are compared with it. The status of the script."""
    if "--write" in sys.argv[1:]:
        with open(path, "w", encoding="utf-8") as out:
            out.write(text)
        print(f"{told} written")
        return 0
    with open(path, encoding="utf-8") as old:
        committed = old.read().splitlines()
    same = text.splitlines() == committed
    print(f"{told}, {'as the examples have them' if same else 'NOT as the examples have them'}")
    print(*(new for new, line in zip(text.splitlines(), committed) if new != line), sep="\n", end="" if same else "\n")
    return 0 if same else 1
