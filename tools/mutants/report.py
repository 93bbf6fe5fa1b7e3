"""The table of the results, and what is wrong with them."""
import sys

import judging

COLUMNS = (judging.REFUSED, judging.MISFIT, judging.COMPILER, judging.NO_ANSWER, "changes nothing", judging.SURVIVED)


def heading():
    """Prints the table's head."""
    print("| crate | made | tried | " + " | ".join(COLUMNS) + " |")
    print("|---" * (len(COLUMNS) + 3) + "|")


def row(crate, made, verdicts, reasons):
    """Prints a crate's row of the table and its unexplained survivors, and answers how many things are wrong."""
    counts, wrong = dict.fromkeys(COLUMNS, 0), []
    tried = {mutant.name: verdicts[mutant.name] for mutant in made if mutant.name in verdicts}
    for name, found in tried.items():
        explained = found == judging.SURVIVED and name in reasons
        counts["changes nothing" if explained else found] += 1
        if found == judging.SURVIVED and not explained:
            wrong.append("survived: " + "\n  ".join(name))
    names = {mutant.name for mutant in made}
    for name in reasons:
        if name[0].startswith(crate + "::") and (name not in names or tried.get(name, judging.SURVIVED) != judging.SURVIVED):
            wrong.append(f"listed as unobservable, and is {tried.get(name, 'not made')}: " + "\n  ".join(name))
    print("| " + " | ".join([crate, str(len(made)), str(len(tried))] + [str(counts[c]) for c in COLUMNS]) + " |", flush=True)
    print(*wrong, sep="\n", end="\n" if wrong else "", file=sys.stderr)
    return len(wrong)
