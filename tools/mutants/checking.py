"""Tries a round of mutants, and tells what became of each."""
import judging


def judged(scratch, mutants):
    """The mutants of a round, each with its verdict and the words that say so."""
    log = scratch.log_of(mutants)
    if log is None:
        return alone(scratch, mutants, (judging.NO_ANSWER, "the prover takes too long"))
    errors = judging.compiler_errors(log)
    if errors or "\nlogic=" not in log:
        return without_refused(scratch, mutants, errors, log)
    if len(mutants) > 1 and mutants[0].of_constant and "\nlogic=proved" not in log:
        return alone(scratch, mutants, None)
    found, number = [], scratch.number
    for mutant in mutants:
        word, said = judging.verdict_on(mutant, log)
        if word == judging.HIDDEN and len(mutants) > 1:
            found += judged(scratch, [mutant])
        else:
            found.append((mutant, judging.NO_ANSWER if word == judging.HIDDEN else word, f"{number}.log: {said}"))
    return found


def without_refused(scratch, mutants, errors, log):
    """The same for a round in which the compiler refused some: those, and the verdicts on the others."""
    blamed = judging.blamed(errors, scratch.changed(mutants), mutants)
    if not blamed:
        return alone(scratch, mutants, (judging.COMPILER, log.strip().splitlines()[-1]))
    left = [m for m in mutants if all(m is not b for b, _ in blamed)]
    return [(m, judging.COMPILER, said) for m, said in blamed] + (judged(scratch, left) if left else [])


def alone(scratch, mutants, said):
    """What was said of a mutant that was alone; several are tried one by one."""
    if len(mutants) == 1:
        return [(mutants[0],) + said]
    return [found for mutant in mutants for found in judged(scratch, [mutant])]
