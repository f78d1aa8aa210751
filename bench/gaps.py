# What rules cost that list their moves alone, beside the same rules with the sink written out: Settle and the search on files that differ in nothing else. Run
# from the repository's root after `python3 tools/build.py settlings nodes`.
#     python3 bench/gaps.py
# Instructions are counted by valgrind's callgrind, as bench/settling.py and bench/search.py count them; answers, rounds and nodes are held to be the same.
import sys
from pathlib import Path

import counted
import search
import settling

ROOT = Path(__file__).resolve().parent.parent
sys.path.insert(0, str(ROOT / "tools"))

from checking import machines  # noqa: E402
from packing import GAP, Automaton, Problem, pack, unpack  # noqa: E402

FREE = 2**64 - 1


def with_sinks(automaton):
    """The automaton with a sink written out, where it has a gap."""
    machine = machines.of(automaton)
    return Automaton([f"q{i}" for i in range(len(machine.moves))], machine.accepting, [list(row) for row in machine.moves])


def with_gaps(automaton):
    """The automaton with gaps in the place of its sinks."""
    return machines.automaton(machines.of(automaton))


def held(problem, rule):
    """One string of any letters, held to a rule of the problem."""
    free = [FREE] + [2 ** len(problem.letters) - 1] * 63
    return Problem(problem.letters, {"name": free}, {}, {rule: problem.automata[rule]}, [(7, (0, 0))])


def rewritten(problem, form):
    return pack(Problem(problem.letters, problem.strings, problem.numbers, {name: form(a) for name, a in problem.automata.items()}, problem.constraints))


def problems():
    dates, signers = [unpack((ROOT / "examples" / f"{name}.problem").read_bytes()) for name in ("dates", "signers")]
    yield "examples/dates, by moves", dates
    yield "any string, held to its rule of 11 states", held(dates, "d0")
    yield "examples/signers, by patterns", signers
    yield "any string, held to its first rule", held(signers, "d0")


def costs(settlings, nodes, content):
    """What the two programs answer, and the instructions of one Settle and of the whole search."""
    answers = settling.answer(settlings, content, settling.SETTLE), search.answer(nodes, content, search.BUDGET)
    settle = settling.instructions(settlings, content, settling.SETTLE) - settling.instructions(settlings, content, settling.UNPACK)
    whole, none = [counted.instructions(nodes, search.case(content, 0, budget)) for budget in (search.BUDGET, 0)]
    return answers, settle, whole - none


def main():
    settlings, nodes = counted.program("settlings"), counted.program("nodes")
    print("| problem | states with sinks | with gaps | Settle with sinks | with gaps | search with sinks | with gaps |")
    print("|---|---|---|---|---|---|---|")
    for what, problem in problems():
        sinks, gaps = [{name: form(a) for name, a in problem.automata.items()} for form in (with_sinks, with_gaps)]
        assert not any(GAP in row for a in sinks.values() for row in a.moves)
        (said, settle, search_), (same, settle_gaps, search_gaps) = [costs(settlings, nodes, rewritten(problem, form)) for form in (with_sinks, with_gaps)]
        assert said == same, what
        states = " | ".join(", ".join(str(len(a.moves)) for a in form.values()) for form in (sinks, gaps))
        print(f"| {what} | {states} | {settle:,} | {settle_gaps:,} | {search_:,} | {search_gaps:,} |", flush=True)


if __name__ == "__main__":
    sys.exit(main())
