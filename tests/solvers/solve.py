#!/usr/bin/env python3
"""Random plans (plans.py) through `opb solve` and real solvers: solve.py SEED COUNT OPB SOLVER...

For each plan and solver, `opb solve --json` ends with 0, its true variables, by the plan's numbers and names, keep every row and give the optimum, and so do the value that it tells and the value that
the solver claims; where no assignment keeps every row, it ends with 5.

The solver's own output, as it is, is then held against the plan by `opb evaluate`: each line is the row's sum and bound as exact arithmetic has them, under the values that the output names. An
objective with a variable that has no value is refused. (toulbar2 has no value lines.)

Then plans on which solvers stumble where the file is as it stands: through `opb solve` each has its right value, or, where the solver's answer is false, 3.

Then each planted fault (false.py) must be found: a solver that lies, and one that solves another file than it was given. The last line is 'N passed, M failed'.
"""
import collections
import json
import os
import random
import re
import subprocess
import sys
import tempfile

from plans import Plan, value

HERE = os.path.dirname(os.path.abspath(__file__))
# plans with their optimum, None where there is none: the hall's; one comment between header and objective, which Sat4j 2.3.5 passes over with the line behind it; a CR in a comment, behind which clasp and
# Sat4j would read a row; negated variables, which toulbar2 1.1.1 takes for others, and minisat+ not at all; a variable twice in a row, by which Sat4j comes to a false "none" or "best"; an equality that
# cannot hold, and that clasp 3.3.5 calls kept; a value beyond which toulbar2 finds no solution where it keeps decimal places
STUMBLES = [
    (open(os.path.join(HERE, "../../examples/hall.opb")).read(), -374),
    ("* #variable= 3 #constraint= 1\n* night\nmin: 1 x1 2 x2 3 x3;\n1 x1 1 x2 >= 2;\n", 3),
    ("* night\n1 x1 1 x2 >= 3;\n1 x3 >= 1;\n", None),
    ("min: 1 x1;\n1 x1 >= 0;\n* night\r1 x1 >= 1;\n", 0),
    ("min: 2 ~x1 3 x2;\n1 ~x1 1 x2 >= 1;\n1 x1 -1 ~x2 <= 0;\n", 2),
    ("min: 3 x2;\n-17 x1 8 x1 4 x1 = 0;\n1 x1 1 x2 >= 1;\n", 3),
    ("min: -14 x1 -16 x1 -17 x1 10 x1 1 x1 -4 x1;\n-8 x1 -1 x1 -4 x1 -17 x1 10 x1 -7 x1 >= -27;\n", -40),
    ("min: 1 x1;\n2 x1 2 x2 2 x3 = 3;\n", None),
    ("min: %s;\n%s >= 11;\n" % (" ".join("600000000 x%d" % x for x in range(1, 12)), " ".join("1 x%d" % x for x in range(1, 12))), 6600000000),
]
# with what fault of the solver, and how opb must end
FAULTS = {"value": 3, "claim": 3, "row": 3, "bound": 3, "shift": 3, "silent": 4}
FAULT_CASES = 100
COMMANDS = {"clasp": ["clasp"], "minisat+": ["minisat+"], "sat4j": ["java", "-jar", "/usr/share/java/org.sat4j.pb.jar"]}
# of the forms of value lines these print this one, false as `-x1`
TOKEN = re.compile(r"(-?)x([1-9][0-9]*)")
SECONDS = 60


class Case:
    """A plan in a file, and its optimum."""

    def __init__(self, rng, folder, zeros):
        self.plan = Plan(rng, zeros)
        self.best, self.text, self.folder = self.plan.optimum(), self.plan.text(), folder
        self.file = self.at("plan.opb")
        with open(self.file, "w", newline="") as file:
            file.write(self.text)

    def at(self, name):
        return os.path.join(self.folder, name)

    def opb(self, opb, *words):
        return subprocess.run([opb, *words, "--first", str(self.plan.first)], stdout=subprocess.PIPE, stderr=subprocess.PIPE, timeout=SECONDS, universal_newlines=True)

    def is_for(self, solver):
        """toulbar2 1.1.1 does not end on a plan without variables, and has wrong answers where a weight of 0 must stay."""
        return solver != "toulbar2" or (self.plan.sums() and self.plan.weighs())


    def is_false_none(self, solver):
        """clasp 3.3.5 may take an equality for kept that cannot hold with what other rows fix."""
        return solver == "clasp" and self.best is None and any(symbol == "=" for _, symbol, _ in self.plan.rows)


def wrong_answer(case, solver, said):
    """What is wrong with an answer that `opb solve` calls good, if anything."""
    plan = case.plan
    named = {true["number"]: true["name"] for true in said["true"]}
    if named != {number: plan.names.get(v) for v, number in enumerate(plan.numbers) if number in named}:
        return "it tells these variables: %s" % named
    bits = [number in named for number in plan.numbers]
    if not plan.keeps(bits):
        return "its values break a row"
    if value(plan.objective or [], bits) != case.best:
        return "its values give %d, the optimum is %d" % (value(plan.objective, bits), case.best)
    told = case.best if plan.objective else None
    claimed = None if solver == "minisat+" else told
    found = [said[key] for key in ("status", "checked", "rows", "value", "claimed")]
    wanted = ["optimum" if plan.objective else "satisfiable", True, len(plan.rows), told, claimed]
    return None if found == wanted else "it says %s, not %s" % (found, wanted)


def wrong_solve(case, opb, solver):
    done = case.opb(opb, "solve", case.file, "--json", "--solver", solver)
    wanted = 5 if case.best is None else 0
    if done.returncode == 3 and case.is_false_none(solver):
        return None
    if done.returncode != wanted:
        return "opb solve ends with %d, not %d: %s%s" % (done.returncode, wanted, done.stdout, done.stderr)
    said = json.loads(done.stdout)
    if said["exit_status"] != wanted or (wanted == 5 and (said["status"], said["true"]) != ("unsatisfiable", [])):
        return "opb solve says %s" % done.stdout
    return wrong_answer(case, solver, said) if wanted == 0 else None


def printed_values(output):
    """The values in the last value lines of an output, by variable number, from 1 on; None where it claims no solution, or a value has another form."""
    lines = output.split("\n")
    if "s OPTIMUM FOUND" not in lines and "s SATISFIABLE" not in lines:
        return None
    last = max((at for at, line in enumerate(lines) if line.startswith("o ")), default=0)
    block = [line for line in lines[last:] if line.startswith("v")] or [line for line in lines if line.startswith("v")]
    tokens = [TOKEN.fullmatch(word) for line in block for word in line[1:].split()]
    return {int(token.group(2)): not token.group(1) for token in tokens} if all(tokens) else None


def wrong_value(opb, file, best, solver):
    """A plan without a solution may be found by a false answer to it; one with a solution must have its optimum."""
    done = subprocess.run([opb, "solve", file, "--json", "--solver", solver], stdout=subprocess.PIPE, stderr=subprocess.PIPE, timeout=SECONDS, universal_newlines=True)
    told = json.loads(done.stdout)["value"]
    good = done.returncode in (3, 5) if best is None else (done.returncode, told) == (0, best)
    return None if good else "opb solve ends with %d and the value %s, not %s: %s" % (done.returncode, told, best, done.stderr)


def wrong_evaluate(case, opb, solver, counts):
    """The solver's value lines as they are, held against the plan."""
    plan, written, output = case.plan, case.at("written.opb"), case.at("output")
    case.opb(opb, "rewrite", case.file, "--for-solvers", "-o", written).check_returncode()
    with open(output, "w") as file:
        subprocess.run(COMMANDS[solver] + [written], stdout=file, stderr=subprocess.DEVNULL, timeout=SECONDS)
    with open(output) as file:
        values = printed_values(file.read())
    if values is None:
        return "it claims no solution, or its value lines have another form"
    by_variable = [values.get(number - plan.first + 1) for number in plan.numbers]
    done = case.opb(opb, "evaluate", case.file, output)
    open_ones = [v for _, _, v in plan.objective or [] if by_variable[v] is None]
    if open_ones:
        counts["open"] += 1
        return None if done.returncode == 1 and " has no value" in done.stderr else "a variable has no value, and opb evaluate ends with %d" % done.returncode
    counts["evaluated"] += 1
    wanted = plan.evaluated([bool(bit) for bit in by_variable])
    return None if (done.returncode, done.stdout.splitlines()) == (0, wanted) else "opb evaluate says %s, not %s" % (done.stdout + done.stderr, wanted)


class Run:
    def __init__(self, seed, count, opb, solvers):
        self.seed, self.count, self.opb, self.solvers = seed, count, opb, solvers
        self.passed, self.failed, self.counts = 0, 0, {solver: collections.Counter() for solver in solvers}

    def tell(self, why, *words):
        if why:
            self.failed += 1
            print("FAILED:", *words, why, sep="\n")
        else:
            self.passed += 1

    def one(self, case, number, solver):
        counts = self.counts[solver]
        if not case.is_for(solver):
            counts["left out"] += 1
            return
        counts["none" if case.best is None else "solved"] += 1
        self.tell(wrong_solve(case, self.opb, solver), "%s, plan %d, first index %d" % (solver, number, case.plan.first), case.text)
        if solver in COMMANDS and case.best is not None and case.plan.sums():
            self.tell(wrong_evaluate(case, self.opb, solver, counts), "%s, plan %d, first index %d" % (solver, number, case.plan.first), case.text)

    def plans(self, folder):
        rng = random.Random(self.seed)
        for number in range(1, self.count + 1):
            case = Case(rng, folder, zeros=number % 2 == 0)
            for solver in self.solvers:
                self.one(case, number, solver)

    def stumbles(self, folder):
        for text, best in STUMBLES:
            file = os.path.join(folder, "stumble.opb")
            with open(file, "w", newline="") as written:
                written.write(text)
            for solver in self.solvers:
                self.tell(wrong_value(self.opb, file, best, solver), solver, text)

    def fault(self, folder, fault, wanted):
        """The plan in which the fault is found; a plan that is called good must be good all the same."""
        rng, solver = random.Random(self.seed), "%s %s/false.py %s" % (sys.executable, HERE, fault)
        for number in range(1, FAULT_CASES + 1):
            case = Case(rng, folder, zeros=True)
            done = case.opb(self.opb, "solve", case.file, "--json", "--solver", solver)
            if done.returncode == wanted:
                print("the fault `%s` is found in plan %d, by exit status %d" % (fault, number, wanted))
                return None
            said = json.loads(done.stdout)
            true = {it["number"] for it in said["true"]}
            if done.returncode == 0 and not case.plan.keeps([number in true for number in case.plan.numbers]):
                return "a plan that breaks a row is called good:\n%s%s" % (case.text, done.stdout)
        return "not found in %d plans" % FAULT_CASES

    def all(self):
        with tempfile.TemporaryDirectory() as folder:
            self.plans(folder)
            self.stumbles(folder)
            for fault, wanted in FAULTS.items() if "clasp" in self.solvers else ():
                self.tell(self.fault(folder, fault, wanted), "the fault `%s`" % fault)
        for solver, c in self.counts.items():
            print("%s: %d plans solved, %d without a solution, %d left out; %d outputs evaluated, %d with a variable that has no value" % (
                solver, c["solved"], c["none"], c["left out"], c["evaluated"], c["open"]))
        print("%d passed, %d failed" % (self.passed, self.failed))
        return 0 if self.failed == 0 else 1


sys.exit(Run(int(sys.argv[1]), int(sys.argv[2]), sys.argv[3], sys.argv[4:]).all())
