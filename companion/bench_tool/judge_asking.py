"""Asks a program cases and random scripts, in some processes, and collects the verdicts."""
from __future__ import annotations

import collections
import queue
import threading
import time
from random import Random
from typing import Any, Callable, Mapping, Optional, Sequence

from . import cases, needs
from .cases import Case, Question
from .commands import Operand
from .judge_adapter import COMPARISONS
from .judge_oracle import Oracle
from .judge_random import Scripts
from .judge_runs import MOST_REPLAYED, SLOW, Answer, Died, Program, Worker, again, culprit
from .judge_shrink import shrunk
from .judge_verdicts import DIES, PASS, RANDOM_ID, UNSUPPORTED, Verdict, judged, traits, worst

MOST_DEATHS = 12  # of one feature, after which the rest of it is not asked
MOST_DEATHS_OF_CASE = 3
MOST_CAUSES = 40  # of random scripts
BATCH = 25  # cases that a process takes at a time
# The methods of an adapter that a command calls, if they are not called as the command.
CALLS = {"zeros": "make", "full": "make", "arange": "make", "array": "make", "set": "put", "upd": "update"}


class Results:
    """What was found for one program: the worst verdict of each case, and the findings by their causes."""

    def __init__(self, program: Program):
        self.program = program
        self.table: dict[str, collections.Counter[str]] = {}
        self.of_case: dict[str, str] = {}
        self.found: dict[tuple[str, ...], list[Verdict]] = {}
        self.asked = self.scripts = 0
        self.has: frozenset[str] = frozenset()
        self.can: tuple[str, ...] = ()
        self.unknown: list[str] = []

    def meet(self, worker: Worker) -> None:
        """Keeps what a program says that it has and can."""
        self.has, self.can, self.unknown = worker.has, worker.can, worker.unknown

    def add(self, case: Case, verdicts: Sequence[Verdict]) -> None:
        found = worst(verdicts)
        self.asked += sum(verdict.verdict != UNSUPPORTED for verdict in verdicts)
        self.of_case[case.id] = found.verdict
        self.table.setdefault(case.feature, collections.Counter())[found.verdict] += 1
        for verdict in verdicts:
            if verdict.verdict not in (PASS, UNSUPPORTED):
                self.found.setdefault(verdict.cause(), []).append(verdict)

    def blame(self, verdict: Verdict) -> None:
        """Takes in that a program died of a question that had an answer."""
        case, feature = verdict.question.id.split(":")[0], verdict.question.feature
        if before := self.of_case.get(case):
            self.table[feature][before] -= 1
            self.table[feature][DIES] += 1
            self.of_case[case] = DIES
        self.found.setdefault(verdict.cause(), []).append(verdict)

    def kinds(self) -> set[tuple[str, ...]]:
        """The causes without their features, by which random findings are known."""
        return {(cause[0], *cause[2:]) for cause in self.found}


def methods_of(question: Question) -> set[str]:
    """The methods of an adapter that a question calls."""
    found = {"make", "items"}
    for command in question.commands:
        word = command.word
        if word == "binary":
            word = "compare" if getattr(command, "operation") in COMPARISONS else "op"
        elif word == "select":
            word = "make" if getattr(command, "index") is None else "take"
        if word != "del":
            found.add(CALLS.get(word, word))
        parts = (getattr(command, side, None) for side in needs.SIDES)
        if any(isinstance(part, Operand) and part.index is not None for part in parts):
            found.add("take")
    return found


class Asker:
    """Asks one worker questions, and finds out which one is to blame where it dies."""

    def __init__(self, program: Program):
        self.worker = Worker(program)
        self.asked: list[tuple[Question, Mapping[str, Any]]] = []
        self.late: list[Verdict] = []  # on questions of which the program died only later

    def verdict(self, question: Question, wants: Optional[Sequence[Any]] = None) -> Verdict:
        """The verdict on a question; with `wants`, what names show is compared after each step."""
        plain = question.plain(**({"each": True} if wants else {}))
        self.asked = [*self.asked[1 - MOST_REPLAYED:], (question, plain)]
        answer = self.worker.ask(plain)
        if isinstance(answer, Died) and answer.how.startswith(SLOW):
            answer = again(self.worker.program, plain)
            self.asked = []
        elif isinstance(answer, Died):
            answer = self.blamed(plain, answer)
        return judged(question, answer, wants)

    def alone(self, question: Question) -> Verdict:
        """The verdict on a question that is blamed itself if the program dies."""
        return judged(question, self.worker.ask(question.plain()))

    def to_its_end(self, question: Question) -> Verdict:
        """The verdict on a question that is asked in a process of its own, which then has to end well."""
        worker = Worker(self.worker.program)
        try:
            answer = worker.ask(question.plain())
            return judged(question, answer if isinstance(answer, Died) else worker.ended() or answer)
        finally:
            worker.close()

    def blamed(self, plain: Mapping[str, Any], answer: Answer) -> Answer:
        """The answer to a question at which a program died: how it died, or, if an earlier question is to blame, what a new process answers."""
        asked, self.asked = self.asked, []
        number, died = culprit(self.worker.program, [each for _, each in asked])
        if number == len(asked) - 1:
            return died
        self.late.append(judged(asked[number][0], died))
        return again(self.worker.program, plain)

    def case(self, case: Case, questions: Sequence[Question]) -> list[Verdict]:
        """The verdicts on a case. After some deaths, the rest of a table is not asked."""
        types = cases.types_for(case, self.worker.has)
        if types is None or not methods_of(questions[0]) <= set(self.worker.can):
            return [Verdict(UNSUPPORTED, questions[0], f"it lacks {', '.join(sorted(case.needs - self.worker.has))}")]
        found = [Verdict(UNSUPPORTED, question, f"it has arrays of {self.worker.most_axes} axes") for question in questions if question.axes > self.worker.most_axes]
        for question in (each for each in questions if each.axes <= self.worker.most_axes):
            found.append(self.verdict(question.retyped(types)))
            if sum(verdict.verdict == DIES for verdict in found) >= MOST_DEATHS_OF_CASE:
                break
        return found

    def close(self) -> None:
        self.worker.close()


def in_threads(count: int, serve: Callable[[int], None]) -> None:
    """Runs a function in some threads, and raises what one of them raises."""
    faults: list[BaseException] = []

    def guarded(number: int) -> None:
        try:
            serve(number)
        except BaseException as fault:
            faults.append(fault)

    threads = [threading.Thread(target=guarded, args=(number,), daemon=True) for number in range(count)]
    for thread in threads:
        thread.start()
    for thread in threads:
        thread.join()
    if faults:
        raise faults[0]


def ask_cases(results: Results, chosen: Sequence[Case], processes: int, told: Callable[[], None]) -> None:
    """Asks a program all cases, in some processes."""
    tasks: "queue.SimpleQueue[Sequence[Case]]" = queue.SimpleQueue()
    for first in range(0, len(chosen), BATCH):
        tasks.put(chosen[first:first + BATCH])
    lock = threading.Lock()
    deaths: collections.Counter[str] = collections.Counter()

    def serve(_: int) -> None:
        asker = Asker(results.program)
        try:
            results.meet(asker.worker)
            while not tasks.empty():
                try:
                    batch = tasks.get_nowait()
                except queue.Empty:
                    return
                for case in batch:
                    if deaths[case.feature] < MOST_DEATHS:
                        found = asker.case(case, list(case.questions()))
                        with lock:
                            results.add(case, found)
                            for late in asker.late:
                                results.blame(late)
                            deaths.update(verdict.question.feature for verdict in (*found, *asker.late) if verdict.verdict == DIES)
                            told()
                        asker.late.clear()
        finally:
            asker.close()

    in_threads(max(1, min(processes, -(-len(chosen) // BATCH))), serve)
    order = {case.id: number for number, case in enumerate(chosen)}
    results.of_case = dict(sorted(results.of_case.items(), key=lambda pair: order[pair[0]]))
    features = list(dict.fromkeys(case.feature for case in chosen))
    results.table = {feature: results.table[feature] for feature in features if feature in results.table}


def ask_scripts(results: Results, seed: int, seconds: float, processes: int, told: Callable[[], None]) -> None:
    """Asks a program random scripts for so many seconds after it has begun."""
    search = Search(results, seconds)

    def serve(number: int) -> None:
        asker = Asker(results.program)
        try:
            results.meet(asker.worker)
            search.begin()
            worker, other, count = asker.worker, Oracle(), 0
            scripts = Scripts(Random(f"{seed} {number}"), worker.has, worker.can, worker.most_axes)
            while search.goes_on():
                question = scripts.question(f"{RANDOM_ID}{seed}.{number}.{count}")
                count += 1
                verdict = asker.verdict(question, [step.shown for step in scripts.steps])
                search.met(verdict, asker.alone, other)
                for late in asker.late:
                    search.met(late, asker.to_its_end, other)
                asker.late.clear()
                with search.lock:
                    results.scripts += 1
                    told()
        finally:
            asker.close()

    in_threads(processes, serve)


class Search:
    """The findings of random scripts. Each cause is told once, with the smallest script that shows it."""

    def __init__(self, results: Results, seconds: float):
        self.results, self.seconds, self.until, self.lock = results, seconds, 0.0, threading.Lock()
        self.kinds = results.kinds()
        self.most = len(self.kinds) + MOST_CAUSES

    def begin(self) -> None:
        """The time runs once the first process has begun."""
        with self.lock:
            self.until = self.until or time.monotonic() + self.seconds

    def goes_on(self) -> bool:
        return time.monotonic() < self.until and len(self.kinds) < self.most

    def is_new(self, verdict: Verdict) -> bool:
        """Whether a verdict is a finding of a kind that was not met; it counts as met from then on."""
        kind = verdict.verdict, traits(verdict.question, verdict.command), verdict.what
        with self.lock:
            if verdict.verdict in (PASS, UNSUPPORTED) or kind in self.kinds:
                return False
            self.kinds.add(kind)
            return True

    def met(self, verdict: Verdict, ask: Callable[[Question], Verdict], oracle: Oracle) -> None:
        """Keeps a finding of a new kind, as the smallest script that shows it."""
        if not self.is_new(verdict):
            return
        least = shrunk(verdict, ask, self.results.has, oracle)
        kind = least.verdict, traits(least.question, least.command), least.what
        with self.lock:
            self.kinds.add(kind)
            if kind not in self.results.kinds():
                self.results.found.setdefault(least.cause(), []).append(least)
