"""Checks: what the tests of the repository are, and how some of them are tried.

A check is a test with a name and with what is wrong, if anything. Parts that have classes of unittest give these in
its place: what is tried are tests of unittest either way.
"""
from __future__ import annotations

import concurrent.futures
import fnmatch
import re
import subprocess
import time
import unittest
from collections import Counter
from dataclasses import dataclass, replace
from typing import Any, Callable, Iterable, Iterator, Optional, Sequence

# How many checks are tried at once of a part that allows it.
ASIDE = 4


class Check(unittest.TestCase):
    """A check: `fault` gives what is wrong, or nothing."""

    def __init__(self, name: str, fault: Callable[[], Optional[str]], parts: Sequence[str] = ()) -> None:
        """Once it was tried, `parts` has why parts of it were left out, a reason for each."""
        super().__init__("holds")
        self.name = name
        self.fault = fault
        self.parts = parts

    def id(self) -> str:
        """The name."""
        return self.name

    def holds(self) -> None:
        """Fails if something is wrong."""
        try:
            said = self.fault()
        except subprocess.TimeoutExpired as late:
            said = str(late)
        if said is not None:
            raise Wrong(said)


class Wrong(AssertionError):
    """What is wrong; where it was found says nothing further."""


@dataclass(frozen=True)
class Outcome:
    """How a check went: its name, the seconds it took, what is wrong (nothing if it passed), why it was left out
    (nothing if it was tried), and why parts of it were, a reason for each."""

    name: str
    seconds: float
    fault: str = ""
    left_out: str = ""
    parts: tuple[str, ...] = ()


class Result(unittest.TestResult):
    """The outcomes of tests, one after another."""

    def __init__(self) -> None:
        super().__init__()
        self.outcomes: list[Outcome] = []
        self.begin = time.monotonic()
        self.said: list[str] = []
        self.left_out = ""

    def startTest(self, test: unittest.TestCase) -> None:
        """Takes in that a test begins."""
        super().startTest(test)
        self.begin, self.said, self.left_out = time.monotonic(), [], ""

    def stopTest(self, test: unittest.TestCase) -> None:
        """Takes in that a test is over."""
        super().stopTest(test)
        seconds = time.monotonic() - self.begin
        self.outcomes.append(Outcome(test.id(), seconds, "\n".join(self.said), self.left_out, tuple(getattr(test, "parts", ()))))

    def addFailure(self, test: unittest.TestCase, err: Any) -> None:
        """Takes in what is wrong."""
        super().addFailure(test, err)
        self.note(test, str(err[1]) if isinstance(err[1], Wrong) else self.failures[-1][1])

    def addError(self, test: unittest.TestCase, err: Any) -> None:
        """Takes in that a test came to no end, or that what a module or a class of tests shares can't be made."""
        super().addError(test, err)
        self.note(test, self.errors[-1][1])

    def addSubTest(self, test: unittest.TestCase, subtest: unittest.TestCase, err: Any) -> None:
        """Takes in that a part of a test failed; one that passed says nothing."""
        super().addSubTest(test, subtest, err)
        if err is not None:
            self.said.append(f"{subtest}: {err[1]}")

    def addSkip(self, test: unittest.TestCase, reason: str) -> None:
        """Takes in that a test is left out."""
        super().addSkip(test, reason)
        self.left_out = reason
        if not isinstance(test, unittest.TestCase):
            self.outcomes.append(Outcome(str(test), 0.0, left_out=reason))

    def addUnexpectedSuccess(self, test: unittest.TestCase) -> None:
        """Takes in that a test passed which was to fail."""
        super().addUnexpectedSuccess(test)
        self.said.append("it passed, and was to fail")

    def note(self, test: unittest.TestCase, said: str) -> None:
        """Keeps what is wrong; what a module or a class of tests shares has no end of its own."""
        if isinstance(test, unittest.TestCase):
            self.said.append(said)
        else:
            self.outcomes.append(Outcome(str(test), 0.0, said))


def reasons(outcomes: Iterable[Outcome]) -> Counter[str]:
    """How often each reason stands for a check, or a part of one, that was left out."""
    return Counter(reason for it in outcomes for reason in (it.left_out if not it.fault else "", *it.parts) if reason)


def flat(tests: Iterable[Any]) -> Iterator[unittest.TestCase]:
    """The tests of suites in suites."""
    for test in tests:
        if isinstance(test, unittest.TestSuite):
            yield from flat(test)
        else:
            yield test


@dataclass(frozen=True)
class Choice:
    """Which checks are tried: those with one of the words in their name (or that match it, if it has a `*`), and those
    of one of these names, or whose name goes on behind it with a `/` or a `.`; all, if there are neither."""

    words: tuple[str, ...] = ()
    names: tuple[str, ...] = ()

    def takes(self, part: str, name: str) -> bool:
        """Whether a check of a part is chosen."""
        whole = f"{part}/{name}"
        by_word = any(fnmatch.fnmatch(whole, word) if "*" in word else word in whole for word in self.words)
        by_name = any(name == it or name.startswith((f"{it}/", f"{it}.")) for it in self.names)
        return by_word or by_name or not (self.words or self.names)


def tried(tests: Sequence[unittest.TestCase], aside: bool) -> list[Outcome]:
    """The outcomes of tests, in their order; several are tried at once if `aside` says so."""
    if not aside:
        result = Result()
        unittest.TestSuite(tests).run(result)
        return [outcome for it in result.outcomes for outcome in each_left_out(it, tests)]
    with concurrent.futures.ThreadPoolExecutor(ASIDE) as pool:
        return [outcome for found in pool.map(alone, tests) for outcome in found]


def each_left_out(outcome: Outcome, tests: Sequence[unittest.TestCase]) -> list[Outcome]:
    """An outcome; in place of one of a class or a module that is left out, one for each of its tests."""
    shared = re.fullmatch(r"setUp(?:Class|Module) \((.*)\)", outcome.name)
    if not shared or not outcome.left_out:
        return [outcome]
    return [replace(outcome, name=test.id()) for test in tests if test.id().startswith(f"{shared[1]}.")] or [outcome]


def alone(test: unittest.TestCase) -> list[Outcome]:
    """The outcome of one test."""
    result = Result()
    test.run(result)
    return result.outcomes
