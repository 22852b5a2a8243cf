"""The words of a call: bytes that are no text at each position, empty words, long ones, and the program's own
name, which may be any bytes.
"""
import sys

from bench import UNREADABLE, USAGE, Bench, Word, main_of, tool
from jobs import Job, jobs_of

NO_TEXT = b"\xff"
LONG = b"w" * 100_000
# bash starts a program under any name
UNDER_A_NAME = (b"bash", b"-c", b'exec -a "$1" "${@:2}"', b"-")


def told(word: bytes) -> str:
    """A word as a fault shows it."""
    return repr(word[:20])


def no_text(bench: Bench, job: Job) -> None:
    """A word that is no text, in place of each word and before each: words of no form."""
    words = [word.encode() for word in job.words]
    for at in range(len(words)):
        name = f"{job.name}: word {at} is no text"
        bench.expect(name, bench.call([*words[:at], NO_TEXT, *words[at + 1 :]]), 2, USAGE)
        bench.expect(f"{name}, and one more", bench.call([*words[:at], NO_TEXT, *words[at:]]), 2, USAGE)
    bench.expect(f"{job.name}: a last word that is no text", bench.call([*words, NO_TEXT]), 2, USAGE)


def unknown_files(bench: Bench, job: Job) -> None:
    """An empty word and a long one are names of files that aren't there; as forms they are none."""
    for word in (b"", LONG):
        bench.expect(f"{job.name}: form {told(word)}", bench.call([word, *job.words[1:]]), 2, USAGE)
        for file in job.files:
            words: list[Word] = [word if it == file.name else it for it in job.words]
            name = f"{job.name}: {file.name} is {told(word)}"
            bench.expect(name, bench.call(words), UNREADABLE, word + b": E01 unreadable\n")


def under_names(bench: Bench, job: Job) -> None:
    """Nobody reads the program's own name."""
    for name in (NO_TEXT, b"", b"gen", LONG):
        answer = bench.call(job.words, before=(*UNDER_A_NAME, name))
        bench.expect(f"{job.name}: the program is called {told(name)}", answer, 0, job.out)


def words(bench: Bench) -> None:
    """The table."""
    for job in jobs_of(bench):
        no_text(bench, job)
        unknown_files(bench, job)
        if tool("bash") is not None:
            under_names(bench, job)
    if tool("bash") is None:
        bench.leave_out("bash is not on this machine", "other names of the program")


if __name__ == "__main__":
    sys.exit(main_of(words))
