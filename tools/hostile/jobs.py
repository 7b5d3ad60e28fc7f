"""Inputs of the program with what it must answer."""
import subprocess
from typing import NamedTuple

LIMIT = 120


class Job(NamedTuple):
    """Words and an input, the status and the output by the model, and how many cases that stands for. Where it stands for
    several, the parts are jobs of fewer, each behind words that tell it."""
    words: str
    given: list
    data: bytes
    status: int
    out: bytes
    cases: int = 1
    parts: list = []


def answer(program, job):
    done = subprocess.run([program, *job.given], input=job.data, stdout=subprocess.PIPE, stderr=subprocess.DEVNULL, check=False,
                          timeout=LIMIT)
    return done.returncode, done.stdout


def differences(program, job):
    """What differs in a job, as texts: of its parts where they tell it, and else of itself."""
    found = answer(program, job)
    if found == (job.status, job.out):
        return []
    told = [text for words, part in job.parts for text in differences(program, part._replace(words=words))]
    return told or [f"{job.words}\n  {' '.join(job.given)}, input: {job.data!r}\n  program: status {found[0]}, {found[1][-400:]!r}\n"
                    f"  model: status {job.status}, {job.out[-400:]!r}"]
