"""Makes `jobs.csv`: 200 jobs of two hours, the same each time.

    python3 examples/what_if/make_jobs.py > examples/what_if/jobs.csv

Every minute or so `prod` has a job of many small containers. The analysts come in the first hour for the most part, with
fewer and larger ones."""
import random
from typing import Iterator, Tuple

SEED = 2024
HOUR = 3_600_000  # in milliseconds
COLUMNS = "submit_ms,queue,user,containers,duration_ms,memory,vcores"
Job = Tuple[int, str, str, int, int, int, int]


def between(least: int, most: int) -> int:
    """A random whole number from `least` up to `most`."""
    return least + int(random.random() * (most - least + 1))


def jobs() -> Iterator[Job]:
    """The jobs of both queues, in no order."""
    for _ in range(110):
        user = ("etl", "reports")[between(0, 1)]
        yield between(0, 2 * HOUR), "prod", user, between(10, 40), between(40_000, 120_000), 2048, 1
    for n in range(90):
        user = ("ann", "bob", "cy")[between(0, 2)]
        submit = between(HOUR // 4, HOUR) if n < 70 else between(HOUR, 2 * HOUR)
        yield submit, "analysts", user, between(4, 16), between(60_000, 180_000), 4096, 2


def main() -> None:
    random.seed(SEED)
    print(COLUMNS)
    for job in sorted(jobs()):
        print(*job, sep=",")


if __name__ == "__main__":
    main()
