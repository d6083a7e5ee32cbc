"""What jobs would wait for under other settings: plays a trace of jobs through the scheduler itself in simulated time.

    capsched-simulate --config now.conf --config then.conf --jobs jobs.csv --node 8192,8 --count 100 --out answers

It prints tables, side by side for the settings. With `--out` a folder has `jobs.csv`, `queues.csv` and `queues.svg`."""
from .command import main

__all__ = ["main"]
