"""Words of command lines that several commands take."""
from __future__ import annotations

import argparse

from .messages import AMOUNT_MAX, Resource


def port(text: str) -> int:
    """A port, 1 to 65535."""
    if not (text.isdecimal() and 1 <= int(text) <= 65_535):
        raise argparse.ArgumentTypeError(f"{text!r} is not a port, 1 to 65535")
    return int(text)


def seconds(text: str) -> float:
    """A number of seconds, 0.01 to 3600."""
    try:
        number = float(text)
    except ValueError:
        number = 0.0
    if not 0.01 <= number <= 3600.0:
        raise argparse.ArgumentTypeError(f"{text!r} is not a number of seconds from 0.01 to 3600")
    return number


def resource(text: str) -> Resource:
    """A resource as `8192,8` or `8192,8,1`: memory in MiB, vcores, and GPUs."""
    parts = text.split(",")
    if len(parts) not in (2, 3) or not all(it.isdecimal() and int(it) <= AMOUNT_MAX for it in parts):
        raise argparse.ArgumentTypeError(f"{text!r} is not MIB,VCORES or MIB,VCORES,GPUS, each at most 2^40")
    return Resource(*map(int, parts))
