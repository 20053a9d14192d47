"""Runs two programs beside each other: some lists of words, at small bounds on the steps and at a large one."""
import itertools
import os
from concurrent.futures import ThreadPoolExecutor

from kaba_tools import kaba

WORDS = [[], ["w"], ["one", "two"], ["", "gr\u00f6\u00dfe", "3"]]
BOUNDS = [*range(11), 20000]


def both_runs(old, new, words, bound):
    """Both answers where they differ, with the words and the bound."""
    was, now = (kaba("run", file, str(bound), *words) for file in (old, new))
    return None if was == now else (words, bound, was, now)


def first_difference(old, new, run=map):
    """What differs first between the runs of two files: words, bound, and both answers; nothing where none does."""
    asked = list(itertools.product(WORDS, BOUNDS))
    return next(filter(None, run(lambda each: both_runs(old, new, *each), asked)), None)


def side_by_side(work, items):
    """What a function gives of each item, with as many at a time as there are processors."""
    with ThreadPoolExecutor(os.cpu_count()) as pool:
        yield from pool.map(work, items)
