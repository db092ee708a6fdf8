"""Makes calls of Python. bench/run says how each such program is called."""

import importlib
import os
import sys
import time

import duration_str


def known_to(call, texts):
    """The names that a call needs."""
    known = {"duration_str": duration_str, "texts": texts}
    module = call.partition(".")[0]
    known[module] = importlib.import_module(module)
    if "length" in call:
        known["texts"] = [duration_str.parse(text) for text in texts]
    if "series" in call:
        known["series"] = importlib.import_module("pandas").Series(texts * 20)
    return known


LOOP = """
def round():
    refused = 0
    for {item} in texts:
        try:
            {call}
        except duration_str.DurationError:
            refused += 1
    return refused
"""


def main(least, millis, *words):
    for call, path in zip(words[::2], words[1::2]):
        with open(path, encoding="utf-8") as lines:
            texts = lines.read().splitlines()
        known, count = known_to(call, texts), len(texts)
        if "series" in call:
            exec(f"def round(): {call}", known)
            count *= 20
        else:
            exec(LOOP.format(call=call, item="length" if "length" in call else "text"), known)
        if known["round"]() not in (None, 0, count):
            sys.exit(f"calls.py: {call} refuses some of {path}")
        times, begin = [], time.perf_counter_ns()
        os.getppid()
        while len(times) < int(least) or time.perf_counter_ns() - begin < int(millis) * 10**6:
            start = time.process_time_ns()
            known["round"]()
            times.append(time.process_time_ns() - start)
        os.getppid()
        print(f"{min(times) / count:.1f}")


main(*sys.argv[1:])
