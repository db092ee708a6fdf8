"""`duration.py EXPRESSION` prints the expression's value in nanoseconds, that value as a printed
duration, and the moment that much after 2000-01-01T00:00:00Z, in seconds since 1970. Or it prints
what is wrong with the expression.
"""

import sys

import duration_str

START = 946_684_800 * 10**9


def main():
    if len(sys.argv) != 2:
        sys.exit("usage: duration.py EXPRESSION")
    try:
        nanos = duration_str.parse_ns(sys.argv[1])
    except duration_str.DurationError as error:
        print(error.report)
        sys.exit(1)
    secs, rest = divmod(START + nanos, 10**9)
    print(nanos, duration_str.format(nanos), f"{secs}.{rest:09}")


if __name__ == "__main__":
    sys.stdout.reconfigure(encoding="utf-8")
    main()
