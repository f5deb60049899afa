#!/usr/bin/env python3
"""Prints the pages that a baggage tracker asks for on one day, for tools/tracefile.

Page 0 is the index. Each flight has a bag list of a few pages; while a flight is open its pages are
asked for again and again, flights overlap, and now and then a late bag asks for a page of a flight that
has closed. The draw is fixed: every run prints the same pages.
"""

FLIGHTS = 24
EVENTS = 320


def draws(state):
    """Numbers from 0 to 32767 by a linear congruence."""
    while True:
        state = (state * 1103515245 + 12345) % 2**31
        yield state >> 16


def pages(flight):
    """A flight's bag list: three to six pages from 100 times its number on."""
    return [100 * flight + page for page in range(3 + flight % 4)]


def main():
    draw = draws(2024)
    for event in range(EVENTS):
        newest = 1 + event * FLIGHTS // EVENTS
        late = next(draw) % 20 == 0
        back = next(draw) % (newest if late else min(newest, 3))
        flight = pages(newest - back)
        if event % 4 == 0:
            print(0)
        print(flight[next(draw) % len(flight)])


if __name__ == "__main__":
    main()
