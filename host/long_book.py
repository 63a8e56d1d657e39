"""Prints a book of nearly 64 KB: sixteen areas, then a return of each area for every year, and clearings at the end.

  python3 host/long_book.py SUBS    each area has so many sub-areas
"""

import sys

MOST_BYTES = 65536


def lines(subs):
    for area in range(1, 17):
        yield f"A,{area},2008"
        for sub in range(1, subs + 1):
            yield f"S,{area},{sub},{10 + sub}.{area % 10},P{1 + sub % 9},{1960 + sub}"
    for year in range(2008, 2200):
        for area in range(1, 17):
            yield f"R,{area},{year}"
    while True:
        for area in range(1, 17):
            yield f"C,{area},{area},2199"


def main(subs):
    room = MOST_BYTES
    for line in lines(int(subs)):
        room -= len(line) + 1
        if room < 0:
            return
        print(line)


main(*sys.argv[1:])
