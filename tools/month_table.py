"""Writes crates/calendar/src/table.rt, the table of the days on which months 0 to 2400 start.

    python3 tools/month_table.py > crates/calendar/src/table.rt

The output is in the layout of `rt fmt`. The dates are the standard library's: what the check proves of the table
does not rest on this program.
"""
import datetime

MJD_0 = datetime.date(1858, 11, 17)
FIRST_YEAR = 1972
LAST_MONTH = 2400
WIDTH = 100  # of a line in the layout of `rt fmt`


def month_start(month):
    """The Modified Julian Day on which a month starts, month 0 being January 1972."""
    return (datetime.date(FIRST_YEAR + month // 12, month % 12 + 1, 1) - MJD_0).days


def main():
    print("// The Modified Julian Days on which months 0 to 2400 start, from January 1972 to January 2172.")
    print("// Written by tools/month_table.py.")
    print(f"pub const MONTH_STARTS: [u32; {LAST_MONTH + 1}] = [")
    row = "   "
    for month in range(LAST_MONTH + 1):
        entry = f" {month_start(month)},"
        if len(row) + len(entry) > WIDTH:
            print(row)
            row = "   "
        row += entry
    print(row)
    print("];")


if __name__ == "__main__":
    main()
