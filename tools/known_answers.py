#!/usr/bin/env python3
"""Prints the answers that the program `known` has to give: crates/known/stdout is what this prints.

Nothing here comes from the crates. Days are counted by Python's own calendar, moved by whole cycles of 400 years (146,097 days);
differences by trying counts one by one; rounding by exact fractions."""
import datetime
from fractions import Fraction
from math import floor, ceil

CYCLE = 146097


def day_number(y, m, d):
    k = (y - 2000) // 400
    return datetime.date(y - 400 * k, m, 1).toordinal() - datetime.date(1970, 1, 1).toordinal() + d - 1 + k * CYCLE


def date_of(n):
    k = n // CYCLE
    t = datetime.date(1970, 1, 1) + datetime.timedelta(days=n - k * CYCLE)
    return t.year + 400 * k, t.month, t.day


def month_length(y, m):
    return day_number(y + m // 12, m % 12 + 1, 1) - day_number(y, m, 1)


def shown(y, m, d):
    return f"{'-' if y < 0 else ''}{abs(y):04}-{m:02}-{d:02}"


DATES = [
    (1970, 1, 1), (1969, 12, 31), (1972, 2, 29), (2000, 2, 29), (2000, 3, 1), (1900, 2, 28), (1900, 3, 1), (1800, 3, 1), (1700, 3, 1),
    (1600, 2, 29), (2100, 2, 28), (2100, 3, 1), (2400, 2, 29), (2023, 12, 31), (2024, 12, 31), (1, 1, 1), (0, 1, 1), (0, 2, 29), (0, 3, 1),
    (0, 12, 31), (-1, 1, 1), (-1, 12, 31), (-4, 2, 29), (-100, 2, 28), (-100, 3, 1), (-400, 2, 29), (-4713, 11, 24),
    (-271821, 4, 19), (-271821, 4, 20), (275760, 9, 13), (275760, 9, 14),
]
FAR = [(2147483647, 12, 31), (2147483647, 1, 1), (-2147483648, 1, 1), (-2147483648, 12, 31)]
MONTH_0 = [(1970, 31), (2001, 1), (0, 31), (-271821, 20)]


def add(date, years, months, weeks, days, overflow):
    y, m, d = date
    n = y * 12 + m - 1 + years * 12 + months
    y, m = n // 12, n % 12 + 1
    if overflow == "reject" and d > month_length(y, m):
        return None
    z = day_number(y, m, min(d, month_length(y, m))) + days + 7 * weeks
    return date_of(z) if -100000001 <= z <= 100000000 else None


def surpasses(sign, base, years, months, target):
    n = base[0] * 12 + base[1] - 1 + years * 12 + months
    return sign * ((n // 12, n % 12 + 1, base[2]) > target) - sign * ((n // 12, n % 12 + 1, base[2]) < target) > 0


def until(one, two, unit):
    sign = (two > one) - (two < one)
    if sign == 0:
        return 0, 0, 0, 0
    years = months = 0
    if unit == "year":
        years = two[0] - one[0] - sign if abs(two[0] - one[0]) > 1 else 0
        while not surpasses(sign, one, years + sign, 0, two):
            years += sign
    if unit in ("year", "month"):
        months = 0 if unit == "year" else (two[0] - one[0]) * 12 + two[1] - one[1] - 2 * sign
        if sign * months < 0:
            months = 0
        while not surpasses(sign, one, years, months + sign, two):
            months += sign
    n = one[0] * 12 + one[1] - 1 + years * 12 + months
    y, m = n // 12, n % 12 + 1
    days = day_number(*two) - day_number(y, m, min(one[2], month_length(y, m)))
    weeks = 0
    if unit == "week":
        weeks = abs(days) // 7 * sign
        days -= weeks * 7
    return years, months, weeks, days


ADDS = [
    ((2024, 1, 31), 0, 1, 0, 0), ((2023, 1, 31), 0, 1, 0, 0), ((2024, 2, 29), 1, 0, 0, 0), ((2024, 2, 29), 4, 0, 0, 0), ((2024, 3, 31), 0, -1, 0, 0),
    ((2024, 12, 31), 0, -22, 0, 1), ((2025, 10, 26), 0, 0, -3, -4), ((0, 1, 31), -1, 25, 0, 0), ((1970, 1, 1), 0, 0, 0, -719528),
    ((275760, 9, 13), 0, 0, 0, 0), ((275760, 9, 13), 0, 0, 0, 1), ((-271821, 4, 20), 0, 0, 0, -1), ((-271821, 4, 20), 0, 0, 0, -2), ((2000, 1, 1), 4000000, 0, 0, 0),
]
UNTILS = [
    ((2024, 1, 31), (2024, 2, 29)), ((2024, 2, 29), (2024, 1, 31)), ((2020, 2, 29), (2021, 2, 28)), ((2021, 2, 28), (2020, 2, 29)),
    ((2024, 1, 30), (2024, 3, 1)), ((2024, 3, 31), (2023, 2, 28)), ((2025, 10, 26), (2025, 10, 26)), ((1999, 12, 31), (2024, 3, 30)), ((0, 3, 1), (-1, 2, 28)),
    ((-271821, 4, 19), (275760, 9, 13)), ((275760, 9, 13), (-271821, 4, 19)),
]
UNITS = ["day", "week", "month", "year"]
MODES = ["ceil", "floor", "expand", "trunc", "half-ceil", "half-floor", "half-expand", "half-trunc", "half-even"]


def rounded(x, n, mode):
    q = Fraction(x, n)
    low, high = floor(q), ceil(q)
    if low == high:
        return x
    near, far = (low, high) if x >= 0 else (high, low)
    pick = {"ceil": high, "floor": low, "expand": far, "trunc": near}
    if mode in pick:
        return pick[mode] * n
    if q - low != high - q:
        return (low if q - low < high - q else high) * n
    tie = {"half-ceil": high, "half-floor": low, "half-expand": far, "half-trunc": near, "half-even": low if low % 2 == 0 else high}
    return tie[mode] * n


NUMBERS = [(0, 10), (4, 10), (5, 10), (6, 10), (10, 10), (15, 10), (25, 10), (-4, 10), (-5, 10), (-6, 10), (-10, 10), (-15, 10), (-25, 10),
           (10, 7), (11, 7), (-10, 7), (-11, 7), (-1170, 60), (-1169, 60), (90, 60), (1, 1), (-1, 2)]
NS = 10 ** 9
PAIRS = [((43200, 0), (86400, 0)), ((43199, 999999999), (86400, 0)), ((-43201, 500000000), (86400, 0)), ((0, 1), (82800, 0)), ((129599, 0), (259198, 0)), ((-1, 500000000), (0, 333333333))]
LENGTH = {"hour": 3600 * NS, "minute": 60 * NS, "second": NS, "millisecond": 10 ** 6, "microsecond": 1000, "nanosecond": 1}
LARGER = {"hour": 24, "minute": 60, "second": 60, "millisecond": 1000, "microsecond": 1000, "nanosecond": 1000}
TIMES = [((23, 59, 59, 999999999), "second", 1), ((23, 30, 0, 0), "hour", 1), ((12, 0, 0, 0), "hour", 12), ((13, 7, 30, 0), "minute", 15), ((13, 7, 30, 0), "minute", 1),
         ((0, 0, 0, 500000), "millisecond", 1), ((5, 4, 3, 2500500), "microsecond", 1), ((5, 4, 3, 2500005), "nanosecond", 10), ((23, 52, 30, 0), "minute", 15)]


def round_time(time, unit, k, mode):
    h, m, s, n = time
    total = ((h * 60 + m) * 60 + s) * NS + n
    part = total % (LENGTH[unit] * LARGER[unit])
    total += rounded(part, LENGTH[unit] * k, mode) - part
    day, rest = divmod(total, 86400 * NS)
    s, n = divmod(rest, NS)
    return day, s // 3600, s // 60 % 60, s % 60, n


def main():
    for t in DATES + FAR:
        print(f"day {shown(*t)} {day_number(*t)}")
    for t in DATES:
        print(f"date {day_number(*t)} {shown(*date_of(day_number(*t)))}")
    for y, d in MONTH_0:
        print(f"month 0 {y} {d} {day_number(y - 1, 12, d)}")
    for date, *parts in ADDS:
        for overflow in ("constrain", "reject"):
            r = add(date, *parts, overflow)
            print(f"add {shown(*date)} {' '.join(map(str, parts))} {overflow} {shown(*r) if r else 'none'}")
    for one, two in UNTILS:
        for unit in UNITS:
            print(f"until {shown(*one)} {shown(*two)} {unit} {' '.join(map(str, until(one, two, unit)))}")
    for x, n in NUMBERS:
        print(f"round {x} {n} {' '.join(str(rounded(x, n, mode)) for mode in MODES)}")
    for x, n in PAIRS:
        for mode in MODES:
            r = rounded(x[0] * NS + x[1], n[0] * NS + n[1], mode)
            print(f"pair {x[0]},{x[1]} {n[0]},{n[1]} {mode} {r // NS},{r % NS}")
    for time, unit, k in TIMES:
        for mode in MODES:
            d, h, m, s, n = round_time(time, unit, k, mode)
            print(f"time {time[0]:02}:{time[1]:02}:{time[2]:02}.{time[3]:09} {unit} {k} {mode} {d} {h:02}:{m:02}:{s:02}.{n:09}")


if __name__ == "__main__":
    main()
