"""Business days, semiweekly intervals and ends of months, read plainly from the rules, for both comparisons."""

from datetime import timedelta

DAY = timedelta(days=1)


def on_or_after(day, holidays=()):
    while day.weekday() >= 5 or day in holidays:
        day += DAY
    return day


def nth_after(day, count, holidays=()):
    for _ in range(count):
        day = on_or_after(day + DAY, holidays)
    return day


def interval(day):
    """The first and the last day of the Wednesday to Friday or Saturday to Tuesday of a day."""
    since = (day.weekday() - 2) % 7
    start = day - timedelta(days=since if since < 3 else since - 3)
    return start, start + timedelta(days=2 if since < 3 else 3)


def month_end(day):
    return (day.replace(day=1) + 32 * DAY).replace(day=1) - DAY
