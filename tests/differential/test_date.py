"""Crates date and calendar against the independent program: good dates, each part at both ends of its limit, damaged
ones, and the days of all years."""
import unittest
from collections.abc import Iterator

from against import Cases
from scope import date
from probe import SEED, Probe

MONTHS = b"Jan Feb Mar Apr May Jun Jul Aug Sep Oct Nov Dec".split()


def months(first: int, last: int) -> Iterator[tuple[int, int, int, int]]:
    """Each month of the years: year, month, its length, and the days from 1970 to its first day. The days are counted
    along, since the independent program's walk begins anew for every date; that walk gives the first count, and must
    agree with the last."""
    days = date.days_from_1970(first, 1, 1)
    for year in range(first, last + 1):
        for month in range(1, 13):
            length = date.days_in_month(year, month)
            yield year, month, length, days
            days += length
    assert days == date.days_from_1970(last + 1, 1, 1)


def midnight(days: int) -> int:
    """The Date of midnight in UTC, so many days after 1970; before 1970 it is 0, and shows only that the day is there (D13)."""
    return max(days * date.DAY, 0)


class Date(unittest.TestCase):
    """Page D."""

    def setUp(self):
        self.probe = Probe()
        self.cases = Cases(SEED)
        self.random = self.cases.random

    def same(self, value: bytes) -> bool:
        expected = date.seconds(value)
        self.assertEqual(self.probe.date(value), expected, value)
        return expected is None

    def test_dates(self):
        answers = set()
        for _ in range(30_000):
            answers.add(self.same(self.cases.date_value()))
        self.assertEqual(answers, {False, True})

    def test_calendar(self):
        """The first and the last day of each month, and the days around them, in years of each kind."""
        for year in (1900, 1904, 1969, 1970, 1999, 2000, 2001, 2004, 2023, 2024, 2099, 2100, 2400, 9999):
            for month in MONTHS:
                for day in (0, 1, 28, 29, 30, 31, 32):
                    self.same(b"%d %s %04d 00:00:00 +0000" % (day, month, year))

    def day(self, year: int, month: int, day: int) -> int | None:
        """What the library reads for midnight of a day, in UTC."""
        return self.probe.date(b"%d %s %d 00:00 +0000" % (day, MONTHS[month - 1], year))

    def test_every_month_D8_D13(self):
        """In all years that can be written: the first day of a month, its 28th, its last, and the one behind that."""
        for year, month, length, days in months(1900, 9999):
            for day in (1, 28, length):
                self.assertEqual(self.day(year, month, day), midnight(days + day - 1), (year, month, day))
            self.assertIsNone(self.day(year, month, length + 1), (year, month))

    def test_every_day_of_a_cycle_D8_D13(self):
        """After 400 years the calendar begins again."""
        for year, month, length, days in months(2000, 2399):
            for day in range(1, length + 1):
                self.assertEqual(self.day(year, month, day), midnight(days + day - 1), (year, month, day))

    def test_numbers(self):
        """Each number, with each count of digits, around its limits."""
        for n in (0, 1, 9, 10, 23, 24, 49, 50, 59, 60, 61, 99):
            for text in (b"%d" % n, b"%02d" % n, b"%03d" % n):
                self.same(b"1 Jan 2000 %s:00:00 GMT" % text)
                self.same(b"1 Jan 2000 00:%s:00 GMT" % text)
                self.same(b"1 Jan 2000 00:00:%s GMT" % text)
                self.same(b"%s Jan 2000 00:00 GMT" % text)
                self.same(b"1 Jan %s 00:00 GMT" % text)
                self.same(b"1 Jan 2000 00:00 +00%s" % text)
                self.same(b"1 Jan 2000 00:00 -%s00" % text)
        for year in (b"0", b"00", b"000", b"0000", b"1899", b"1900", b"9999", b"10000", b"00002000", b"999", b"070"):
            self.same(b"1 Jan %s 00:00 GMT" % year)
        self.same(b"1 Jan " + b"2" * 65_000 + b" 00:00 GMT")

    def test_names_D7_D8_D12(self):
        for zone in b"UT GMT EST EDT CST CDT MST MDT PST PDT Z A ES ESTT est eDt utc x".split():
            self.same(b"2 Jan 2000 00:00 " + zone)
        for name in MONTHS + b"Jen Janu Ja jAN MAY".split():
            self.same(b"2 " + name + b" 2000 00:00 GMT")
        for name in b"Mon Tue Wed Thu Fri Sat Sun mON Mond Mo Sux".split():
            self.same(name + b", 2 Jan 2000 00:00 GMT")
            self.same(name + b" 2 Jan 2000 00:00 GMT")

    def test_effective_D1_D2(self):
        for _ in range(2_000):
            receipt = self.random.choice([0, 1, 253_402_300_799, self.random.randrange(2**38)])
            value = self.cases.date_value()
            for dates in ([], [value], [value, value]):
                expected = date.effective(dates, receipt)
                read = self.probe.date(value) if len(dates) == 1 else None
                self.assertEqual(self.probe.effective_date(read, receipt), expected, (dates, receipt))


if __name__ == "__main__":
    unittest.main()
