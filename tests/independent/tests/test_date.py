"""Page D: the Date of a message, and its effective date."""

import datetime
import unittest

from examples import SETUP, TO_BOB, TO_BOTH
from scope import date, header
from scope.date import effective, seconds

LIMIT = 253_402_300_799

CONTROLS = [octet for octet in list(range(32)) + [127] if octet != 9]

LENGTHS = [31, 28, 31, 30, 31, 30, 31, 31, 30, 31, 30, 31]
MONTHS = ["Jan", "Feb", "Mar", "Apr", "May", "Jun", "Jul", "Aug", "Sep", "Oct", "Nov", "Dec"]


def nested(depth: int) -> bytes:
    return b"(" * depth + b")" * depth


class Examples(unittest.TestCase):
    def test_proved_examples_C14_D8_D13(self):
        self.assertEqual(seconds(b"1 Jan 1970 00:00:00 +0000"), 0)
        self.assertEqual(seconds(b"1 Jan 1970 00:30 +0100"), 0)
        self.assertEqual(seconds(b"1 Mar 2000 00:00:00 -0100"), 951872400)
        self.assertIsNone(seconds(b"29 Feb 1900 00:00 GMT"))

    def test_dates_of_the_example_messages_D3_C15(self):
        for block, expected in ((TO_BOB, 1510062830), (TO_BOTH, 1510062985), (SETUP, 1509871478)):
            value, = header.values_of(header.fields(block), b"Date")
            self.assertEqual(seconds(value), expected, value)

    def test_dates_of_rfc_5322_D3_D5(self):
        self.assertEqual(seconds(b"Fri, 21 Nov 1997 09:55:06 -0600"), 880127706)
        self.assertEqual(seconds(b"Tue, 1 Jul 2003 10:52:37 +0200"), 1057049557)
        self.assertEqual(seconds(b"Thu, 13 Feb 1969 23:32:54 -0330"), 0)
        self.assertEqual(
            seconds(b"Thu,\t      13\t        Feb\t          1970\t      23:32"
                    b"\t               -0330 (Newfoundland Time)"), 3812520)
        self.assertEqual(seconds(b"21 Nov 97 09:55:06 GMT"), 880106106)
        # RFC 5322, appendix A.6.3, with comments and blanks in every place.
        self.assertEqual(seconds(b"Fri, 21 Nov 1997 09(comment):   55  :  06 -0600"), 880127706)


class Calendar(unittest.TestCase):
    """D8 and D13: days of months, leap years, and seconds since 1970."""

    def test_every_day_of_some_years_agrees_with_the_calendar_D8(self):
        start = datetime.datetime(1970, 1, 1)
        for year in [1970, 1971, 1972, 1999, 2000, 2001, 2004, 2017, 2100, 2399, 2400, 9999]:
            day = datetime.datetime(year, 1, 1, 13, 14, 15)
            while day.year == year:
                text = f"{day.day} {MONTHS[day.month - 1]} {year} 13:14:15 +0000"
                expected = int((day - start).total_seconds())
                self.assertEqual(seconds(text.encode()), expected, text)
                if day.date() == datetime.date(9999, 12, 31):
                    break
                day += datetime.timedelta(days=1)

    def test_the_first_of_march_agrees_with_the_calendar_D8_D13(self):
        start = datetime.datetime(1970, 1, 1)
        for year in list(range(1900, 2500)) + list(range(2500, 10000, 37)) + [9999]:
            expected = int((datetime.datetime(year, 3, 1) - start).total_seconds())
            text = f"1 Mar {year} 00:00 GMT".encode()
            self.assertEqual(seconds(text), max(expected, 0), text)

    def test_the_day_must_exist_in_the_month_D8(self):
        for year, leap in [(2001, False), (2000, True), (2004, True), (1900, False), (2100, False),
                           (2400, True), (1904, True), (9996, True), (9999, False)]:
            for month, length in zip(MONTHS, LENGTHS):
                length += 1 if month == "Feb" and leap else 0
                self.assertIsNone(seconds(f"0 {month} {year} 00:00 GMT".encode()))
                self.assertIsNone(seconds(f"00 {month} {year} 00:00 GMT".encode()))
                self.assertIsNotNone(seconds(f"1 {month} {year} 00:00 GMT".encode()))
                self.assertIsNotNone(seconds(f"{length} {month} {year} 00:00 GMT".encode()))
                self.assertIsNone(seconds(f"{length + 1} {month} {year} 00:00 GMT".encode()))
                self.assertIsNone(seconds(f"99 {month} {year} 00:00 GMT".encode()))

    def test_leap_days_in_short_years_D8_D9(self):
        self.assertEqual(seconds(b"29 Feb 00 00:00 GMT"), 951782400)
        self.assertEqual(seconds(b"29 Feb 100 00:00 GMT"), 951782400)
        self.assertIsNone(seconds(b"29 Feb 000 00:00 GMT"))
        self.assertEqual(seconds(b"29 Feb 72 00:00 GMT"), 68169600)


class Parts(unittest.TestCase):
    """D3 and D7 to D10: the parts of a date but its zone."""

    def test_digits_of_the_day_D8(self):
        self.assertEqual(seconds(b"2 Jan 1970 00:00 GMT"), 86400)
        self.assertEqual(seconds(b"02 Jan 1970 00:00 GMT"), 86400)
        self.assertIsNone(seconds(b"002 Jan 1970 00:00 GMT"))
        self.assertIsNone(seconds(b"+2 Jan 1970 00:00 GMT"))
        self.assertIsNone(seconds(b"Jan 1970 00:00 GMT"))
        self.assertIsNone(seconds(b"x Jan 1970 00:00 GMT"))

    def test_month_names_D8(self):
        self.assertEqual(seconds(b"1 feb 1970 00:00 GMT"), 31 * 86400)
        self.assertEqual(seconds(b"1 fEB 1970 00:00 GMT"), 31 * 86400)
        for month in [b"January", b"February", b"Fe", b"2", b"Foo", b"F\xe9b", b"Feb."]:
            self.assertIsNone(seconds(b"1 " + month + b" 1970 00:00 GMT"), month)

    def test_day_names_D7(self):
        for name in [b"Mon", b"Tue", b"Wed", b"Thu", b"Fri", b"Sat", b"Sun", b"sUN", b"MON"]:
            self.assertEqual(seconds(name + b", 2 Jan 1970 00:00 GMT"), 86400, name)
        for name in [b"Monday", b"Mo", b"Jan", b"M\xe9n", b"1", b""]:
            self.assertIsNone(seconds(name + b", 2 Jan 1970 00:00 GMT"), name)
        self.assertIsNone(seconds(b"Mon 2 Jan 1970 00:00 GMT"))
        self.assertIsNone(seconds(b"Mon,, 2 Jan 1970 00:00 GMT"))
        self.assertIsNone(seconds(b"Mon, Mon, 2 Jan 1970 00:00 GMT"))
        self.assertIsNone(seconds(b"2, Jan 1970 00:00 GMT"))
        self.assertIsNone(seconds(b"2 Jan, 1970 00:00 GMT"))

    def test_hours_D10(self):
        self.assertEqual(seconds(b"1 Jan 1970 00:00 GMT"), 0)
        self.assertEqual(seconds(b"1 Jan 1970 23:00 GMT"), 82800)
        for hours in [b"24", b"99", b"0", b"000", b"-1", b""]:
            self.assertIsNone(seconds(b"1 Jan 1970 " + hours + b":00 GMT"), hours)

    def test_minutes_D10(self):
        self.assertEqual(seconds(b"1 Jan 1970 00:59 GMT"), 3540)
        self.assertEqual(seconds(b"1 Jan 1970 00:59:00 GMT"), 3540)
        for minutes in [b"60", b"99", b"0", b"000", b""]:
            self.assertIsNone(seconds(b"1 Jan 1970 00:" + minutes + b" GMT"), minutes)
            self.assertIsNone(seconds(b"1 Jan 1970 00:" + minutes + b":00 GMT"), minutes)
        self.assertIsNone(seconds(b"1 Jan 1970 00 GMT"))

    def test_seconds_and_second_60_D10(self):
        self.assertEqual(seconds(b"1 Jan 1970 00:00:59 GMT"), 59)
        self.assertEqual(seconds(b"1 Jan 1970 00:00:60 +0000"), 60)
        self.assertEqual(seconds(b"1 Jan 1970 12:34:60 GMT"), 45300)
        for part in [b"61", b"99", b"0", b"000", b""]:
            self.assertIsNone(seconds(b"1 Jan 1970 00:00:" + part + b" GMT"), part)
        self.assertIsNone(seconds(b"1 Jan 1970 00:00:00:00 GMT"))
        self.assertIsNone(seconds(b"1 Jan 1970 00:00:00.5 GMT"))

    def test_years_D9(self):
        new_year = {1970: 0, 1971: 31536000, 1999: 915148800, 2000: 946684800,
                    2049: 2493072000, 2899: 29316470400, 9999: 253370764800}
        for text, year in [(b"70", 1970), (b"71", 1971), (b"99", 1999), (b"00", 2000),
                           (b"49", 2049), (b"070", 1970), (b"071", 1971), (b"099", 1999),
                           (b"100", 2000), (b"149", 2049), (b"999", 2899), (b"1970", 1970),
                           (b"2899", 2899), (b"9999", 9999)]:
            self.assertEqual(seconds(b"1 Jan " + text + b" 00:00 GMT"), new_year[year], text)
        # D13: before 1970 it is available, and 0.
        for text in [b"50", b"69", b"000", b"001", b"069", b"1900", b"1969"]:
            self.assertEqual(seconds(b"1 Jan " + text + b" 00:00 GMT"), 0, text)
        for text in [b"0", b"7", b"0000", b"0099", b"1899", b"01970", b"12000", b"10000", b""]:
            self.assertIsNone(seconds(b"1 Jan " + text + b" 00:00 GMT"), text)

    def test_year_000_is_1900_and_50_is_1950_D9(self):
        # Told apart by what day exists and by the leap year.
        self.assertIsNone(date.year_of(b"1899"))
        self.assertEqual(date.year_of(b"1900"), 1900)
        self.assertEqual(date.year_of(b"000"), 1900)
        self.assertEqual(date.year_of(b"49"), 2049)
        self.assertEqual(date.year_of(b"50"), 1950)
        self.assertEqual(seconds(b"29 Feb 52 00:00 GMT"), 0)
        self.assertIsNone(seconds(b"29 Feb 50 00:00 GMT"))


class Zones(unittest.TestCase):
    """D11 to D13."""

    def test_signs_and_digits_D11(self):
        noon = 12 * 3600
        for zone, east in [(b"+0000", 0), (b"-0000", 0), (b"+0001", 60), (b"-0001", -60),
                           (b"+0059", 3540), (b"-0059", -3540), (b"+0100", 3600),
                           (b"+1130", 41400), (b"-1200", -43200)]:
            self.assertEqual(seconds(b"1 Jan 1970 12:00 " + zone), noon - east, zone)
        # The hours of a zone go to 99.
        self.assertEqual(seconds(b"10 Jan 1970 00:00 +9959"), 9 * 86400 - 99 * 3600 - 59 * 60)
        self.assertEqual(seconds(b"10 Jan 1970 00:00 -9959"), 9 * 86400 + 99 * 3600 + 59 * 60)
        for zone in [b"+0060", b"-0060", b"+0099", b"+010", b"+01000", b"+1", b"+", b"-", b"0100",
                     b"+ 0100", b"+(c)0100", b"+-0100", b"+01:00", b"+0100+0100", b"",
                     b"+0100 GMT", b"GMT GMT"]:
            self.assertIsNone(seconds(b"1 Jan 1970 12:00 " + zone), zone)

    def test_letters_D12(self):
        noon = 12 * 3600
        for zone, hours in [(b"UT", 0), (b"GMT", 0), (b"EST", -5), (b"EDT", -4), (b"CST", -6),
                            (b"CDT", -5), (b"MST", -7), (b"MDT", -6), (b"PST", -8), (b"PDT", -7),
                            (b"UTC", 0), (b"Z", 0), (b"A", 0), (b"j", 0), (b"CET", 0),
                            (b"Invented", 0), (b"ESTX", 0), (b"E" * 500, 0)]:
            for text in [zone, zone.lower(), zone.swapcase()]:
                self.assertEqual(seconds(b"1 Jan 1970 12:00 " + text), noon - hours * 3600, text)
        for zone in [b"GMT+0100", b"EST5EDT", b"GMT+1", b"E\xe9T", b"G.M.T", b"US/Pacific"]:
            self.assertIsNone(seconds(b"1 Jan 1970 12:00 " + zone), zone)

    def test_the_offset_is_taken_away_D13(self):
        self.assertEqual(seconds(b"1 Jan 1970 00:00 -0030"), 1800)
        self.assertEqual(seconds(b"1 Jan 1970 00:30 +0030"), 0)
        self.assertEqual(seconds(b"31 Dec 1969 23:59:59 -0001"), 59)
        # Just before 1970.
        self.assertEqual(seconds(b"1 Jan 1970 00:29:59 +0030"), 0)
        self.assertEqual(seconds(b"1 Jan 1970 00:30:01 +0030"), 1)


class Tokens(unittest.TestCase):
    """D3 to D6."""

    def test_whole_runs_need_no_blanks_D4_D5(self):
        self.assertEqual(seconds(b"1Jan2000 00:00GMT"), 946684800)
        self.assertEqual(seconds(b"mon,1jan70 00:00:03z"), 3)
        self.assertEqual(seconds(b"1 Jan 2000 01:00+0100"), 946684800)
        self.assertEqual(seconds(b"1 Jan 2000 00:00+0100"), 946681200)
        self.assertEqual(seconds(b"1Jan2000(c)00:00GMT"), 946684800)
        self.assertIsNone(seconds(b"1Jan200000:00GMT"))
        self.assertIsNone(seconds(b"1 Jan 20()00 00:00 GMT"))
        self.assertIsNone(seconds(b"1 J an 2000 00:00 GMT"))
        self.assertIsNone(seconds(b"1 Jan 2000 0 0:00 GMT"))
        self.assertIsNone(seconds(b"1 Jan 2000 00:00 G MT"))

    def test_blanks_and_comments_in_every_place_D5(self):
        parts = [b"Mon", b",", b"1", b"Jan", b"2000", b"00", b":", b"00", b":", b"07", b"GMT"]
        for filler in [b" ", b"\t", b"(c)", b" (a (b) \\) ) \t", nested(16)]:
            text = filler + filler.join(parts) + filler
            self.assertEqual(seconds(text), 946684807, text)
        for filler in [nested(17), b"(", b")", b"\r\n ", b"\r", b"\n", b"\x0b", b"\xa0", b"\0"]:
            for place in range(len(parts) + 1):
                text = b" ".join(parts[:place] + [filler] + parts[place:])
                self.assertIsNone(seconds(text), text)

    def test_control_octets_in_comments_D6(self):
        for octet in CONTROLS:
            self.assertIsNone(seconds(b"1 Jan 1970 00:00 GMT (" + bytes([octet]) + b")"))
            self.assertIsNone(seconds(b"1 Jan 1970 00:00 GMT (\\" + bytes([octet]) + b")"))
        self.assertEqual(seconds(b"1 Jan 1970 00:00 GMT (\t\\\t\xff)"), 0)

    def test_nothing_else_reads_D3_D4(self):
        for text in [b"", b" ", b"()", b"now", b"0", b"1 Jan 1970", b"1970-01-01T00:00:00Z",
                     b"1/1/1970 00:00 GMT", b'1 Jan 1970 00:00 "GMT"', b"1 Jan 1970 00:00",
                     b"1 Jan 1970 00:00:00", b"1 Jan 1970 00.00 GMT", b"1 Jan 1970 00:00 GMT.",
                     b"Thu Jan 1 00:00:00 1970", b"1 Jan 1970 00:00 GMT;", b"Mon,", b",",
                     b"1 Jan 1970 : 00:00 GMT", b"1 Jan 1970 00::00 GMT", b"1 Jan 1970 00,00 GMT",
                     b"1 Jan 1970 00:00,00 GMT"]:
            self.assertIsNone(seconds(text), text)

    def test_every_octet_behind_a_date_D3_D4(self):
        for octet in range(256):
            expected = 0 if octet in b" \t" else None
            self.assertEqual(seconds(b"1 Jan 1970 00:00 +0000" + bytes([octet])), expected, octet)

    def test_long_runs_D4_D12(self):
        self.assertIsNone(seconds(b"1" * 60000 + b" Jan 1970 00:00 GMT"))
        self.assertIsNone(seconds(b"1 Jan " + b"1" * 60000 + b" 00:00 GMT"))
        self.assertIsNone(seconds(b"1 Jan 1970 00:00 +" + b"1" * 60000))
        self.assertEqual(seconds(b"1 Jan 1970 00:00 " + b"z" * 60000), 0)


class EffectiveDate(unittest.TestCase):
    """D1 and D2."""

    DATE = b" 1 Jan 1970 00:16:40 +0000"

    def test_the_smaller_time_D2(self):
        self.assertEqual(seconds(self.DATE), 1000)
        self.assertEqual(effective([self.DATE], 999), 999)
        self.assertEqual(effective([self.DATE], 1000), 1000)
        self.assertEqual(effective([self.DATE], 1001), 1000)
        self.assertEqual(effective([self.DATE], 0), 0)

    def test_the_receipt_time_when_unavailable_D1_D2(self):
        self.assertEqual(effective([], 5), 5)
        self.assertEqual(effective([b"junk"], 5), 5)

    def test_two_date_fields_even_equal_D1(self):
        self.assertEqual(effective([self.DATE, self.DATE], 5000), 5000)
        self.assertEqual(effective([self.DATE, b"junk"], 5000), 5000)

    def test_before_1970_counts_as_zero_not_as_unavailable_D13(self):
        self.assertEqual(effective([b"31 Dec 1969 23:59:59 +0000"], 5000), 0)

    def test_a_date_above_the_limit_D2(self):
        self.assertEqual(seconds(b"31 Dec 9999 23:59:59 +0000"), LIMIT)
        self.assertEqual(seconds(b"31 Dec 9999 23:59:60 +0000"), LIMIT + 1)
        self.assertEqual(effective([b"31 Dec 9999 23:59:60 +0000"], LIMIT), LIMIT)
        self.assertEqual(seconds(b"31 Dec 9999 23:59:60 -9959"), LIMIT + 1 + 99 * 3600 + 59 * 60)


if __name__ == "__main__":
    unittest.main()
