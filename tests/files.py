"""Settlement files in the second implementation's text form, and how it is run: what the scripts here share."""
import os
import subprocess

ROOT = os.path.dirname(os.path.dirname(os.path.abspath(__file__)))
REFERENCE = os.path.join(ROOT, "reference", "target", "release", "reference")


def build():
    subprocess.run(["cargo", "build", "--release", "--offline", "--quiet", "--manifest-path", os.path.join(ROOT, "reference", "Cargo.toml")], check=True)


def reference(*words, given=b""):
    return subprocess.run([REFERENCE, *words], input=given, check=True, capture_output=True).stdout


def encoded(text):
    return reference("encode", given=text.encode())


# The input of "A whole report".
WORKED = """header service water year 2021 property 0 roads 0 capacity 2000 standard 1000
band size 20 annual 365000 allowance 0 threshold 100
point number 7 connected 7000 disconnected none
transfer day 7000 provider 3
transfer day 7861 provider 2
meter size 20 share 100 return 100 digits 5 installed 7000 removed none
read day 7761 value 99900
read day 8126 rollover value 265
"""

# A sewerage file with two records of each kind.
FULL = """header service sewerage year 2022 property 280 roads 150 capacity 2000 standard 1000
band size 20 annual 365000 allowance 10 threshold 100
band size 40 annual 900000 allowance 20 threshold 300
point number 5 connected 8000 disconnected 8400
transfer day 7900 provider 3
transfer day 8100 provider 2
condition day 8010 vacant schedule3 1000 section29e 500 value 9000
condition day 8020 property roads schedule3 0 section29e 2000 value 10000
meter size 20 share 100 return 95 digits 4 installed 7800 removed 8300
read day 7900 value 100
read day 8000 value 200
meter size 43 share 50 return 80 digits 6 installed 8300 removed none
read day 8300 value 7
read day 8390 value 70
point number 6 connected 8000 disconnected none
transfer day 8000 provider 9
"""

TRANSFER = "transfer day 7000 provider 3"
FIRST_READ = "read day 7761 value 99900"
LAST_READ = "read day 8126 rollover value 265"


def changed(text, *pairs):
    """The text with lines replaced: each old line stands in it once."""
    for old, new in pairs:
        assert text.count(old) == 1, old
        text = text.replace(old, new)
    return text


def second(text):
    """The same file in version 2."""
    return changed(text, ("header", "header version 2"))


def lines(form, numbers):
    return "\n".join(form.format(n) for n in numbers)


def points(count, *pairs):
    """The worked file with that many points, each of one transfer, and lines changed."""
    text = lines("point number {} connected 7000 disconnected none\ntransfer day 0 provider 1", range(count))
    return changed(WORKED[: WORKED.index("point")] + text + "\n", *pairs)


def reads(values, digits=5, installed=7000, removed="none"):
    """The worked file with other reads: pairs of a day and what follows it."""
    meter = f"meter size 20 share 100 return 100 digits {digits} installed {installed} removed {removed}\n"
    text = WORKED[: WORKED.index("meter")] + meter
    return text + "".join(f"read day {day} {rest}\n" for day, rest in values)


def in_worked(number, why, *pairs):
    return number, why, changed(WORKED, *pairs)


def in_full(number, why, *pairs):
    return number, why, changed(FULL, *pairs)


# The small inputs of the table of breaches, as far as they are text.
SMALL = [
    in_worked(3, "first byte 58 hexadecimal", ("header", "header mark 0x5853")),
    in_worked(4, "0 bands", ("band size 20 annual 365000 allowance 0 threshold 100\n", "")),
    (5, "two reads on day 9", reads([(9, "value 1"), (9, "value 2")], installed=0)),
    in_worked(6, "first transfer 101, connected 100", ("connected 7000", "connected 100"), (TRANSFER, "transfer day 101 provider 3")),
    in_full(7, "discounts 6,000 and 4,001", ("schedule3 1000 section29e 500", "schedule3 6000 section29e 4001")),
    in_worked(8, "connected 10, disconnected 9", ("connected 7000 disconnected none", "connected 10 disconnected 9")),
    (8, "installed 10, removed 9", reads([], installed=10, removed=9)),
    (9, "installed 10, read 9", reads([(9, "value 1")], installed=10)),
    (10, "5, then 4, unset", reads([(7761, "value 5"), (7762, "value 4")])),
    (11, "days 0 and 3,661", reads([(0, "value 1"), (3661, "value 2")], installed=0)),
]
