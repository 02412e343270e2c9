"""What extras/almanac-page, almanac-ics and explain give, beside the program's own answers: tests/extras.py PROGRAM.

The pages are read by html.parser and the calendar files line by line, without the modules that made them; every date, phase and term is
asked of the program anew, by other lines where there are such.
"""
import datetime
import html.parser
import pathlib
import re
import shutil
import subprocess
import sys
import tempfile
import time

TOP = pathlib.Path(__file__).resolve().parent.parent
PROGRAM = str(pathlib.Path(sys.argv[1]).resolve())
CALENDARS = ["chinese", "vietnamese", "korean", "japanese", "persian", "bahai", "islamic", "hebrew-observed", "hindu-solar", "hindu-lunar",
             "french"]
PHASES = {"new-moon": "New moon", "first-quarter": "First quarter", "full-moon": "Full moon", "last-quarter": "Last quarter"}
MOST_BYTES = 3_000_000
LEAST_CONTRAST = 4.5
SCRIPTS = {"zh-Hans", "ko", "ja", "fa", "ar", "he", "sa", "vi"}
failures = []


def expect(holds, what):
    """Notes what doesn't hold."""
    if not holds:
        failures.append(what)
        print(f"extras: not so: {what}")


def run(*words, given=""):
    """Runs a command: its status, its output and what it said."""
    ended = subprocess.run(words, input=given.encode(), stdout=subprocess.PIPE, stderr=subprocess.PIPE, check=False)
    return ended.returncode, ended.stdout.decode(), ended.stderr.decode()


def extra(name, *words, given=""):
    """Runs one of the extras over the program."""
    program = [] if name == "explain" or "--certificate" in words else ["--program", PROGRAM]
    return run(sys.executable, str(TOP / "extras" / name), *words, *program, given=given)


def results(lines):
    """The results of lines by the program; None of a line that has none."""
    _, text, _ = run(PROGRAM, "convert", given="".join(f"{line}\n" for line in lines))
    words = [line.split() for line in text.splitlines() if line.startswith("line ")]
    return [word[5] if word[6:7] == ["facts"] else None for word in words]


def days_of(year):
    """The days of a year."""
    first = datetime.date(year, 1, 1)
    return [first + datetime.timedelta(count) for count in range(366) if (first + datetime.timedelta(count)).year == year]


class Reader(html.parser.HTMLParser):
    """The dates, events and times of a page, by its days."""

    def __init__(self, page):
        super().__init__()
        self.day, self.inside, self.kind = None, [], None
        self.dates, self.events, self.languages, self.outside, self.ids = {}, [], {}, [], []
        self.feed(page)

    def handle_starttag(self, tag, attrs):
        attributes = dict(attrs)
        self.inside.append(tag)
        self.ids += [attributes["id"]] if "id" in attributes else []
        self.outside += [value for key, value in attrs if key in ("src", "href") and not value.startswith("#")]
        if "lang" in attributes:
            self.languages.setdefault(attributes["lang"], attributes.get("dir"))
        if tag == "time":
            self.day = attributes["datetime"]
        elif "data-date" in attributes:
            self.dates.setdefault(self.day, []).append([attributes["data-date"], ""])
        elif tag == "li":
            self.kind = attributes.get("class")
            if self.kind in ("phase", "term", "new-year", "named-day"):
                self.events.append([self.day, self.kind, ""])

    def handle_endtag(self, tag):
        while self.inside and self.inside.pop() != tag:
            pass

    def handle_data(self, data):
        if "summary" in self.inside and self.kind in ("phase", "term", "new-year", "named-day"):
            self.events[-1][2] += data
        elif "summary" in self.inside and "span" in self.inside:
            self.dates[self.day][-1][1] += data


def phases_of(year):
    """The phases of a year by a line for each day of it and the day after it."""
    asked = [*days_of(year), datetime.date(year + 1, 1, 1)]
    found = {(day, title) for word, title in PHASES.items() for day in results(f"{word} {day} gregorian" for day in asked)}
    return {(day, title) for day, title in found if day.startswith(str(year))}


def terms_of(year):
    """The days of the terms of a year by two lines for each day of it, in order."""
    found = {day for word in ("minor-term", "major-term") for day in results(f"{word} {day} gregorian" for day in days_of(year))}
    return sorted(day for day in found if day.startswith(str(year)))


def term_names():
    """The names of the terms from Xiaohan on, the first of a year."""
    rows = [line.split("\t") for line in (TOP / "docs/names.tsv").read_text(encoding="utf-8").splitlines()]
    return [row[2] for row in rows if row[0] == "term"]


def check_page(folder):
    """The page of 2027 with all calendars."""
    began = time.monotonic()
    status, page, said = extra("almanac-page", "2027", "--place", "tehran")
    took = time.monotonic() - began
    expect(status == 0 and not said, f"almanac-page 2027 ends with 0 and says nothing: {status} {said}")
    longest = len(extra("almanac-page", "2028")[1].encode())  # a year of leap months, whose dates rest on more facts
    expect(max(len(page.encode()), longest) < MOST_BYTES, f"a page has fewer than {MOST_BYTES} bytes: {len(page.encode())}, {longest}")
    print(f"extras: the page of 2027 has {len(page.encode())} bytes and took {took:.1f} s, that of 2028 has {longest} bytes")
    read = Reader(page)
    days = [str(day) for day in days_of(2027)]
    wanted = results(f"gregorian {day} {calendar}" for day in days for calendar in CALENDARS)
    shown = [date for day in days for date in read.dates[day]]
    expect([date for date, _ in shown] == wanted, "the page's dates are those of convert")
    fields = [date.split("-") for date in wanted]
    places = [-2 if calendar == "hindu-lunar" else -1 for _ in days for calendar in CALENDARS]
    expect(all(text.split(" ")[0] == field[place] for (_, text), field, place in zip(shown, fields, places)), "each shows its day")
    events = {(day, text.strip()) for day, kind, text in read.events if kind == "phase"}
    expect(events == phases_of(2027), "the page's phases are all that fall in the year")
    terms = [(day, text.split(" ")[0]) for day, kind, text in read.events if kind == "term"]
    expect(terms == list(zip(terms_of(2027), term_names())), "the page's terms are all that fall in the year")
    expect(not read.outside, f"the page refers to nothing outside itself: {read.outside[:3]}")
    expect(len(set(read.ids)) == len(read.ids), "no two elements have one id")
    expect(SCRIPTS <= set(read.languages), f"each language is marked: {sorted(read.languages)}")
    expect({read.languages[language] for language in ("fa", "ar", "he")} == {"rtl"}, "the direction of each script is marked")
    (folder / "page.html").write_text(page, encoding="utf-8")
    if shutil.which("tidy"):
        expect(run("tidy", "-e", "-q", str(folder / "page.html"))[1:] == ("", ""), "tidy has nothing to say of the page")
    return page


def check_certificate(folder, page):
    """The certificate of a page, and pages and certificates that were changed."""
    file = folder / "page.html"
    _, text, _ = extra("almanac-page", "--certificate", str(file))
    status, verdicts, _ = run(PROGRAM, "check", given=text)
    lines = text.count("\nline ")
    expect(status == 0 and verdicts.endswith(f"end yes {lines} no 0 skip 0\n") and lines > 365 * len(CALENDARS), "check says yes of each line")
    line = re.search(r"line (\d+) gregorian 2027-03-05 persian 1405-12-14", page).group(0)
    phase = page.index("Full moon</summary>")
    minutes = re.search(r"<b>Sunset</b> (\d\d:\d\d)", page)
    changed = {
        "2027-01-01, Chinese": page.replace('"78-43-11-0-24">24 ', '"78-43-11-0-24">25 ', 1),
        "2027-03-05, Persian": page.replace(line, line[:-2] + "15"),
        "Full moon": page[:phase] + "New moon" + page[phase + len("Full moon"):],
        minutes.group(1): page[:minutes.start(1)] + "12:34" + page[minutes.end(1):],
        f"line {page[:page.index('--mark: #8c1515')].count(chr(10)) + 1} of": page.replace("--mark: #8c1515", "--mark: #8c1516", 1),
        "certificate": page.replace("\nend lines ", "\nend lines 1", 1),
    }
    for wanted, other in changed.items():
        file.write_text(other, encoding="utf-8")
        status, text, said = extra("almanac-page", "--certificate", str(file))
        expect(other != page and status == 1 and not text and wanted in said, f"a changed page is refused with `{wanted}`: {status} {said}")


def check_requests(folder):
    """What can't be had: status 2, a sentence, and nothing written."""
    file = folder / "none"
    for name in ("almanac-page", "almanac-ics"):
        for words in (["1702"], ["2148"], ["x"], ["-1"], ["2027", "--calendars", "mayan"], ["2027", "--calendars", ""],
                      ["1791", "--calendars", "french"], []):
            status, text, said = extra(name, *words, "--output", str(file))
            expect(status == 2 and not text and said and not file.exists(), f"{name} {words} is status 2: {status}")
    status, text, said = run(sys.executable, str(TOP / "extras/almanac-page"), "2027", "--program", "/nowhere", "--output", str(file))
    expect(status == 70 and not file.exists(), f"without a program it is status 70: {status} {said}")
    for year, shown in ((1791, 0), (1792, 101), (1793, 365)):
        _, page, _ = extra("almanac-page", str(year), "--calendars", "french,persian", "--place", "none") if shown else extra(
            "almanac-page", str(year), "--place", "none")
        dates = [date for day in Reader(page).dates.values() for date, _ in day]
        _, certificate, _ = run(PROGRAM, "check", given=re.search("<pre id=\"text\">(.*)</pre>", page, re.S).group(1))
        expect(" no 0 skip 0" in certificate.splitlines()[-1], f"check says yes of {year}")
        french = len(dates) - len(days_of(year)) if shown else len(dates) - 10 * len(days_of(year))
        expect(french == shown, f"{year} has {shown} French dates: {french}")


def check_calendar_file():
    """The iCalendar file of 2027: its events are the phases, the terms, and the days on which a month begins."""
    _, text, _ = extra("almanac-ics", "2027")
    expect(all(len(line.encode()) <= 75 for line in text.split("\r\n")) and "\n" not in text.replace("\r\n", ""), "lines end and are folded")
    unfolded = text.replace("\r\n ", "")
    events = re.findall("BEGIN:VEVENT\r\nUID:(.*)\r\n.*\r\nDTSTART;VALUE=DATE:(.*)\r\nSUMMARY:(.*)\r\n", unfolded)
    expect(len({uid for uid, _, _ in events}) == len(events) == unfolded.count("BEGIN:VEVENT"), "each event has a name of its own")
    phases = {(f"{day[:4]}-{day[4:6]}-{day[6:]}", title) for _, day, title in events if title in PHASES.values()}
    expect(phases == phases_of(2027), "the file's phases are all that fall in the year")
    terms = [title.split(" ")[0] for uid, _, title in events if "-term-" in uid]
    expect(terms == term_names(), "its terms are all of them")
    days = [datetime.date(2026, 12, 31), *days_of(2027)]
    for calendar in CALENDARS:
        dates = [date.split("-") for date in results(f"gregorian {day} {calendar}" for day in days)]
        months = [date[:-2] if calendar == "hindu-lunar" else date[:-1] for date in dates]
        firsts = [f"{day:%Y%m%d}" for day, before, month in zip(days[1:], months, months[1:]) if before != month]
        found = [day for uid, day, _ in events if f"-month-{calendar}@" in uid or f"-new-year-{calendar}@" in uid]
        expect(found == firsts, f"the file's firsts of months of {calendar}")
    for title in ("Ramadan 1448", "Qingming", "Chinese New Year\\, year 44 of cycle 78\\, Ding-wei (goat)", "Full moon"):
        expect(any(title == shown for _, _, shown in events), f"an event is called {title}")
    _, some, _ = extra("almanac-ics", "2027", "--calendars", "islamic")
    expect(set(re.findall("-(?:month|new-year)-(.*)@", some)) == {"islamic"}, "only the calendars that are chosen stand in the file")


# Lines of an input, and what stands in the words on each.
EXPLAINED = {
    "gregorian 2033-12-25 chinese": "no major term; the last is Dongzhi (270°)",
    "chinese 78-44-1-0-1 gregorian": "1 Zhengyue (month 1), year 44 of cycle 78, Ding-wei (goat)",
    "islamic 1448-9-1 gregorian": "crescent first seen in Cairo on the evening before 2027-02-08",
    "hindu-lunar 2083-10-0-30-0 gregorian": "lunar day at sunrise on",
    "gregorian 2024-04-30 moonrise-cairo": "moonrise in Cairo on 2024-04-30: none",
    "full-moon 2024-03-28 islamic": "latest full moon before 2024-03-28: 2024-03-25",
    "minor-term 2027-04-01 gregorian": "next minor term in Beijing from 2027-04-01 on: 2027-04-05",
    "gregorian 2027-03-21 dt": "ΔT in 2027",
    "gregorian 2027-02-06 hebrew-observed": "rule of hebrew-observed",
    "persian 1402-12-30 gregorian": "write `persian 1403-1-1 gregorian`",
    "persian 1527-10-12 gregorian": "the day that it names is 2149-01-01",
    "chinese 78-44-6-1-1 gregorian": "that year has no leap month 6",
    "gregorian 2027-13-01 chinese": "the month is 13",
    "gregorian 2027-02-29 chinese": "the last is 2027-02-28",
    "gregorian 1900-02-29 chinese": "of the Julian calendar it is 1900-03-13",
    "gregorian 2027/02/06 chinese": "write `2027-02-06`",
    "gregorian 2027-02-06": "it has 2 fields",
    "chinese 78-44-1-1 gregorian": "the leap month, 0 or 1, stands before the day",
    "chinese 78-44-1-2-1 gregorian": "1 for a leap month and else 0",
    "chinese 78 44 1 0 1 gregorian": "`chinese 78-44-1-0-1 gregorian`",
    "hebrew 5787-1-1 gregorian": "write `hebrew-observed 5787-1-1 gregorian`",
    "gregorian 2027-02-06 full-moon": "may not stand as TO",
    "islamc 1448-9-1 gregorian": "write `islamic 1448-9-1 gregorian`",
    "gregorian 1650-02-06 chinese": "days are 1702-01-01 to 2148-12-31",
    "gregorian 1750-02-06 french": "the French calendar has none before",
    "islamic 1700-1-1 gregorian": "years of islamic are 1113 to 1574",
    "bahai 5-1-1-1-1 gregorian": "years of bahai are -142 to 305 (the cycles counted in)",
    "fixed 12345678 chinese": "the day number has 8 digits",
    "": "it is empty",
    "\ufeffgregorian 2027-02-06 chinese": "byte order mark",
    "gregorian 2027\u22122-6 chinese": "write `gregorian 2027-2-6 chinese`",
    "gregorian 2027-02-06 chinese" + " " * 200: "it has 228 bytes",
}


def check_explained(folder):
    """What explain says of lines, those that are refused among them; that the rule is the program's, explain sees itself."""
    given, text = folder / "given", folder / "text"
    given.write_text("".join(f"{line}\n" for line in EXPLAINED), encoding="utf-8")
    _, printed, _ = run(PROGRAM, "convert", given=given.read_text(encoding="utf-8"))
    text.write_text(printed, encoding="utf-8")
    status, told, said = extra("explain", str(given), str(text))
    expect(status == 0, f"explain ends with 0: {status} {said}")
    parts = re.split(r"^(?=line \d)", told, flags=re.M)[1:]
    expect(len(parts) == len(EXPLAINED), "each line is told")
    for part, (line, wanted) in zip(parts, EXPLAINED.items()):
        expect(wanted in " ".join(part.split()), f"of `{line}` stands `{wanted}`: {part}")
    listed = re.findall(r"^line \d+ .* facts(.*)$", printed, re.M)
    expect(sum(len(numbers.split()) for numbers in listed) <= sum(
        len(numbers.split()) for numbers in re.findall(r"^    facts? ([\d ]+):", told, re.M)), "each fact is told")
    status, _, said = extra("explain", str(given), given=printed.replace("line 2 ", "line 3 "))
    expect(status in (0, 2), "a text with other numbers doesn't fail otherwise")
    for other in ("", "x\n", printed.replace("islamic", "persian"), printed.rpartition("end ")[0]):
        status, out, said = extra("explain", str(given), given=other)
        expect(status == 2 and not out and "the file that convert read comes first" in said,
               f"a text that isn't the input's is status 2, with the order of the files: {said}")
    for words, piped in (((str(text), str(given)), ""), ((str(text),), given.read_text(encoding="utf-8")), ((str(text),), "")):
        status, out, said = extra("explain", *words, given=piped)
        expect(status == 2 and not out and "INPUT is a certificate; the file that convert read comes first" in said,
               f"files in the other order are status 2, and that is said: {said}")
    spoiled = list(spoiled_lines())
    _, printed, _ = run(PROGRAM, "convert", given="".join(f"{line}\n" for line in spoiled))
    given.write_text("".join(f"{line}\n" for line in spoiled), encoding="utf-8")
    status, told, said = extra("explain", str(given), given=printed)
    expect(status == 0 and told.count("refused by rule") == printed.count(" refused "), f"each spoiled line's rule is the program's: {said}")
    print(f"extras: of {len(spoiled)} spoiled lines {told.count('refused by rule')} are refused, each by the rule that explain finds")


def spoiled_lines():
    """Lines of each word FROM with fields at their limits and past them, and words cut, doubled and changed."""
    dates = {"gregorian": "2027-2-6", "fixed": "740018", "persian": "1405-11-17", "bahai": "1-10-12-18-1", "chinese": "78-44-1-0-1",
             "islamic": "1448-8-28", "hindu-solar": "1948-10-23", "hindu-lunar": "2083-10-0-30-0", "french": "235-5-17",
             "hebrew-observed": "5787-11-28", "new-moon": "2027-2-6", "minor-term": "2027-2-6", "korean": "78-44-1-0-1"}
    values = ["0", "1", "2", "12", "13", "14", "19", "20", "28", "29", "30", "31", "32", "33", "99", "100", "1079", "1080", "1112", "1527", "1575",
              "2070", "2071", "2206", "4785", "5461", "5909", "9999", "10000", "621277", "784542", "12345678", "x", "", "+1", "007"]
    for word, date in dates.items():
        fields = date.split("-")
        for place in range(len(fields)):
            for value in values:
                yield f"{word} {'-'.join([*fields[:place], value, *fields[place + 1:]])} gregorian"
                yield f"{word} {'-'.join([*fields[:place], value, *fields[place + 1:]])} french"
        yield from (f"{word} {date}-1 fixed", f"{word} {date} sun dt", f"{word} {date}", f"{word}s {date} dt", f"{word} {date} {word}x")


def luminance(colour):
    """The relative luminance of #rrggbb, by the Web Content Accessibility Guidelines 2.1."""
    digits = colour.lstrip("#")
    digits = "".join(digit * 2 for digit in digits) if len(digits) == 3 else digits
    parts = [int(digits[place:place + 2], 16) / 255 for place in (0, 2, 4)]
    red, green, blue = (part / 12.92 if part <= 0.03928 else ((part + 0.055) / 1.055) ** 2.4 for part in parts)
    return 0.2126 * red + 0.7152 * green + 0.0722 * blue


def check_contrast():
    """Letters stand out from their ground in each scheme of the page's colours."""
    style = (TOP / "extras/almanac/page.css").read_text(encoding="utf-8")
    schemes = [dict(re.findall(r"--(\w+): (#\w+);", block)) for block in re.findall(r":root \{(.*?)\}", style, re.S)]
    expect(len(schemes) == 3, "the page has colours for light, dark and paper")
    for scheme in schemes:
        colours = schemes[0] | scheme
        for ink in ("ink", "quiet", "mark"):
            for paper in ("paper", "raised"):
                light, dark = sorted((luminance(colours[ink]), luminance(colours[paper])), reverse=True)
                contrast = (light + 0.05) / (dark + 0.05)
                expect(contrast >= LEAST_CONTRAST, f"{ink} {colours[ink]} on {paper} {colours[paper]}: {contrast:.1f}")


def main():
    with tempfile.TemporaryDirectory() as name:
        folder = pathlib.Path(name)
        page = check_page(folder)
        check_certificate(folder, page)
        check_requests(folder)
        check_calendar_file()
        check_explained(folder)
        check_contrast()
    print(f"extras: {len(failures)} failed" if failures else "extras: all passed")
    return 1 if failures else 0


if __name__ == "__main__":
    sys.exit(main())
