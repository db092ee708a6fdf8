"""page.py FILE [BROWSER | --pictures]: tries the page in this file in Chromium, or in another class
of browsers.py, or takes its pictures. web/check calls it. The functions `asked` are in page.js.
"""
import base64
import contextlib
import json
import pathlib
import re
import subprocess
import sys
from urllib.parse import quote

HERE = pathlib.Path(__file__).resolve().parent
ROOT = HERE.parent.parent
sys.dont_write_bytecode = True
sys.path += [str(ROOT / "tests"), str(ROOT / "tools")]
import browsers  # noqa: E402
import reference_parser  # noqa: E402
import units  # noqa: E402
from selenium.common.exceptions import TimeoutException  # noqa: E402
from selenium.webdriver.common.keys import Keys  # noqa: E402
from selenium.webdriver.support.ui import WebDriverWait  # noqa: E402

# The page has 63,878 bytes, and may have 15 % more
LARGEST = int(1.15 * 63_878)
# The height that the keyboard of a phone of 375 by 667 pixels leaves free
FREE = 300
PLAIN = {"options": "s", "printing": "short 11 y q mon w d h min s ms µs ns"}

LONGEST = (
    "584y 3q 2mon 1w 3d 23h 34min 33s 709ms 551µs 615ns 18,446,744,073,709,551,615"
    " 18,446,744,073,709.551615 18,446,744,073.709551615 P213503DT23H34M33.709551615S"
)
# Texts, the options with which they are read, what is printed, and the value in nanoseconds,
# milliseconds, seconds and ISO 8601. `default_unit=refused` requires units.
READ = [
    ("3m + 13s + 29ms", "", "3min 13s 29ms 193,029,000,000 193,029 193.029 PT3M13.029S"),
    ("1h 30m", "", "1h 30min 5,400,000,000,000 5,400,000 5,400 PT1H30M"),
    ("1m*10ms", "", "600ms 600,000,000 600 0.6 PT0.6S"),
    ("1h\n30m", "", "1h 30min 5,400,000,000,000 5,400,000 5,400 PT1H30M"),
    ("1ns+30s", "", "30s 1ns 30,000,000,001 30,000.000001 30.000000001 PT30.000000001S"),
    ("0", "", "0s 0 0 0 PT0S"),
    ("1y", "", "1y 31,536,000,000,000,000 31,536,000,000 31,536,000 P365D"),
    ("1d2h3min4s", "no_calc", "1d 2h 3min 4s 93,784,000,000,000 93,784,000 93,784 P1DT2H3M4S"),
    ("1M", "", "1min 60,000,000,000 60,000 60 PT1M"),
    ("1m31", "lowercase", "1min 31s 91,000,000,000 91,000 91 PT1M31S"),
    ("1分+31秒", "cn_unit", "1min 31s 91,000,000,000 91,000 91 PT1M31S"),
    ("2 Hrs", "more_names", "2h 7,200,000,000,000 7,200,000 7,200 PT2H"),
    ("2h 7m", "default_unit=refused", "2h 7min 7,620,000,000,000 7,620,000 7,620 PT2H7M"),
    ("1500", "default_unit=ms", "1s 500ms 1,500,000,000 1,500 1.5 PT1.5S"),
    (f"{2**64 - 1}ns", "", LONGEST),
]

# Texts that are read, the options, the notes, and what is offered.
NOTES = [
    ("1h 30", "", ["30 has no unit: seconds."], ["1h 30m", "1 hour 30 minutes"]),
    ("12h30", "", ["30 has no unit: seconds."], ["12h 30m", "12 hours 30 minutes"]),
    ("1d + 23 ", "", ["23 has no unit: seconds."], ["1d + 23h", "1 day 23 hours"]),
    ("1h 3", "default_unit=ms", ["3 has no unit: milliseconds."], ["1h 3m", "1 hour 3 minutes"]),
    ("1h 59", "", ["59 has no unit: seconds."], ["1h 59m", "1 hour 59 minutes"]),
    ("1h 60", "", ["60 has no unit: seconds."], []),
    ("1m 30", "", ["30 has no unit: seconds."], []),
    ("1h 30", "default_unit=min", ["30 has no unit: minutes."], []),
    ("30 + 1h", "", ["30 has no unit: seconds."], []),
    ("1m*90", "", [], []),
    ("1h 0", "", [], []),
    ("6M", "", ["M is minutes; months are mon."], []),
    ("1y2m", "", ["m is minutes; months are mon.", "That is 365d 2min: a year has 365 days."], []),
    ("1 day 2m 3h", "", [], []),
    ("180d", "", ["That is 180d: a quarter has 91 days, a month has 30 days."], []),
    ("2w", "", [], []),
    ("1h " * 700 + "5", "", [], []),
]

# Texts that are refused, the options, what is marked, and what is offered. The line is that of the
# reference parser.
AT_END = ["\u00a0"]
REFUSED = [
    ("   ", "", AT_END, []),
    ("5 mins", "", ["mins"], ["5 min", "5 minutes"]),
    ("2hrs30", "", ["hrs"], ["2h 30m", "2 hours 30 minutes"]),
    ("2 hrs 5 mins 30", "", ["hrs"], ["2 h 5 min 30s", "2 hours 5 minutes 30 seconds"]),
    ("5 MINS", "lowercase", ["MINS"], ["5 min", "5 minutes"]),
    ("5 Mins + 1H", "lowercase", ["Mins"], ["5 min + 1H", "in capitals too, 1 hour 5 minutes"]),
    ("2 mins + 1 hrs", "no_calc", ["mins"], ["2 min + 1 h", "with + and *, 1 hour 2 minutes"]),
    ("5 mins", "default_unit=ms", ["mins"], ["5 min", "5 minutes"]),
    ("2 mos", "more_names", ["mos"], ["2 mon", "2 months"]),
    ("600 yrs", "", ["yrs"], []),
    ("5 mins, 1h", "", ["mins"], []),
    ("1h 30", "default_unit=refused", AT_END, ["1h 30m", "1 hour 30 minutes"]),
    ("1m 59", "default_unit=refused", AT_END, ["1m 59s", "1 minute 59 seconds"]),
    ("90", "default_unit=refused", AT_END, []),
    ("00", "default_unit=refused", AT_END, ["00s", "0 seconds"]),
    ("2 * 5m", "default_unit=refused", ["*"], []),
    ("90s*2", "default_unit=ms", ["*"], []),
    ("1m+2", "no_calc", ["+"], ["1m+2s", "with + and *, 1 minute 2 seconds"]),
    ("1M", "lowercase", ["M"], ["1M", "in capitals too, 1 minute"]),
    ("PT5m", "lowercase", ["PT"], ["5m", "5 minutes"]),
    ("1分", "", ["分"], ["1分", "with Chinese units, 1 minute"]),
    ("1分s", "no_calc cn_unit", ["分s"], []),
    ("1.5天", "", ["."], ["36h", "1 day 12 hours"]),
    ("1.5h + 1分", "", ["."], ["90min + 1分", "with Chinese units, 1 hour 31 minutes"]),
    ("5小时", "", ["小时"], []),
    ("5μs", "", ["μs"], ["5us", "5 microseconds"]),
    ("5 μseconds", "more_names", ["μseconds"], ["5 us", "5 microseconds"]),
    ("5 minsª", "", ["minsª"], []),
    ("13mxyz", "", ["mxyz"], []),
    ("1h, 30m", "", [","], []),
    ("1.5h", "", ["."], ["90min", "1 hour 30 minutes"]),
    ("2h + .5 mins", "", ["."], ["2h + 30s", "2 hours 30 seconds"]),
    ("1.5h 30", "", ["."], ["90min 30m", "2 hours"]),
    ("1.5h. 30", "", ["."], ["90min 30m", "2 hours"]),
    ("1h. 30", "default_unit=refused", ["."], ["1h 30m", "1 hour 30 minutes"]),
    ("5m... 10m", "", ["."], []),
    ("1.5 hrs 30", "", ["."], ["90min 30m", "2 hours"]),
    ("1.5", "default_unit=ms", ["."], ["1500us", "1 millisecond 500 microseconds"]),
    ("1.5", "default_unit=refused", ["."], []),
    ("0.3ns", "", ["."], []),
    ("1_000_000ms", "", ["_"], ["1000000ms", "16 minutes 40 seconds"]),
    ("0" + "_000" * 33 + "s", "", ["_"], []),
    ("4'33", "", ["'"], []),
    ("2024_01_31", "", ["_"], []),
    ("+5m", "", ["+"], ["5m", "5 minutes"]),
    ("1:30:00", "", [":"], []),
    ("PT1H30M", "", ["PT"], ["1H30M", "1 hour 30 minutes"]),
    ("PT5M", "lowercase", ["PT"], ["5M", "in capitals too, 5 minutes"]),
    ("PT5", "", ["PT"], []),
    ("PT1H30", "", ["PT"], ["1H 30m", "1 hour 30 minutes"]),
    ("P5M", "", ["P"], []),
    ("-5m", "", ["-"], []),
    ("1m+", "", AT_END, []),
    ("1m+2*3 4", "", ["4"], []),
    ("1m+2*3", "", [], []),
    ("(1h + 30m) * 2", "", ["("], []),
    ("1h / 2", "", ["/"], []),
    ("'1h'", "", ["'"], []),
    ("600y", "", ["600y"], []),
    (" 600 y+1", "", ["600 y"], []),
    ("18446744073709551616", "", ["18446744073709551616"], []),
    ("1y 600y", "", [], []),
    ("580y*2", "", [], []),
    ("1\u200bh", "", ["\u200b"], []),
    ('1s "', "", ['"'], []),
]

# Texts and links that must be shown and do nothing else. The links must not change how durations
# are printed.
HOSTILE = [
    "<img src=x onerror=window.hacked=1>",
    "1m</textarea><script>window.hacked=1</script>",
    '1m "><svg onload=window.hacked=1>',
    "1m <b>&lt;&amp;",
    "1m \u202etxet desrever",
    "1m \u05d0\u05d1\u05d2 \u0661",
    "1m \U0001f600",
]
HOSTILE_LINKS = """__proto__=1 constructor toString=y&text=1h style=__proto__ style parts=0 parts=-1
    parts=1e1 parts=1%20 no_calc=1 no_calc=% text=%ff text=%ED%A0%80 units=%E0%A4%A units= units
    units=y,x units=y,,d units=y%20d units=__proto__ default_unit=x default_unit require_unit
    style=<img%20src=x%20onerror=window.hacked=1> javascript:window.hacked=1 %74ext=1h =&=
    style=long%00""".split()

MEGABYTE = 1 << 20
# Texts of over a million characters, and what is printed, or None if they are refused. 349,525 s
# are 4 d 1 h 5 min 25 s.
LONG = [
    ("1s " * 349_525 + " ", "4d 1h 5min 25s"),
    ("1h\n" + " " * MEGABYTE, "1h"),
    ("x" * MEGABYTE, None),
    ("1m " + "<b>" * 349_524, None),
    (" " * MEGABYTE, None),
    ("1m " + "1" * (MEGABYTE - 6) + "m .5", None),
]


class Page:
    def __init__(self, file, browser):
        self.file = pathlib.Path(file).resolve()
        self.name, self.rows, self.wrong = browser, 0, 0
        self.browser = getattr(browsers, browser)()
        self.driver = self.browser.driver
        self.driver.set_script_timeout(60)
        self.before("(() => {" + (HERE / "page.js").read_text(encoding="utf-8") + "})()")

    def before(self, script):
        """Lets the script run before the scripts of each page that is opened."""
        self.file = self.browser.with_script(self.file, script)
        self.address = self.file.as_uri()

    def same(self, what, expected, got):
        self.rows += 1
        if expected != got:
            self.wrong += 1
            print(f"page: {self.name}: {what}: {got!r}, and not {expected!r}")

    def shows(self, what, **expected):
        shown = self.call("shown")
        self.same(what, expected, {name: shown[name] for name in expected})

    def open(self, fragment=""):
        self.driver.get("about:blank")
        self.driver.get(self.address + fragment)
        # WebKit's driver doesn't wait for the page's script.
        self.until(lambda: self.ask("document.readyState") == "complete")

    def ask(self, expression, *words):
        """JSON can also hold lone surrogates."""
        script = f"const words = JSON.parse(arguments[0]); return JSON.stringify({expression})"
        return json.loads(self.driver.execute_script(script, json.dumps(words)) or "null")

    def call(self, name, *words):
        return self.ask(f"asked.{name}(...words)", *words)

    def wait_for(self, name, *words):
        """Waits until the function calls `done`, its last argument."""
        script = f"asked.{name}(...JSON.parse(arguments[0]), arguments[1])"
        self.driver.execute_async_script(script, json.dumps(words))

    def put(self, typed, options=None, **expected):
        shown = self.call("put", typed, *([] if options is None else [options]))
        got = {name: shown[name] for name in expected}
        self.same(f"{typed[:40]!r} {options or ''}", expected, got)

    def wait(self):
        """As long as the page waits after a change before it announces the answer and writes the
        link.
        """
        self.wait_for("runPutOff")

    def until(self, holds):
        with contextlib.suppress(TimeoutException):
            WebDriverWait(self.driver, 10).until(lambda _: holds())

    def find(self, selector):
        return self.driver.find_element("css selector", selector)

    def click(self, selector):
        self.find(selector).click()

    def key(self, *keys):
        self.driver.switch_to.active_element.send_keys(*keys)
        return self.ask("document.activeElement.id || document.activeElement.textContent")


def line_of(text, options=""):
    """`more_names` changes no line of a text that is refused without it."""
    names = options.replace("default_unit=refused", "require_unit").split()
    choice = reference_parser.as_packages_mean(reference_parser.Choice.named(names))
    line = reference_parser.one_line(text, choice.answer(text))
    parts = re.split(r'"((?:[^"\\]|\\.)*)"', f"{line[0].upper()}{line[1:]}.")
    parts[1::2] = [re.sub(r'\\(["\\])', r"\1", part) for part in parts[1::2]]
    return "".join(parts)


def try_read(page):
    page.open()
    for text, options, words in READ:
        printed, *numbers = words.rsplit(" ", 4)
        numbers = dict(zip(("nanoseconds", "milliseconds", "seconds", "iso"), numbers))
        page.put(text, options, printed=printed, marks=[], **numbers)
    for text, options, notes, offer in NOTES:
        page.put(text, options, said=notes, offer=offer)


def try_refused(page):
    page.open()
    page.put("", said=["Type a duration, such as 1h 30m."], printed=None, marks=[], offer=[])
    for text, options, marks, offer in REFUSED:
        said = [line_of(text, options)]
        page.put(text, options, said=said, marks=marks, offer=offer, printed=None, iso=None)
    page.put("1\u200bh", "")
    page.same("a mark of no width", ["\u200b"], page.call("words", "mark.thin"))
    page.put("1m \ud800", said=["Not UTF-8: a lone surrogate at index 3."], marks=["\ud800"])
    page.put("1m" + " " * 2_000 + "x", said=[line_of("1m" + " " * 2_000 + "x")], marks=[])


def try_offers(page):
    page.open()
    for text, options, becomes, remain in (
        ("5 mins 30", "", "5 min 30s", "s"),
        ("2hrs30", "no_calc", "2h 30m", "no_calc s"),
        ("1分", "default_unit=ms", "1分", "cn_unit ms"),
        ("1H+2m", "no_calc lowercase", "1H+2m", "s"),
        ("1h 30", "default_unit=refused", "1h 30m", "refused"),
    ):
        page.put(text, options)
        page.click("#offered button")
        page.shows(f"after the offer for {text}", text=becomes, options=remain, said=[], offer=[])
    # The keys that WebKit's driver presses undo nothing.
    page.ask("document.execCommand('undo')")
    page.shows("undone", text="1h 30")
    page.ask("document.execCommand('redo')")
    page.shows("done again", text="1h 30m", printed="1h 30min")


def try_lists(page):
    page.open()
    for place, text in enumerate(page.call("words", "#examples button")):
        page.ask("document.querySelectorAll('#examples button')[words[0]].click()", place)
        page.shows(f"the example {text}", text=text)
    rows = zip(reference_parser.UNITS, units.more())
    cells = [
        word for unit, more in rows for word in (unit.names, " ".join(more.names), unit.chinese)
    ]
    page.same("the units", cells, page.call("words", "#units td"))
    for length, place in zip(page.call("words", "#units th"), range(0, len(cells), 3)):
        for name in " ".join(cells[place : place + 3]).split():
            lasts = page.call("put", f"1{name}", "more_names cn_unit")["nanoseconds"]
            page.put(length, nanoseconds=lasts)


def try_printing(page):
    """90,061 s are 1 day 1 hour 1 minute 1 second."""
    for link, printed in (
        ("", "1d 1h 1min 1s 1ns"),
        ("&style=compact", "1d1h1min1s1ns"),
        ("&style=long&parts=2", "1 day 1 hour"),
        ("&units=h,min", "25h 1min"),
        ("&parts=2&units=d,min,ns", "1d 61min"),
        ("&units=d,%C2%B5s", "1d 3661000000µs"),
    ):
        page.open("#text=90061s%201ns" + link)
        page.put("90061s 1ns", printed=printed)
        page.wait()
        page.shows("the link", link="#text=90061s%201ns" + link)
    page.open("#text=180d&units=y,mon,d")
    said = ["That is 180d: a month has 30 days."]
    page.shows("units of the link", printed="6mon", printing="short 11 y mon d", said=said)
    for press, printed, chosen in (
        ("mon y", "180d", "d"),
        ("d", "180d", "d"),
        ("q", "1q 89d", "q d"),
        ("d mon", "1q 2mon", "q mon"),
    ):
        for unit in press.split():
            page.click(f"#printed_units [value={unit}]")
        page.shows(f"after {press}", printed=printed, printing=f"short 11 {chosen}")
    for choice in "#style :last-child", "#parts :first-child":
        page.click(choice)
    page.shows("style and parts", printed="1 quarter", printing="long 1 q mon")


def try_copying(page):
    page.open("#text=1h%2030m%201ms&parts=2")
    copied = {
        "printed": "1h 30min",
        "nanoseconds": "5400001000000",
        "milliseconds": "5400001",
        "seconds": "5400.001",
        "iso": "PT1H30M0.001S",
        "link-note": page.address + "#text=1h%2030m%201ms&parts=2",
    }
    names = "[...document.querySelectorAll('[data-copies]')].map((one) => one.dataset.copies)"
    page.same("copy buttons", list(copied), page.ask(names))
    for name, expected in copied.items():
        page.click(f"[data-copies={name}]")
        page.until(lambda: page.call("shown")["copied"] == f"Copied: {expected}")
        got = page.driver.execute_async_script("navigator.clipboard.readText().then(arguments[0])")
        page.same(f"copied: {name}", expected, got)
    page.ask("Object.defineProperty(navigator, 'clipboard', { value: undefined }) && null")
    for name, expected in copied.items():
        page.click(f"[data-copies={name}]")
        page.same(f"selected: {name}", expected, page.ask("String(getSelection())"))
        page.shows(f"told of {name}", copied="Selected, not copied: press Ctrl+C, or ⌘C.")


def try_links(page):
    page.open()
    page.shows("without a link", text="90m + 45s", printed="1h 30min 45s", **PLAIN)
    link = "#text=" + quote("1分 30&no=5%#", safe="") + "&no_calc&cn_unit&more_names"
    page.put("1分 30&no=5%#", "no_calc cn_unit more_names")
    page.wait()
    page.shows("the link", link=link)
    page.open(link)
    page.shows("from it", text="1分 30&no=5%#", options="no_calc cn_unit more_names s")
    for words in ("lowercase&default_unit=ms", "default_unit=refused", "more_names"):
        page.open("#text=1h&" + words)
        page.put("1h")
        page.wait()
        page.shows(f"the link of {words}", link="#text=1h&" + words)
    page.open("#text=1m+2=")
    page.shows("signs in the link", text="1m+2=")
    page.open("#text=1h&no_calc&style=long&units=h")
    page.wait_for("follow", "cn_unit")
    page.shows("another link", text="", **{**PLAIN, "options": "cn_unit s"})
    page.open("#other=1")
    note = "Not understood in the link: other=1"
    page.shows("an unknown link", text="", note=note, link="#other=1")
    for text in ("1m \ud800", "1s " * 667):
        page.put(text)
        page.wait()
        page.shows("no link", note="The address can't hold this text.", share=None)
    page.open("#text=1s&default_unit=ms")
    box = "[no_calc.checked, no_calc.disabled]"
    page.same("no_calc with a default unit", [True, True], page.ask(box))
    page.put("1s", "")
    page.same("no_calc without a default unit", [False, False], page.ask(box))
    page.put("1s", "default_unit=ms")
    page.wait_for("follow", "no_calc")
    page.same("no_calc after another link", [True, False], page.ask(box))


def try_hostile(page):
    page.open()
    elements = page.call("shown")["elements"]
    for text in HOSTILE:
        page.put(text, text=text, printed=None, elements=elements)
        page.open("#text=" + quote(text, safe=""))
        page.shows(f"from the link: {text!r}", text=text, elements=elements)
    for link in [*HOSTILE, *HOSTILE_LINKS]:
        page.open("#" + link)
        page.shows(f"after {link}", elements=elements, **PLAIN)
        told = page.call("shown")["note"].startswith("Not understood in the link: ")
        page.same(f"{link} is not understood", True, told)
    page.same("what markup has set", None, page.ask("window.hacked"))
    for text, printed in LONG:
        before = page.browser.worked()
        shown = page.call("paste", text)
        took = page.browser.worked() - before
        page.shows(f"{text[:9]}.., long", printed=printed)
        page.same(f"{text[:9]}.. takes 4 s and not {took:.1f}", True, took < 4)
        page.same(f"what is shown of {text[:9]}.. is short and not {shown}", True, shown < 5_000)


def try_keyboard(page):
    page.open()
    page.same("the first focus", "text", page.key("1:30"))
    page.shows("what is typed first stands alone", text="1:30")
    page.open("#text=1h")
    page.key(" 30")
    stops = page.ask(
        "[...document.querySelectorAll('button, input, select, textarea, [tabindex]')]"
        ".filter((e) => e.checkVisibility()).map((e) => e.id || e.textContent)"
    )
    stops = stops[stops.index("text") + 1 :]
    offer = stops.index("1h 30m1 hour 30 minutes")
    page.same("reached by the tab key", stops, [page.key(Keys.TAB) for _ in stops])
    page.click("#text")
    for _ in stops[: offer + 1]:
        page.key(Keys.TAB)
    page.same("after the enter key", "text", page.key(Keys.ENTER))
    page.shows("taken by the keyboard", text="1h 30m")
    page.key(" 5", Keys.TAB, Keys.SPACE)
    page.shows("typed and switched by the keyboard", text="1h 30m 5", options="no_calc s")


def try_readers(page):
    page.open()
    page.same("live regions", 3, page.ask("document.querySelectorAll('[role=status]').length"))
    page.ask(
        "new MutationObserver(() => (window.told ??= []).push(announcement.textContent))"
        ".observe(announcement, { childList: true })"
    )
    for text in ("1", "1h", "1h ", "1h 3", "1h 30", "1h 30m"):
        page.put(text)
    page.wait()
    page.same("told", ["1h 30min."], page.ask("told"))
    note = "30 has no unit: seconds."
    names = "Try instead 5 min: 5 minutes."
    described = "['aria-invalid', 'aria-describedby'].map((name) => text.getAttribute(name))"
    for text, told, invalid in (
        ("1h 30", f"1h 30s. {note} Try instead 1h 30m: 1 hour 30 minutes.", "false"),
        ("5 mins", f"{line_of('5 mins')} {names}", "true"),
        ("1m+", line_of("1m+"), "true"),
        ("", "Type a duration, such as 1h 30m.", "false"),
    ):
        page.put(text)
        page.wait()
        page.same(f"told of {text}", told, page.ask("told.at(-1)"))
        page.same(f"the input of {text}", [invalid, "said"], page.ask(described))


def emulate(page, scheme, width, height=1100, forced=False):
    page.browser.emulate(scheme, width, height, forced)
    page.until(lambda: page.ask("[innerWidth, innerHeight]") == [width, height])


def try_rules(page):
    for text in ("5 mins", "1:30", "3m + 13s + 29ms"):
        page.open("#cn_unit&text=" + quote(text))
        page.same(f"broken rules under {text}", [], page.call("brokenRules"))
    page.put("1分", "")
    page.same("Chinese in the sentence", ["分"], page.call("words", "#said :lang(zh)"))
    page.same("Chinese units", 10, len(page.call("words", "#units :lang(zh)")))
    page.same("one first heading", 1, len(page.call("words", "h1")))
    version = subprocess.check_output([ROOT / "tools/version"], text=True).strip()
    page.same("the library's version", [version], page.call("words", "#version"))
    drawn = "document.querySelector('link[rel=icon]').href.length > 100"
    page.same("an icon", True, page.ask(drawn))
    drawn = "document.querySelector('img').naturalWidth > 300"
    page.same("the diagram", True, page.ask(drawn))


def chromium_looks(page):
    papers = set()
    # On 640 pixels, a page that is enlarged to 200 % has as much room as on 320.
    for scheme in ("light", "dark"):
        for width in (320, 900):
            emulate(page, scheme, width)
            page.open("#cn_unit")
            places = set()
            for text in ("3m + 13s", "5 mins", "1:30", "1h 30", "1m " + "9" * 200, "x" * 1_900):
                page.put(text)
                what = f"{text[:9]} in {scheme} on {width} pixels"
                wide = page.ask("document.documentElement.scrollWidth")
                page.same(f"width of {what}", width, wide)
                page.same(f"pale parts of {what}", [], page.call("pale"))
                if len(text) < 20:
                    places.add(page.call("heights")[0])
            page.same(f"places of the answer on {width} pixels", 1, len(places))
            papers.add(page.ask("getComputedStyle(document.body).backgroundColor"))
    page.same("papers", 2, len(papers))
    emulate(page, "light", 375, 667)
    for text in ("3m + 13s + 29ms", "1h 30", "1:30", "5 mins", "5m, 10m"):
        page.open("#text=" + quote(text))
        _, lowest = page.call("heights")
        page.same(f"the answer to {text} at {lowest} pixels", True, lowest <= FREE)
    emulate(page, "dark", 900, forced=True)
    page.open("#text=1%3A30")
    lined = (
        "['mark', '.marked'].map((e) => getComputedStyle(document.querySelector(e)).outlineStyle)"
    )
    page.same("a mark and a focus in forced colours", ["solid", "solid"], page.ask(lined))


def take_pictures(page):
    for scheme in ("light", "dark"):
        emulate(page, scheme, 640)
        page.open("#text=5%20mins")
        page.ask("document.activeElement.blur()")
        bottom = page.ask("document.getElementById('answer').getBoundingClientRect().bottom")
        clip = {"x": 0, "y": 0, "width": 640, "height": bottom + 12, "scale": 2}
        words = {"format": "webp", "quality": 50, "clip": clip}
        taken = page.driver.execute_cdp_cmd("Page.captureScreenshot", words)
        picture = ROOT / f"docs/images/page-{scheme}.webp"
        picture.write_bytes(base64.b64decode(taken["data"]))


def chromium_requests(page):
    """This comes after the tests whose requests it looks at."""
    entries = page.driver.get_log("performance")
    messages = [json.loads(entry["message"])["message"] for entry in entries]
    sent = [each for each in messages if each["method"] == "Network.requestWillBeSent"]
    asked = [each["params"]["request"]["url"] for each in sent]
    page.same("pages asked for", True, len(asked) > 20)
    outside = [url for url in asked if not url.startswith((page.address, "data:"))]
    page.same("asked for outside", [], outside)
    page.same("in the console", [], page.driver.get_log("browser"))


def try_outside(page):
    page.open()
    page.same("broken rules", [], page.ask("violations"))
    fetched = (
        "const done = arguments[0];"
        "fetch('https://127.0.0.1:9/').then(() => done('read'), () => done('refused'))"
    )
    page.same("a request", "refused", page.driver.execute_async_script(fetched))
    script = "Object.assign(document.createElement('script'), { text: 'window.hacked = 1' })"
    page.ask(f"document.body.append({script})")
    page.same("another script", None, page.ask("window.hacked"))
    broken = ["connect-src", "script-src-elem"]
    page.same("broken rules after both", broken, page.ask("violations"))


def shows_itself(page, what, works):
    def shown():
        told = page.find("body").text.startswith("This page needs")
        return [told, page.find("#text").is_displayed()]

    page.open()
    page.until(lambda: shown() == [not works, works])
    page.same(what, [not works, works], shown())


def chromium_without_scripts(page):
    disable = "Emulation.setScriptExecutionDisabled"
    page.driver.execute_cdp_cmd(disable, {"value": True})
    shows_itself(page, "without scripts", False)
    page.driver.execute_cdp_cmd(disable, {"value": False})


def try_without(page):
    shows_itself(page, "with both", True)
    page.before("delete globalThis.WebAssembly")
    shows_itself(page, "without WebAssembly", False)


def main(file, word="Chromium"):
    page = Page(file, "Chromium" if word == "--pictures" else word)
    made = pathlib.Path(file).read_text(encoding="utf-8")
    page.same(f"at most {LARGEST} bytes", True, len(made.encode()) <= LARGEST)
    page.same("its licence", True, "Apache License" in made)
    try:
        if word == "--pictures":
            take_pictures(page)
            return 0
        for name, test in list(globals().items()):
            if name.startswith(page.browser.TESTS):
                test(page)
    finally:
        page.driver.quit()
    if page.wrong == 0:
        print(f"page: {page.rows} rows as they must be in {page.name}")
    return int(page.wrong > 0)


if __name__ == "__main__":
    sys.exit(main(*sys.argv[1:]))
