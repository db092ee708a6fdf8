#!/usr/bin/env python3
"""Makes texts and durations from a seed, with which compare and the fuzzer try the library.

texts.py FOLDER COUNT [SEED]  writes COUNT texts into FOLDER/lines, each on a line, or on several if
                              it has line feeds. It also writes files for the fuzzer: the texts into
                              FOLDER/texts, each after its length in two bytes, a file in
                              FOLDER/seeds for each of the first 500 texts, and libFuzzer's
                              FOLDER/dictionary
"""
import pathlib
import random
import sys

sys.dont_write_bytecode = True
from reference_parser import (  # noqa: E402
    LIMIT,
    NEAR_WORDS,
    SECOND,
    SMALL_WORDS,
    TOO_LONG,
    UNITS,
)


# Characters of each kind: of numbers, of names, between words, and some that only look like those.
OTHERS = ("", *"05emsx+-*.,_=; \t\n\x0c\xa0", *"٣０−µμſK")


def near(text, others=OTHERS):
    """Texts with a character more, less or exchanged at each place, and the text itself."""
    for place in range(len(text) + 1):
        here, after = text[place : place + 1], text[place + 1 :]
        for other in (*others, here.swapcase()):
            yield text[:place] + other + after
            yield text[:place] + other + here + after


class Texts:
    """The texts are terms with operators and blanks. Many are then damaged."""

    BLANKS = ("", "", "", " ", " ", "  ", "\t", "\r", " \r\t ", "\n")
    STRAYS = [
        *'- x . , μ µ é ß K 分 中 P pt " \\ \ufeff \u200e 𝟙 ١ \u00a0 \0 _ / ( : \n \x0b'.split(" "),
        *"' & and And ½ ： “ \u3000 \xad".split(" "),
        "\U000e0041" * 50,
        *"e3 E-2 e+1 +.5 -.5".split(),
    ]
    BROKEN = (
        b"\xff",
        b"\xc2",
        b"\xb5",
        b"\xe5\x88",
        b"\xc0\x80",
        b"\xed\xa0\x80",
        b"\xf4\x90\x80\x80",
        b"\xf0\x9f",
    )
    NAMES = [name for unit in UNITS for name in (unit.names + " " + unit.chinese).split()]
    SHORT = [name for name in NAMES if len(name) < 3]
    NEAR = [
        name for names in (*NEAR_WORDS.values(), *SMALL_WORDS.values()) for name in names.split()
    ]

    def __init__(self, seed):
        self.random = random.Random(seed)
        self.choice = self.random.choice

    def number(self):
        draw = self.random.random()
        if draw < 0.65:
            return str(self.random.randrange(10 ** self.random.randint(1, 4)))
        if draw < 0.7:
            return str(self.random.randrange(10 ** self.random.randint(4, 22)))
        if draw < 0.82:
            return self.choice(("0", "1"))
        if draw < 0.84:
            return "0" * self.random.randint(1, 25) + str(self.random.randrange(100))
        about = (
            LIMIT // self.choice((1, 2, 3, 65_536)) // self.choice((1, self.choice(UNITS).length))
        )
        return str(max(0, about + self.random.randint(-2, 2)))

    def fraction(self):
        digits = str(self.random.randrange(10 ** self.random.randint(1, 3)))
        decimals = self.choice((digits, "5", "25", "0", "125", self.number()))
        zeros = "0" * self.choice((0, 0, 0, 1, 2, 30))
        return f"{self.choice(('', '0', self.number()))}.{decimals}{zeros}"

    def unit(self):
        draw = self.random.random()
        if draw < 0.15:
            return ""
        names = self.SHORT
        if draw >= 0.66:
            names = self.NAMES if 0.7 <= draw < 0.97 else self.NEAR
        name = self.choice(names)
        if draw > 0.98:
            name = name.replace("µ", "μ")
        if draw > 0.9:
            name = "".join(
                self.choice((letter, letter.upper() if letter.isascii() else letter))
                for letter in name
            )
        return name

    def pieces(self):
        signs = self.choice((("+",), ("*",), ("", "+"), ("",), ("", "+", "*")))
        pieces = []
        for _ in range(self.choice((1, 1, 2, 2, 2, 3, 3, 4))):
            pieces += [
                self.number(),
                self.choice(self.BLANKS),
                self.unit(),
                self.choice(self.BLANKS),
            ]
            pieces += [self.choice(signs), self.choice(self.BLANKS)]
        if self.random.random() < 0.9:
            pieces[-2] = ""
        return pieces

    def mendable(self, pieces):
        """Makes a fault that may have a mended text. Each term has six pieces."""
        term = self.random.randrange(len(pieces) // 6) * 6
        number, unit = pieces[term], pieces[term + 2]
        match self.random.randrange(10):
            case 0:
                pieces.insert(0, self.choice(("+", " + ", "PT", "pt", "P")))
            case 1:
                pieces[term + 2] = unit + "."
            case 2 | 3:
                at = self.random.randint(0, len(number))
                pieces[term] = number[:at] + self.choice("_',") + number[at:]
            case _:
                pieces[term] = self.fraction()

    def spoil(self, pieces):
        at = self.random.randrange(len(pieces))
        match self.random.randrange(6):
            case 0:
                del pieces[at]
            case 1:
                pieces.insert(at, self.choice(pieces))
            case 2:
                pieces[at] = self.choice(self.STRAYS)
            case 3:
                pieces.insert(at, self.choice(self.STRAYS))
            case 4:
                pieces.insert(at, self.choice(("+", "*", "", self.unit(), self.number())))
            case 5:
                pieces[at] = pieces[at][: self.random.randrange(len(pieces[at]) + 1)]

    def text(self):
        pieces = self.pieces()
        if self.random.random() < 0.25:
            self.mendable(pieces)
        for _ in range(self.choice((0, 0, 1, 1, 2))):
            if pieces:
                self.spoil(pieces)
        text = "".join(pieces).encode()
        if self.random.random() < 0.02:
            at = self.random.randint(0, len(text))
            text = text[:at] + self.choice(self.BROKEN) + text[at:]
        return text

    def duration(self):
        if self.random.random() < 0.5:
            return self.near_half()
        secs = self.random.randrange(2 ** self.random.randint(1, 64))
        return secs, self.choice((0, 1, 999_999_999, self.random.randrange(SECOND)))

    def near_half(self):
        """A duration near the end or the middle of a unit, where it begins to be rounded otherwise,
        or near the longest one.
        """
        count, halves = self.random.randrange(
            2 ** self.random.randint(0, 62)
        ), self.random.randrange(4)
        nanos = count * self.choice(UNITS).length + halves * self.choice(UNITS).length // 2
        nanos += self.random.randint(-1, 1)
        return divmod(min(max(nanos, 0), TOO_LONG - 1), SECOND)

    def printed(self):
        """A duration, the number of a set of units, and the greatest number of parts."""
        bits = self.random.randrange(2 ** len(UNITS))
        return self.duration(), bits, self.random.randrange(len(UNITS) + 2)


def write_files(folder, texts):
    (folder / "seeds").mkdir(parents=True, exist_ok=True)
    (folder / "lines").write_bytes(b"".join(text + b"\n" for text in texts))
    (folder / "texts").write_bytes(
        b"".join(len(text).to_bytes(2, "little") + text for text in texts)
    )
    for number, text in enumerate(texts[:500]):
        (folder / "seeds" / str(number)).write_bytes(text)
    words = [*Texts.NAMES, *Texts.NEAR, *"+* ", str(LIMIT - 1), str(LIMIT)]
    escaped = ("".join(f"\\x{byte:02x}" for byte in word.encode()) for word in words)
    (folder / "dictionary").write_text("".join(f'"{word}"\n' for word in escaped))


def main(words):
    if len(words) not in (2, 3):
        sys.exit(__doc__)
    texts = Texts(*words[2:] or "0")
    write_files(pathlib.Path(words[0]), [texts.text() for _ in range(int(words[1]))])


if __name__ == "__main__":
    main(sys.argv[1:])
