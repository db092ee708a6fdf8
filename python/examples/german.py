"""Says in German why a text is refused. It goes by the fields of a DurationError, and uses no words
of its line.
"""

from duration_str import Cause, Expected, Help

UNITS = "y, q, mon, w, d, h, min, s, ms, us, ns"
EXPECTED = {
    Expected.NUMBER: "einer Zahl",
    Expected.UNIT: "einer Einheit",
    Expected.OPERATOR: "+ oder *",
    Expected.END: "des Endes",
}
CAUSES = {
    Cause.EMPTY: "leere Eingabe",
    Cause.NUMBER_TOO_LARGE: "zu große Zahl",
    Cause.OVERFLOW: "zu lange Dauer",
    Cause.MIXED: "Summe und Produkt gemischt",
    Cause.NOT_TEXT: "kein UTF-8",
}
HELPS = {
    Help.UNITS: f"Einheiten: {UNITS}",
    Help.FRACTION: "Zahlen haben nur Ziffern",
    Help.DIGITS_ONLY: "Zahlen haben nur Ziffern",
    Help.CLOCK_TIME: "keine Uhrzeiten: 1h 30m oder 1m 30s",
    Help.NEGATIVE: "keine negativen Dauern",
    Help.LEADING_PLUS: "kein Plus am Anfang",
    Help.ISO_8601: "kein ISO 8601: zum Beispiel 1mon 30m",
    Help.ONE_DURATION: "nur eine Dauer, ohne Komma oder Bindewort",
    Help.NO_POINT: "Einheiten haben keinen Punkt",
    Help.BRACKETS: "keine Klammern",
    Help.DIVISION: "Teilen geht nicht",
    Help.QUOTATION_MARKS: "ohne Anführungszeichen",
    Help.MISSING_UNIT: f"mit Einheit: {UNITS}",
    Help.ZERO: "besser 0s",
    Help.LARGE_NUMBER: "mit Einheit, etwa ns",
}


def shown(token):
    if token is None:
        return "das Ende"
    # On a terminal, other characters can hide the line or change its order.
    return f"„{token}“" if token.isprintable() else "etwas anderes"


def problem(error):
    if error.cause != Cause.SYNTAX:
        return CAUSES[error.cause]
    wanted = " oder ".join(EXPECTED[kind] for kind in EXPECTED if kind in error.expected)
    return f"Spalte {error.pos + 1}: {shown(error.found)} statt {wanted}"


def in_german(error):
    # Later versions may have more helps.
    words = HELPS.get(error.help)
    if error.mended is not None and error.mended.isprintable():
        words = f"besser „{error.mended}“"
    elif error.suggestion and not words:
        words = f"besser „{error.suggestion}“"
    return f"{problem(error)} ({words})" if words else problem(error)
