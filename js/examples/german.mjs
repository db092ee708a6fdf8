// Says in German why a text is refused. It goes by the fields of a fault or of an error, and uses
// no words of its message.

const UNITS = "y, q, mon, w, d, h, min, s, ms, us, ns";
const EXPECTED = {
    number: "einer Zahl", unit: "einer Einheit", operator: "+ oder *", end: "des Endes",
};
const CAUSES = {
    EMPTY: "leere Eingabe",
    NUMBER_TOO_LARGE: "zu große Zahl",
    OVERFLOW: "mehr als 584 Jahre",
    MIXED: "Summe und Produkt gemischt",
    NOT_TEXT: "kein UTF-8",
};
const HELPS = {
    UNITS: `Einheiten: ${UNITS}`,
    FRACTION: "Zahlen haben nur Ziffern",
    DIGITS_ONLY: "Zahlen haben nur Ziffern",
    CLOCK_TIME: "keine Uhrzeiten: 1h 30m oder 1m 30s",
    NEGATIVE: "keine negativen Dauern",
    LEADING_PLUS: "kein Plus am Anfang",
    ISO_8601: "kein ISO 8601: zum Beispiel 1mon 30m",
    ONE_DURATION: "nur eine Dauer, ohne Komma oder Bindewort",
    NO_POINT: "Einheiten haben keinen Punkt",
    BRACKETS: "keine Klammern",
    DIVISION: "Teilen geht nicht",
    QUOTATION_MARKS: "ohne Anführungszeichen",
    MISSING_UNIT: `mit Einheit: ${UNITS}`,
    ZERO: "besser 0s",
    LARGE_NUMBER: "mit Einheit, etwa ns",
};

// On a terminal, other characters can hide the line or change its order.
const isPrintable = (text) => !/[\p{C}\p{Z}]/u.test(text.replaceAll(" ", ""));

function shown(token) {
    if (token === null) return "das Ende";
    return isPrintable(token) ? `„${token}“` : "etwas anderes";
}

function problem({ code, text, index, found, expected }) {
    if (code !== "SYNTAX") return CAUSES[code];
    const column = Array.from(text.slice(0, index)).length + 1;
    const kinds = Object.keys(EXPECTED).filter((kind) => expected[kind]);
    const wanted = kinds.map((kind) => EXPECTED[kind]).join(" oder ");
    return `Spalte ${column}: ${shown(found)} statt ${wanted}`;
}

export function inGerman(fault) {
    const { help, suggestion, mended } = fault;
    // Later versions may have more helps.
    let words = HELPS[help];
    if (mended !== null && isPrintable(mended)) {
        words = `besser „${mended}“`;
    } else if (suggestion && words === undefined) {
        words = `besser „${suggestion}“`;
    }
    return words === undefined ? problem(fault) : `${problem(fault)} (${words})`;
}
