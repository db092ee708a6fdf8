import { formatNs, parts, tryParseNs } from "../js/dist/duration-str.js";
import { notesOn, offerFor } from "./advice.js";
import { changes, choose, chosenFormat, chosenOptions } from "./choices.js";
import { button, element, make, quoted, text, write } from "./elements.js";
import { LONG } from "./units.js";

const HINT = ["Type a duration, such as ", quoted("1h 30m"), "."];
const MINUTE = 60_000_000_000n;

/** `193,029.5`, exactly. The unit has ten to the power of `places` nanoseconds. */
function decimal(nanos, places) {
    const length = 10n ** BigInt(places);
    const fraction = `${nanos % length}`.padStart(places, "0").replace(/0+$/, "");
    const whole = (nanos / length).toLocaleString("en");
    return fraction === "" ? whole : `${whole}.${fraction}`;
}

/** A duration of ISO 8601 with days of 24 hours, exactly: `PT3M13.029S`. */
function iso(nanos) {
    const { days, hours, minutes } = parts(nanos, { smallest: "min" });
    let clock = "";
    if (hours) clock += `${hours}H`;
    if (minutes) clock += `${minutes}M`;
    if (nanos % MINUTE) clock += `${decimal(nanos % MINUTE, 9)}S`;
    const date = days ? `P${days}D` : "P";
    if (clock) return `${date}T${clock}`;
    return days ? date : "PT0S";
}

/** Marks what the fault is about, in the mirror of the text. */
function showMark({ code, index }) {
    if (index === null) return;
    const isTooLarge = code === "OVERFLOW" || code === "NUMBER_TOO_LARGE";
    // A first term that is too large may have blanks before it. A word is marked as a whole, even
    // if it has letters that no unit has.
    const pattern = isTooLarge ? /[0-9]+\s*\p{L}*/u : /^(?:\p{L}+|[0-9]+|[^]?)/u;
    const { 0: part, index: before } = pattern.exec(text.value.slice(index));
    const from = index + before;
    // A fault at the end of the text is shown as a marked blank.
    const mark = make("mark", part || "\u00a0");
    mark.classList.toggle("thin", /^\p{Cf}$/u.test(part));
    const rest = text.value.slice(from + part.length);
    element("mirror").append(text.value.slice(0, from), mark, rest);
}

/** The library's line as a sentence, whose quotes are marked. */
function lineOf({ message }) {
    const line = `${message.replace(/^./, (letter) => letter.toUpperCase())}.`;
    // The second, fourth, .. part stands between quotation marks. Those in it are escaped.
    const pieces = line.split(/"((?:[^"\\]|\\.)*)"/);
    const unescape = (piece) => piece.replace(/\\(["\\])/g, "$1");
    return pieces.map((piece, place) => place % 2 === 1 ? quoted(unescape(piece)) : piece);
}

/** Returns what it says. */
function showOffer(offer) {
    element("suggestion").hidden = !offer;
    if (!offer) return [];
    const printed = formatNs(offer.value, { ...chosenFormat(), style: "long" });
    const said = [...changes(offer.options), printed].join(", ");
    const press = () => {
        choose(offer.options);
        write(offer.text);
    };
    const words = [make("code", make("bdi", offer.text)), make("span", said)];
    element("offered").replaceChildren(button(press, ...words));
    return [`Try instead ${offer.text}: ${said}.`];
}

function showValue(value) {
    const shown = {
        printed: formatNs(value, chosenFormat()),
        nanoseconds: decimal(value, 0),
        milliseconds: decimal(value, 6),
        seconds: decimal(value, 9),
        iso: iso(value),
    };
    for (const [id, words] of Object.entries(shown)) element(id).textContent = words;
}

function sentencesOn(typed, { value, fault }) {
    if (typed === "") return [HINT];
    if (fault) return [lineOf(fault)];
    return typed.length > LONG ? [] : notesOn(typed, value, chosenOptions(), chosenFormat());
}

/** Returns the text for screen readers. */
export function showAnswer() {
    const typed = text.value;
    const isLong = typed.length > LONG;
    const answer = tryParseNs(typed, chosenOptions());
    for (const part of document.querySelectorAll(".read")) part.hidden = !answer.ok;
    text.setAttribute("aria-invalid", String(!answer.ok && typed !== ""));
    text.parentElement.classList.toggle("long", isLong);
    element("mirror").replaceChildren();
    if (answer.ok) showValue(answer.value);
    else if (!isLong) showMark(answer.fault);
    const sentences = sentencesOn(typed, answer).map((each) => make("p", ...each));
    element("said").replaceChildren(...sentences);
    const isOffered = typed !== "" && !isLong;
    const offer = isOffered ? offerFor(typed, chosenOptions(), answer.value) : undefined;
    const printed = answer.ok ? [`${element("printed").textContent}.`] : [];
    const said = sentences.map((each) => each.textContent);
    return [...printed, ...said, ...showOffer(offer)].join(" ");
}
