// What is chosen on the page: the options of reading, and how the duration is printed. The link
// holds this and the text: `#text=1h%2030&lowercase&default_unit=ms&style=long&units=y,d`.
import { element, make, text } from "./elements.js";
import { UNITS } from "./units.js";

const [form] = document.forms;
const switches = Array.from(document.querySelectorAll("[data-switched]"));
const lists = ["default_unit", "style", "parts"].map(element);
const [defaultUnit, style, parts] = lists;
const noCalc = element("no_calc");
/** In place of a default unit, for a number without a unit. */
const REFUSED = "refused";
const SECOND = "s";

for (const { names, printed } of UNITS) {
    const isFirst = printed === SECOND;
    defaultUnit.append(new Option(names.at(-1), printed, isFirst, isFirst));
    const box = { type: "checkbox", value: printed, title: names.at(-1), defaultChecked: true };
    element("printed_units").append(make("label", Object.assign(make("input"), box), printed));
    const isLast = parts.length + 1 === UNITS.length;
    parts.append(new Option(isLast ? "all" : parts.length + 1, parts.length + 1, isLast, isLast));
}
defaultUnit.append(new Option(REFUSED, REFUSED));
const unitBoxes = Array.from(document.querySelectorAll("#printed_units input"));

/** `moreNames` for `more_names` */
const inJavaScript = ({ id }) => id.replace(/_(.)/g, (_, letter) => letter.toUpperCase());

export function chosenOptions() {
    const chosen = switches.map((box) => [inJavaScript(box), box.checked]);
    const unit = defaultUnit.value;
    const counted = unit === REFUSED ? { requireUnit: true } : { defaultUnit: unit };
    return { ...Object.fromEntries(chosen), ...counted };
}

export function chosenFormat() {
    const units = unitBoxes.filter((box) => box.checked).map((box) => box.value);
    return { style: style.value, parts: Number(parts.value), units };
}

const changedBy = (options) => switches.filter((box) => box.checked !== options[inJavaScript(box)]);

/** What these options change, in words. */
export const changes = (options) => changedBy(options).map((box) => box.dataset.switched);

export function choose(options) {
    for (const box of changedBy(options)) box.click();
}

/** With a default unit other than the second, `+` and `*` are not read. */
function showNoCalc() {
    const isTurnedOn = ![REFUSED, SECOND].includes(defaultUnit.value);
    if (isTurnedOn === noCalc.disabled) return;
    noCalc.disabled = isTurnedOn;
    noCalc.checked = isTurnedOn;
}

/** This comes after each choice. The last unit that is printed stays checked. */
export function keepChoices(chosen) {
    if (unitBoxes.includes(chosen)) chosen.checked ||= unitBoxes.every((box) => !box.checked);
    showNoCalc();
}

export function link() {
    const isChosen = (box) => box.checked && !box.disabled;
    const words = [`text=${encodeURIComponent(text.value)}`];
    words.push(...switches.filter(isChosen).map((box) => box.id));
    for (const { id, value, selectedOptions } of lists) {
        const [{ defaultSelected }] = selectedOptions;
        if (!defaultSelected) words.push(`${id}=${encodeURIComponent(value)}`);
    }
    const { units } = chosenFormat();
    if (units.length < UNITS.length) words.push(`units=${units.map(encodeURIComponent)}`);
    return `#${words.join("&")}`;
}

function chooseUnits(names) {
    const isKnown = names.every((name) => unitBoxes.some((box) => box.value === name));
    if (!isKnown) return false;
    for (const box of unitBoxes) box.checked = names.includes(box.value);
    return true;
}

function take(word) {
    const [id, ...rest] = word.split("=");
    const value = decodeURIComponent(rest.join("="));
    const [box, list] = [switches, lists].map((all) => all.find((each) => each.id === id));
    const listed = Array.from(list?.options ?? [], (one) => one.value);
    if (id === "units") return chooseUnits(value.split(","));
    if (id === "text") text.value = value;
    else if (box && value === "") box.checked = true;
    else if (listed.includes(value)) list.value = value;
    else return false;
    return true;
}

/** Takes the text and the choices from the link, and returns the words that it doesn't know. */
export function readLink() {
    form.reset();
    noCalc.disabled = false;
    const unknown = location.hash.slice(1).split("&").filter((word) => {
        try {
            return word !== "" && !take(word);
        } catch (error) {
            if (!(error instanceof URIError)) throw error;
            return true;
        }
    });
    showNoCalc();
    return unknown.join(", ");
}
