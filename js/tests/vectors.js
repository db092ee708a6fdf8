import { readFileSync } from "node:fs";

export const VECTORS = JSON.parse(
    readFileSync(new URL("../../rust/vectors.json", import.meta.url), "utf8"),
);

const camel = (name) => name.replace(/_(.)/, (_, letter) => letter.toUpperCase());

/** The names of all options for reading */
export const OPTION_NAMES = [
    ...VECTORS.options.map(camel), "moreNames", "requireUnit", "defaultUnit",
];

/** Names are as in vectors.json, such as `no_calc` or `default_unit=ms`. With a default unit, the
 * other options are left out, since beside most units `noCalc` can't be false. */
export function optionsOf(names) {
    const given = names.map((name) => name.split("="));
    const off = given.some(([name]) => name === "default_unit") ? [] : VECTORS.options;
    return Object.fromEntries([
        ...off.map((name) => [camel(name), false]),
        ...given.map(([name, value = true]) => [camel(name), value]),
    ]);
}

/** Each choice is a list of the options that are on. */
export const CHOICES = VECTORS.options.reduce(
    (lists, name) => lists.flatMap((names) => [names, [...names, name]]),
    [[]],
);

/** Returns all choices, each with the group's default unit, or its requirement of units, if it has
 * one. */
export function choicesFor({ on }) {
    const unit = on.filter((name) => !VECTORS.options.includes(name));
    return CHOICES.map((names) => [...names, ...unit]);
}

/** Whether the texts of this group are read under the options with these names. */
export function holds({ on, off }, names) {
    return on.every((name) => names.includes(name)) && !off.some((name) => names.includes(name));
}

/** Returns the words with a character more, less or exchanged at each place, and the words. */
export function near(words) {
    const others = ["", ..."05emsx_+-*., \t\n\0\xa0٣０µμſ\u212a分", "\ud800"];
    const found = new Set();
    for (const word of words) {
        for (let place = 0; place <= word.length; place++) {
            const here = word.charAt(place);
            for (const other of [...others, here.toUpperCase(), here.toLowerCase()]) {
                const before = word.slice(0, place) + other;
                found.add(before + word.slice(place)).add(before + word.slice(place + 1));
            }
        }
    }
    return [...found];
}
