import { showAnswer } from "./answer.js";
import { keepChoices, link, readLink } from "./choices.js";
import { button, element, make, text, write } from "./elements.js";
import { LONG, UNITS } from "./units.js";

/** After this many milliseconds without a change, screen readers get the answer and the link is
 * written. */
const PAUSE = 500;
/** How long the page says that something was copied or selected, in milliseconds. */
const SHOWN = 4_000;
const EXAMPLES = ["90m + 45s", "1d 12h", "1m * 90", "1h 30", "5 mins", "1.5h"];

let pause;
let shownCopy;

/** Writes the link into the address, if it can hold the text. */
function writeLink() {
    const isHeld = text.value.length <= LONG && !/\p{Surrogate}/u.test(text.value);
    element("share").hidden = !isHeld;
    element("link-note").textContent = isHeld ? "" : "The address can't hold this text.";
    if (isHeld) history.replaceState(null, "", link());
}

function read() {
    const told = showAnswer();
    clearTimeout(pause);
    pause = setTimeout(() => {
        element("announcement").textContent = told;
        writeLink();
    }, PAUSE);
}

function open() {
    const unknown = readLink();
    if (!location.hash) text.value = EXAMPLES[0];
    read();
    if (unknown === "") return;
    // A link with unknown words is not rewritten at once.
    clearTimeout(pause);
    element("link-note").textContent = `Not understood in the link: ${unknown}`;
}

/** Copies digits without commas. A text that can't be copied is selected. */
async function copy(id) {
    const shown = element(id);
    let words = shown.textContent.replaceAll(",", "");
    if (id === "link-note") {
        writeLink();
        words = location.href;
    }
    let said = `Copied: ${words}`;
    try {
        await navigator.clipboard.writeText(words);
    } catch {
        shown.textContent = words;
        getSelection().selectAllChildren(shown);
        said = "Selected, not copied: press Ctrl+C, or ⌘C.";
    }
    element("copied").textContent = said;
    clearTimeout(shownCopy);
    shownCopy = setTimeout(() => element("copied").replaceChildren(), SHOWN);
}

for (const { length, names, more, chinese } of UNITS) {
    const cells = [names, more, chinese].map((words) => make("td", words.join(" ")));
    element("units").append(make("tr", make("th", length), ...cells));
}
element("examples").append(...EXAMPLES.map((each) => button(() => write(each), each)));
for (const one of document.querySelectorAll("[data-copies]")) {
    one.addEventListener("click", () => copy(one.dataset.copies));
}
text.addEventListener("input", read);
document.forms[0].addEventListener("change", ({ target }) => {
    if (target === text) return;
    keepChoices(target);
    read();
});
addEventListener("hashchange", open);
open();
element("needs").remove();
document.querySelector("main").hidden = false;
text.focus();
// The example is selected, so that typing replaces it.
if (!location.hash) text.select();
