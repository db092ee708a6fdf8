// The functions that page.py calls in the page. This script runs before the page's own.
window.violations = [];
addEventListener("securitypolicyviolation", (event) => violations.push(event.violatedDirective));

// What the page puts off for some time runs when a test says so, however slow the machine is.
const putOff = new Map();
const later = window.setTimeout;
// The timers of WebKit's driver have other numbers.
let timers = 1_000_000_000;
window.setTimeout = (call, milliseconds) => {
    // WebKit's driver waits for a script by the page's own timers.
    if (milliseconds >= 60_000) return later(call, milliseconds);
    timers += 1;
    if (milliseconds < 250) queueMicrotask(call);
    else putOff.set(timers, call);
    return timers;
};
window.clearTimeout = (timer) => putOff.delete(timer);

/** Between two calls, observers see what has changed. */
async function runPutOff(done) {
    const calls = [...putOff.values()];
    putOff.clear();
    for (const call of calls) {
        call();
        await null;
    }
    done();
}

/** Calls `done` when the page has read the link. */
function follow(fragment, done) {
    addEventListener("hashchange", () => done(), { once: true });
    location.hash = fragment;
}

const all = (selector) => [...document.querySelectorAll(selector)];
const seen = (selector) => all(selector).filter((element) => element.checkVisibility());
const words = (selector) => seen(selector).map((element) => element.textContent);
const excerpts = (elements) => elements.map((element) => element.outerHTML.slice(0, 80));

/** What a visitor sees. A part that is hidden is null. */
function shown() {
    const ids = ["printed", "nanoseconds", "milliseconds", "seconds", "iso", "share", "copied"];
    const isChosen = ({ disabled, checked, type }) => !disabled && (checked || type !== "checkbox");
    const chosen = all("#options :is(input, select)").filter(isChosen);
    return {
        ...Object.fromEntries(ids.map((id) => [id, words(`#${id}`)[0] ?? null])),
        text: all("#text")[0].value,
        marks: words("mark"),
        said: words("#said p"),
        offer: words("#offered button > *"),
        options: chosen.map((box) => box.type === "checkbox" ? box.id : box.value).join(" "),
        printing: all("#style, #parts, #printed_units :checked").map((box) => box.value).join(" "),
        note: all("#link-note")[0].textContent,
        link: location.hash,
        elements: all("img, svg, script, b").length,
    };
}

/** Options such as `no_calc default_unit=ms` */
function choose(options) {
    const list = all("#default_unit")[0];
    [, list.value] = /default_unit=(\S+)/.exec(options) ?? ["", "s"];
    list.dispatchEvent(new Event("change", { bubbles: true }));
    for (const box of all("#options input:enabled")) {
        if (box.checked !== options.split(" ").includes(box.id)) box.click();
    }
}

function put(text, options) {
    if (options !== undefined) choose(options);
    const input = all("#text")[0];
    input.value = text;
    input.dispatchEvent(new Event("input", { bubbles: true }));
    return shown();
}

function paste(text) {
    all("#text")[0].select();
    document.execCommand("insertText", false, text);
    return document.body.innerText.length;
}

/** Where the answer begins, and the lowest point of what is said and of the offer. */
function heights() {
    const parts = seen("#printed, #said, #offered button");
    const lowest = parts.map((element) => element.getBoundingClientRect().bottom);
    return [all("#answer")[0].getBoundingClientRect().top + scrollY, Math.max(...lowest)];
}

/** 4.5 and 3 are the contrasts that WCAG asks for on level AA. */
function pale() {
    const channels = (colour) => colour.match(/[0-9.]+/g).map(Number);
    const light = (colour) => channels(colour).slice(0, 3).map((c) => c / 255)
        .map((c) => c <= 0.03928 ? c / 12.92 : ((c + 0.055) / 1.055) ** 2.4)
        .reduce((sum, c, i) => sum + c * [0.2126, 0.7152, 0.0722][i], 0);
    const behind = (element) => {
        const colour = getComputedStyle(element).backgroundColor;
        return (channels(colour)[3] ?? 1) === 0 ? behind(element.parentElement) : colour;
    };
    const ratio = (one, other) => {
        const [dark, bright] = [light(one), light(other)].sort((a, b) => a - b);
        return (bright + 0.05) / (dark + 0.05);
    };
    const hasText = (element) => [...element.childNodes].some(
        (node) => node.nodeType === 3 && node.data.trim() !== "",
    );
    const texts = seen("body *")
        .filter((element) => hasText(element) && !element.closest("#mirror"))
        .filter((element) => ratio(getComputedStyle(element).color, behind(element)) < 4.5);
    const edges = seen("button, .marked").filter((element) => {
        return ratio(getComputedStyle(element).borderTopColor, behind(element.parentElement)) < 3;
    });
    return excerpts([...texts, ...edges]);
}

function brokenRules() {
    const ids = all("[id]").map((element) => element.id);
    const named = (attribute) => all(`[${attribute}]`).flatMap(
        (element) => element.getAttribute(attribute).split(" "),
    );
    const levels = seen("h1, h2, h3").map((element) => Number(element.tagName[1]));
    const isScrolled = (element) => element.scrollWidth > element.clientWidth + 1
        && /auto|scroll/.test(getComputedStyle(element).overflowX);
    const isSmall = ({ offsetHeight, offsetWidth }) => offsetHeight < 24 || offsetWidth < 24;
    const isNameless = (field) => field.textContent === "" && field.labels.length === 0;
    const hasName = (element) => element.matches("[aria-label], [aria-labelledby]");
    const holdsFocus = (element) => element.tabIndex >= 0
        || element.querySelector("textarea, button");
    return Object.entries({
        "names used twice": ids.filter((id, place) => ids.indexOf(id) !== place),
        "names that are nobody's": ["aria-labelledby", "aria-describedby", "for"].flatMap(named)
            .filter((id) => !ids.includes(id)),
        "groups without a name": excerpts(seen("section, form, [role=group], [role=region]")
            .filter((element) => !hasName(element))),
        "fields without a name": excerpts(
            seen("input, select, textarea, button").filter(isNameless),
        ),
        "what has the focus and no role": excerpts(seen("[tabindex]:not([role])")),
        "buttons that send": excerpts(all("button:not([type=button])")),
        "images without words": excerpts(all("img:not([alt])")),
        "headings that skip a level": levels.filter(
            (level, place) => level > (levels[place - 1] ?? 0) + 1,
        ),
        "a list with other parts": excerpts(all("dl > :not(div), dl > div > :not(dt, dd)")),
        "small targets": excerpts(seen("button").filter(isSmall)),
        "places to scroll that no key reaches": excerpts(
            seen("body *").filter((element) => isScrolled(element) && !holdsFocus(element)),
        ),
        "parts outside of a landmark": excerpts(all("body > :not(header, main, footer, script)")),
    }).filter(([, broken]) => broken.length > 0);
}

window.asked = {
    words, shown, choose, put, paste, follow, runPutOff, heights, pale, brokenRules,
};
