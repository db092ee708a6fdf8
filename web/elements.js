export const element = (id) => document.getElementById(id);
export const text = element("text");

const CHINESE = /\p{Script=Han}/u;

/** Makes an element. A text in it is a text, and not HTML. With a Chinese character it is marked as
 * Chinese. */
export function make(name, ...content) {
    const made = document.createElement(name);
    made.append(...content);
    if (content.some((part) => CHINESE.test(part))) made.lang = "zh";
    return made;
}

/** `bdi` keeps a quoted text from turning the direction of what is around it. */
export const quoted = (words) => make("code", make("bdi", words));

export function button(press, ...content) {
    const made = make("button", ...content);
    made.type = "button";
    made.addEventListener("click", press);
    return made;
}

/** Replaces the text. This counts as typing, so it can be undone. */
export function write(words) {
    text.focus();
    text.select();
    document.execCommand("insertText", false, words);
}
