// Makes calls of JavaScript. bench/run says how each such program is called. Before the rounds
// there are 100 others, so that V8 has compiled the call.
import { readFileSync } from "node:fs";
import { createRequire } from "node:module";

import * as library from "../js/dist/duration-str.js";
import * as plain from "../js/dist/plain.js";

const [least, millis, ...words] = process.argv.slice(2);
/** It is Debian's package node-ms. */
const ms = createRequire(import.meta.url)("/usr/share/nodejs/ms/index.js");

function refuse(text) {
    try {
        library.parse(text);
    } catch (error) {
        if (error instanceof library.DurationError) return error;
    }
    throw new Error(`not refused: ${text}`);
}

for (let place = 0; place < words.length; place += 2) {
    const [call, path] = words.slice(place, place + 2);
    const texts = readFileSync(path, "utf8").trimEnd().split("\n");
    const item = call.includes("length") ? "length" : "text";
    const items = item === "text" ? texts : texts.map((text) => library.parse(text));
    const known = { library, plain, ms, refuse };
    const body = `let last; for (const ${item} of items) last = ${call}; return last;`;
    const round = Function("items", `{${Object.keys(known)}}`, body);
    const nanos = () => {
        const start = process.hrtime.bigint();
        round(items, known);
        return Number(process.hrtime.bigint() - start) / items.length;
    };
    let quickest = Infinity;
    for (let count = 0; count < 100; count++) quickest = Math.min(quickest, nanos());
    const end = performance.now() + Number(millis);
    process.ppid;
    for (let count = 0; count < least || performance.now() < end; count++) {
        quickest = Math.min(quickest, nanos());
    }
    process.ppid;
    console.log(quickest.toFixed(1));
}
