// Tests the package as its users load it, such as by `require`, bundled, or in a service worker.
import assert from "node:assert/strict";
import { execFileSync, spawn, spawnSync } from "node:child_process";
import { createServer } from "node:http";
import {
    existsSync,
    mkdirSync,
    mkdtempSync,
    readFileSync,
    rmSync,
    symlinkSync,
    writeFileSync,
} from "node:fs";
import { createRequire } from "node:module";
import { tmpdir } from "node:os";
import { join } from "node:path";
import test, { after, before } from "node:test";
import { fileURLToPath } from "node:url";
import { inspect } from "node:util";
import { schedule } from "../examples/schedule.mjs";

const PACKAGE = fileURLToPath(new URL("..", import.meta.url));
const SAID = "5400000000000 SYNTAX 4";
// The first call looks for a unit by its name, before any text is read.
const USE = `let said = String(parseNs("90", { defaultUnit: "minutes" }));
try { parseNs("1m 3-5"); } catch (error) { said += \` \${error.code} \${error.index}\`; }`;
const MODULE = `import { parseNs } from "duration-str";\n${USE}`;

let room;
before(() => {
    room = mkdtempSync(join(tmpdir(), "duration-str-"));
    mkdirSync(join(room, "node_modules"));
    symlinkSync(PACKAGE, join(room, "node_modules/duration-str"));
    writeFileSync(join(room, "module.mjs"), `${MODULE}\nconsole.log(said);`);
    writeFileSync(
        join(room, "required.cjs"),
        `const { parseNs } = require("duration-str");\n${USE}\nconsole.log(said);`,
    );
});
after(() => rmSync(room, { recursive: true, maxRetries: 20, retryDelay: 100 }));

const runs = (...words) => execFileSync(
    words[0],
    words.slice(1),
    { cwd: room, encoding: "utf8" },
).trim();

function skipWithout(...tools) {
    const missing = tools.filter((tool) => spawnSync("which", [tool]).status !== 0);
    return missing.length ? { skip: `missing: ${missing.join(" ")} (make setup all=yes)` } : {};
}

test("has the version of package.json", () => {
    const { version } = JSON.parse(readFileSync(join(PACKAGE, "package.json"), "utf8"));
    assert.equal(nodeOutput([], "", "console.log(all.version);"), version);
});

test("is packed with its licence, types and module", () => {
    const { exports, files } = JSON.parse(readFileSync(join(PACKAGE, "package.json"), "utf8"));
    const named = [exports["."], exports["./plain"]].flatMap(Object.values).flatMap(Object.values);
    assert.deepEqual(files, ["dist", "index.d.ts", "plain.d.ts", "LICENSE", "NOTICE"]);
    for (const file of [...named, "LICENSE", "NOTICE"]) {
        assert.ok(readFileSync(join(PACKAGE, file)).length > 0, file);
    }
});

test("is one package for import and require", () => {
    writeFileSync(join(room, "both.mjs"), `import { createRequire } from "node:module";
import * as imported from "duration-str";
const required = createRequire(import.meta.url)("duration-str");
let said = imported.DurationError === required.DurationError;
try { required.parseNs("1x"); } catch (error) { said &&= error instanceof imported.DurationError; }
console.log(said);`);
    assert.equal(runs("node", "both.mjs"), "true");
});

function nodeOutput(words, before, lines) {
    const code = `${before}\nconst all = await import("duration-str");\n${lines}`;
    return runs("node", "--no-warnings", ...words, "--input-type=module", "--eval", code);
}

const TRY = "try { console.log(all.parseNs('1h 30m')); } catch (error) { console.log(error.message, error.cause.name); }";
const ADVICE = "allow 'wasm-unsafe-eval' in the content security policy, lift --jitless or the limit of the address space, "
    + "or import duration-str/plain";

test("is imported where WebAssembly is missing or refused, and says at a call what to do", () => {
    const missing = "delete globalThis.WebAssembly;";
    assert.equal(nodeOutput([], missing, TRY),
        `duration-str cannot use WebAssembly here (WebAssembly is not defined): ${ADVICE} ReferenceError`);
    const refused = `const { Module } = WebAssembly;
        WebAssembly.Module = class { constructor() { throw new WebAssembly.CompileError("refused"); } };`;
    const twice = `${TRY}\nWebAssembly.Module = Module;\n${TRY}`;
    assert.equal(nodeOutput([], refused, twice),
        `duration-str cannot use WebAssembly here (refused): ${ADVICE} CompileError\n5400000000000n`);
});

test("reads, refuses and prints without TextEncoder and TextDecoder", () => {
    const missing = "delete globalThis.TextEncoder; delete globalThis.TextDecoder;";
    const lines = `const long = "1 hour ".repeat(9) + "1微秒";
        console.log(all.parseNs(long, { cnUnit: true }), all.formatNs(all.parseNs("1h 30m 1us"), { style: "long" }));
        for (const text of ["5 mins", "1µs 😀x", "1s \\ud800"]) console.log(all.tryParseNs(text).fault.message, all.tryParseNs(text).fault.index);`;
    assert.equal(nodeOutput([], missing, lines), `32400000001000n 1 hour 30 minutes 1 microsecond
unknown unit "mins" at column 3 (did you mean "min"?) 2
expected a number, '+', '*' or the end at column 5, found "😀x" 4
not UTF-8: a lone surrogate at index 3 3`);
});

test("takes the module's bytes without Node's Buffer, too", () => {
    for (const missing of [
        "delete globalThis.Buffer;", "delete globalThis.process; globalThis.Buffer = class {};",
    ]) {
        assert.equal(nodeOutput([], missing, TRY), "5400000000000n");
    }
});

test("works where what is built in is frozen", () => {
    const frozen =
        `for (const one of [Object, Array, String, Number, BigInt, Error, Function, RegExp]) {
        Object.freeze(one); Object.freeze(one.prototype);
    }`;
    assert.equal(nodeOutput(["--disable-proto=throw"], frozen, `${TRY} console.log(all.tryParseNs("x").fault.code, all.formatNs(1n));`),
        "5400000000000n\nSYNTAX 1ns");
});

test("is imported and required, under some conditions without WebAssembly", () => {
    for (const words of [
        [],
        ...["workerd", "edge-light", "react-native"].map(
            (name) => ["--jitless", `--conditions=${name}`],
        ),
    ]) {
        for (const file of ["module.mjs", "required.cjs"]) {
            assert.equal(runs("node", ...words, file), SAID, words.join(" "));
        }
    }
});

test("has types for a CommonJS module", skipWithout("tsc"), () => {
    writeFileSync(
        join(room, "typed.cts"),
        'import { parse } from "duration-str/plain";\nexport const value: number = parse("1h");',
    );
    const version = parseInt(runs("tsc", "--version").replace("Version ", ""), 10);
    for (const [module, resolution] of [
        ["node16", "node16"], ["nodenext", "nodenext"],
        ["commonjs", version < 6 ? "node" : "bundler"],
    ]) {
        runs(
            "tsc",
            "--strict",
            "--noEmit",
            "--target",
            "es2022",
            "--module",
            module,
            "--moduleResolution",
            resolution,
            "typed.cts",
        );
    }
});

// Node also requires modules from 20.19 on, but not before.
test("gives a CommonJS file of plain JavaScript to require", () => {
    const required = createRequire(join(room, "required.cjs"));
    assert.match(required.resolve("duration-str/plain"), /[/]plain[.]cjs$/);
    assert.equal(required("duration-str/plain").parse("1h"), 3_600_000);
});

// tests/compare compares what the plain package reads, and what it prints without a format.
test("prints in plain JavaScript as in WebAssembly", async () => {
    const [compiled, plain] = await Promise.all(
        [import("duration-str"), import("duration-str/plain")],
    );
    for (let bits = 0n; bits <= 64n; bits++) {
        for (const value of [(1n << bits) - 1n, (0xfedcba9876543210n >> (64n - bits))]) {
            for (const options of [
                undefined, { style: "compact" }, { style: "long", largest: "d", parts: 2 },
                { parts: 1, rounding: "nearest" }, { smallest: "y", rounding: "up" },
            ]) {
                assert.equal(plain.formatNs(value, options), compiled.formatNs(value, options));
            }
            for (const options of [undefined, { parts: 2 }, { units: ["ns"] }]) {
                assert.deepEqual(
                    plain.breakdown(value, options), compiled.breakdown(value, options),
                );
            }
            assert.deepEqual(plain.parts(value), compiled.parts(value));
        }
    }
    for (const defaultUnit of ["minutes", "USEC", "year"]) {
        assert.equal(plain.parseNs("3", { defaultUnit }), compiled.parseNs("3", { defaultUnit }));
    }
    const { fault } = plain.tryParseNs("1µs 😀x");
    assert.deepEqual({ ...fault }, { ...compiled.tryParseNs("1µs 😀x").fault });
    assert.throws(() => new compiled.DurationError(fault), TypeError);
    assert.throws(() => plain.parse("1x"), (error) => inspect(error).startsWith("DurationError: "));
});

const DURATION = join(PACKAGE, "examples/duration.mjs");
test("the example reads, prints and moves a moment", () => {
    assert.equal(
        runs("node", DURATION, "3m + 13s + 29ms"),
        "193029000000 3min 13s 29ms 946684993.029000000",
    );
});

test("the example says what is wrong", () => {
    const ran = spawnSync(process.execPath, [DURATION, "3ms-2ms"], { encoding: "utf8" });
    assert.deepEqual(
        [ran.status, ran.stdout],
        [1, `expected a number, '+', '*' or the end at column 4, found "-"\n`],
    );
});

test("a schedule has a period and an end, and names a setting that is refused", () => {
    const now = new Date("2026-01-31T12:00:00Z");
    const { timer, period, end } = schedule({ every: "1m 30s", until: "90d" }, () => {}, now);
    clearInterval(timer);
    assert.deepEqual([period, end.toISOString()], [90_000, "2026-05-01T12:00:00.000Z"]);
    assert.throws(
        () => schedule({ every: "soon", until: "1d" }, () => {}),
        /^Error: every: expected a number at column 1, found "soon"$/,
    );
    assert.throws(() => schedule({ every: "1m" }, () => {}), /^Error: until: /);
    for (const every of ["0s", "2147483647ms 1us", "30d"]) {
        assert.throws(() => schedule({ every, until: "0s" }, () => {}), RangeError);
    }
});

const BABEL = "/usr/share/nodejs/@babel/standalone/babel.js";
test("works as Babel compiles it for older browsers", existsSync(BABEL) ? {} : { skip: "Babel is missing (make setup all=yes)" }, () => {
    const { transform } = createRequire(import.meta.url)(BABEL);
    const source = readFileSync(join(PACKAGE, "dist/duration-str.js"), "utf8");
    const { code } = transform(
        source,
        { presets: [["env", { targets: "> 0.25%, not dead", modules: "commonjs" }]] },
    );
    writeFileSync(join(room, "compiled.cjs"), code);
    assert.equal(
        runs("node", "-p", "require('./compiled.cjs').parseNs('1h 30m')"),
        "5400000000000n",
    );
});

for (const format of ["esm", "cjs", "iife"]) {
    test(`is bundled by esbuild as ${format} for ES2020`, skipWithout("esbuild"), () => {
        const output = `bundle.${format === "esm" ? "mjs" : "cjs"}`;
        runs(
            "esbuild",
            "module.mjs",
            "--bundle",
            "--log-level=error",
            "--target=es2020",
            `--format=${format}`,
            `--outfile=${output}`,
        );
        assert.equal(runs("node", output), SAID);
    });
}

for (const format of ["esm", "cjs"]) {
    test(`is bundled by rollup as ${format}`, skipWithout("rollup"), () => {
        runs(
            "rollup",
            join(PACKAGE, "dist/duration-str.js"),
            "--silent",
            `--format=${format}`,
            "--file=rolled.cjs",
        );
        if (format === "cjs") {
            assert.equal(
                runs("node", "-p", "require('./rolled.cjs').parseNs('1h 30m')"),
                "5400000000000n",
            );
        }
    });
}

const FIRST = "set -- /usr/lib/*/webkit*gtk-*/MiniBrowser; echo $1";
const MINI_BROWSER = execFileSync("sh", ["-c", FIRST], { encoding: "utf8" }).trim();
/** The words before a page's address. Only WebKit's browser needs a display. */
const BROWSERS = {
    Chromium: [
        "chromium", "--headless", "--no-sandbox", "--disable-gpu", "--user-data-dir=PROFILE",
    ],
    Firefox: ["firefox-esr", "--headless", "--no-remote", "--profile", "PROFILE"],
    WebKit: ["xvfb-run", "--auto-servernum", MINI_BROWSER, "--private"],
};
const NEEDED = {
    Chromium: ["chromium"],
    Firefox: ["firefox-esr"],
    WebKit: ["xvfb-run", "xauth", MINI_BROWSER],
};

/**
 * Serves these files, each with its policy if it has one, opens the first file as a page in the
 * browser, and returns the message that the page posts.
 */
async function pageMessage([program, ...words], files) {
    let browser;
    const server = createServer();
    return new Promise((resolve, reject) => {
        server.on("request", async (request, response) => {
            const name = request.url === "/" ? Object.keys(files)[0] : request.url.slice(1);
            if (request.method === "GET") {
                const [content = "", policy = "frame-src 'self'"] = [files[name]].flat();
                const type = name.endsWith(".js") ? "text/javascript" : "text/html";
                const headers = { "content-security-policy": policy, "content-type": type };
                response.writeHead(200, headers).end(content);
                return;
            }
            let body = "";
            for await (const part of request) body += part;
            response.end();
            resolve(JSON.parse(body));
        });
        server.listen(0, "127.0.0.1", () => {
            const address = `http://127.0.0.1:${server.address().port}/`;
            const env = { ...process.env, HOME: room, TMPDIR: room };
            browser = spawn(program, [...words, address], { stdio: "ignore", detached: true, env });
            browser.on("error", reject);
        });
        setTimeout(() => reject(new Error("the page says nothing for a minute")), 60_000).unref();
    }).finally(() => new Promise((resolve) => {
        server.close();
        server.closeAllConnections();
        // The browser writes to its profile until it has ended.
        browser.on("close", resolve);
        process.kill(-browser.pid);
    }));
}

function bundle(lines, ...words) {
    writeFileSync(join(room, "lines.mjs"), lines);
    return runs("esbuild", "lines.mjs", "--bundle", "--log-level=error", ...words);
}

const PARTS = ["vectors", "refused", "allowed", "plain", "recipe", "worker"];
const PAGE = `<script>
const said = {};
const hear = ({ data: [part, words] }) => {
    said[part] = words;
    if (Object.keys(said).length < ${PARTS.length}) return;
    fetch("/", { method: "POST", body: JSON.stringify(said) });
};
onmessage = navigator.serviceWorker.onmessage = hear;
navigator.serviceWorker.register("worker.js").then(() => navigator.serviceWorker.ready)
    .then((registration) => registration.active.postMessage("?"));
</script>
${PARTS.slice(0, -1).map((part) => `<iframe src="${part}.html"></iframe>`).join("\n")}`;

// WebKit knows no Temporal yet.
const WORKER = `${MODULE}
import { parts } from "duration-str";
const counted = parts(5_400_000_000_000n);
said += \` \${new Intl.DurationFormat("en").format(counted)}\`;
for (const each of self.Temporal ? [counted, parts(0n)] : []) {
    said += \` \${Temporal.Duration.from(each)}\`;
}
self.onmessage = (event) => event.source.postMessage(["worker", said]);`;

/** README's program for `Intl.DurationFormat`, which Node 20 lacks, and what it prints. */
function recipe() {
    const readme = readFileSync(join(PACKAGE, "README.md"), "utf8");
    const blocks = /^```js DurationFormat\n(.*?)^```\n^```console\n\$ node intl\.mjs\n(.*?)^```/ms;
    const [, program, printed] = readme.match(blocks);
    const told = 'parent.postMessage(["recipe", lines.join("")], "*");';
    const lines = program.replaceAll(/console\.log\((.*)\);/g, "lines.push($1, '\\n');");
    return { program: `const lines = [];\n${lines}\n${told}`, printed };
}

const hourIn = (part, from) => `import { parseNs } from "${from}";
let said = "started ";
try {
    said += parseNs("1h");
} catch (error) {
    said += \`\${error.cause.name}: \${error.message}\`;
}
parent.postMessage(["${part}", said], "*");`;

const WRONG_VECTORS = `import * as compiled from "duration-str";
import * as plain from "duration-str/plain";
import { optionsOf, VECTORS } from "${join(PACKAGE, "tests/vectors.js")}";
const wrong = [];
for (const { DurationError, formatNs, tryParseNs } of [compiled, plain]) {
    for (const { on, rows } of VECTORS.values) {
        for (const [secs, nanos, texts] of rows) {
            const value = BigInt(secs) * 1_000_000_000n + BigInt(nanos);
            wrong.push(...texts.filter((text) => tryParseNs(text, optionsOf(on)).value !== value));
        }
    }
    for (const [text, names, ...row] of VECTORS.refused) {
        const [code, place, found, , line, , help, suggestion, , mended] = row;
        const error = new DurationError(tryParseNs(text, optionsOf(names)).fault);
        const copy = structuredClone(error.toJSON());
        const got = [copy.code, copy.place, copy.found, copy.help, copy.suggestion, copy.message];
        got.push(structuredClone(error).message, copy.mended);
        const wanted = [code, place, found, help, suggestion, line, line, mended];
        if (got.join() !== wanted.join()) wrong.push(text);
    }
    for (const [text, limits, short] of VECTORS.printed) {
        const { ok, value } = tryParseNs(text);
        if (ok && formatNs(value, limits) !== short) wrong.push(text);
    }
}
parent.postMessage(["vectors", wrong], "*");`;

function browserFiles() {
    const strict = "script-src 'self'";
    const frame = (part) => `<script type="module" src="${part}.js"></script>`;
    // The vectors are a part of the bundle.
    const vectors = join(PACKAGE, "../rust/vectors.json");
    const reads = `import text from "${vectors}";\nexport const readFileSync = () => text;`;
    writeFileSync(join(room, "fs.mjs"), reads);
    const words = ["--format=esm", "--alias:node:fs=./fs.mjs", "--loader:.json=text"];
    return {
        "page.html": PAGE,
        "worker.js": bundle(WORKER),
        "vectors.html": frame("vectors"),
        "vectors.js": bundle(WRONG_VECTORS, ...words),
        "refused.html": [frame("refused"), strict],
        "refused.js": bundle(hourIn("refused", "duration-str")),
        "allowed.html": [frame("allowed"), `${strict} 'wasm-unsafe-eval'`],
        "allowed.js": bundle(hourIn("allowed", "duration-str")),
        "plain.html": [frame("plain"), strict],
        "plain.js": bundle(hourIn("plain", "duration-str/plain")),
        "recipe.html": frame("recipe"),
        "recipe.js": bundle(recipe().program),
    };
}

for (const [name, words] of Object.entries(BROWSERS)) {
    const where = `${name}, in frames with policies and in a service worker`;
    test(`works in ${where}`, skipWithout(...NEEDED[name]), async () => {
        const profile = join(room, name);
        mkdirSync(profile);
        const filled = words.map((word) => word.replace("PROFILE", profile));
        const said = await pageMessage(filled, browserFiles());
        assert.deepEqual(said.vectors, []);
        const refused = /^started CompileError: duration-str cannot .* allow 'wasm-unsafe-eval' /s;
        assert.match(said.refused, refused);
        const hour = "started 3600000000000";
        assert.deepEqual([said.allowed, said.plain], [hour, hour]);
        assert.equal(said.recipe, recipe().printed);
        assert.match(said.worker, RegExp(`^${SAID} 1 hr, 30 min( PT1H30M PT0S)?$`));
    });
}
