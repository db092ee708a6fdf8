import { HELPS } from "./lists.js";

const SHOWN_LENGTH = 80;

/** The report's last line is the message. */
export class Fault {
    #report;
    #mend;

    /** The bits of `expected` are those of `enum duration_str_expected`. `help` is the number of a
     * help, from 1, or 0. `mend` returns the mended text of a fault, if somebody asks for it. */
    constructor(text, report, code, expected = 0, help = 0, mend = () => null) {
        this.code = code;
        this.text = text;
        this.index = null;
        this.place = null;
        this.found = null;
        this.expected = {
            number: (expected & 1) !== 0,
            unit: (expected & 2) !== 0,
            operator: (expected & 4) !== 0,
            end: (expected & 8) !== 0,
        };
        this.help = HELPS[help - 1] ?? null;
        this.suggestion = null;
        this.span = null;
        this.message = report.slice(report.lastIndexOf("\n") + 1);
        this.#report = report;
        this.#mend = mend;
    }

    get mended() {
        return this.#mend(this);
    }

    /** The line of a syntax fault says its column before it quotes anything, or after a quote of
     * letters alone, which has no blank. So the first ` at column 3` or the like is the line's own.
     * In other lines it can only be quoted. */
    get reason() {
        return this.code === "SYNTAX" ? this.message.replace(/ at column \d+/, "") : this.message;
    }

    get report() {
        return this.#report;
    }

    toJSON() {
        return { ...this, mended: this.mended };
    }

    toString() {
        return this.message;
    }
}

/** If nobody catches an error, Node shows up to 10,000 characters of each text in its `cause`, but
 * calls no getter. */
function hideLong(cause, name) {
    const text = cause[name];
    if (text === null || text.length <= SHOWN_LENGTH) return;
    Object.defineProperty(cause, name, { get: () => text });
}

/** The fault's fields, except the message, the reason, the report and the mended text, are in
 * `cause`. A structured clone of an error can keep the `cause`, but no fields of this class. */
export class DurationError extends Error {
    #fault;

    constructor(fault) {
        if (!(fault instanceof Fault)) {
            throw new TypeError("a DurationError is made of a fault, as tryParse returns it");
        }
        const { message, ...cause } = fault;
        hideLong(cause, "text");
        hideLong(cause, "found");
        super(message, { cause });
        this.#fault = fault;
    }

    get reason() {
        return this.#fault.reason;
    }

    get report() {
        return this.#fault.report;
    }

    get code() {
        return this.cause.code;
    }

    get text() {
        return this.cause.text;
    }

    get index() {
        return this.cause.index;
    }

    get place() {
        return this.cause.place;
    }

    get found() {
        return this.cause.found;
    }

    get expected() {
        return this.cause.expected;
    }

    get help() {
        return this.cause.help;
    }

    get suggestion() {
        return this.cause.suggestion;
    }

    get span() {
        return this.cause.span;
    }

    get mended() {
        return this.#fault.mended;
    }

    toJSON() {
        return { name: this.name, message: this.message, ...this.cause, mended: this.mended };
    }
}

// Consoles also show the name of the class, which minifiers change. A plain assignment to the
// prototype's name would throw if the prototype of errors is frozen.
for (const named of [DurationError, DurationError.prototype]) {
    Object.defineProperty(named, "name", {
        value: "DurationError", writable: true, configurable: true,
    });
}
