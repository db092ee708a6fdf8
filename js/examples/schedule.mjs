// Runs a job again and again until a deadline, with settings from a configuration.
import { parse } from "duration-str";

/**
 * Runs the job at intervals of `every`, until the time `until` has passed. If a text is refused,
 * the error names the setting.
 */
export function schedule({ every, until }, job, now = new Date()) {
    const period = setting("every", () => parse(every));
    const end = setting("until", () => new Date(now.getTime() + parse(until)));
    // A timer would take a longer period as 1 ms.
    if (period < 1 || period > 2 ** 31 - 1) throw new RangeError("every: from 1 ms to 24 days");
    const timer = setInterval(() => (new Date() < end ? job() : clearInterval(timer)), period);
    return { timer, period, end };
}

function setting(name, read) {
    try {
        return read();
    } catch (error) {
        throw new Error(`${name}: ${error.message}`, { cause: error });
    }
}
