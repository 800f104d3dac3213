// Numbers and times in words.

const MINUTE = 60, HOUR = 3600, DAY = 86400;

/** A number of seconds: 12 s, 5 min, 3 h, 2 days. */
export function seconds(count) {
    const it = Math.round(Math.abs(count));
    if (it < 2 * MINUTE) return it + " s";
    if (it < 2 * HOUR) return Math.floor(it / MINUTE) + " min";
    return it < 2 * DAY ? Math.floor(it / HOUR) + " h" : Math.floor(it / DAY) + " days";
}

/** A number of bytes. */
export function bytes(count) {
    const units = ["B", "KiB", "MiB", "GiB", "TiB"];
    let at = 0;
    for (; count >= 1024 && at < units.length - 1; at++) count /= 1024;
    return (at && count < 100 ? count.toFixed(1) : Math.round(count)) + " " + units[at];
}

/** A number, with at most two digits behind the point. */
export const number = count => Number(count.toFixed(2)).toLocaleString("en");

/** N facts, or 1 fact. */
export const facts = count => number(count) + (count === 1 ? " fact" : " facts");

/** A moment, in seconds since 1970, as date and time in UTC. */
export function moment(at) {
    const it = new Date(at * 1000);
    return isNaN(it) ? at + " s since 1970" : it.toISOString().slice(0, 19).replace("T", " ") + "Z";
}

/** The time of day of a moment, by the clock of the browser. */
export const clock = at => new Date(at * 1000).toLocaleTimeString("en-GB");
