// A site over time: its last reading, and the figures of the last minutes.

import { Book, rates } from "./series.js";
import { size } from "./vector.js";

const COUNTERS = {
    requests: ["requests_total", it => it.status?.[0] + "xx"], // by the class of the status
    endpoints: ["requests_total", it => it.endpoint],
    faults: ["faults_total", it => it.kind],
};
const GAUGES = ["open_connections", "held_facts", "resident_bytes"];

export class Site {
    constructor(name, keep) {
        Object.assign(this, { name, reading: undefined, book: new Book(keep) });
        this.forget();
        // when the file of metrics was first seen as it is, and by how much its clock is off
        Object.assign(this, { collected: undefined, seen: undefined, off: undefined });
        this.isFollowed = false; // whether a later file was seen than the first
    }

    /** Forgets what counters were. */
    forget() {
        Object.assign(this, { counted: {}, rates: {} });
    }

    /** The number of its region, once it is known. */
    get region() {
        return this.reading?.samples?.value("region_number");
    }

    /** How old the file of metrics is, in seconds; undefined if there is none. */
    age(at) {
        if (!this.reading?.samples || this.seen === undefined) return undefined;
        const known = at - this.seen;
        return this.isFollowed ? known : Math.max(known, at - this.collected);
    }

    take(reading) {
        this.reading = reading;
        const { at, samples, vector } = reading;
        this.book.add("known", at, vector && size(vector));
        const collected = samples?.value("collected_timestamp_seconds");
        if (collected === undefined) {
            this.forget();
            this.book.endOthers("known", at);
        } else if (collected !== this.collected) {
            this.isFollowed = this.collected !== undefined;
            Object.assign(this, { collected, seen: at, off: collected - at });
            for (const name of Object.keys(COUNTERS)) this.takeCounters(name, reading);
            for (const it of GAUGES) this.book.add(it, at, samples.value(it));
        }
    }

    /** Adds what counters have grown by since the file before. */
    takeCounters(name, { at, samples }) {
        const [metric, keyOf] = COUNTERS[name];
        const after = { at: this.collected, sums: samples.sums(metric, keyOf) };
        this.rates[name] = rates(this.counted[name] ?? after, after);
        this.counted[name] = after;
        for (const [key, rate] of this.rates[name]) this.book.add(name + key, at, rate);
    }
}
