// The text format of Prometheus, as examples/metrics writes it.

const PREFIX = "tokend_";
const SAMPLE = /^(\w+)(?:\{(.*)\})? (\S+)$/;
const LABEL = /(\w+)="((?:[^"\\]|\\.)*)"/g;

const plain = text => text.replace(/\\(.)/g, (_, it) => it === "n" ? "\n" : it);

function labels(text) {
    return Object.fromEntries(Array.from(text.matchAll(LABEL), it => [it[1], plain(it[2])]));
}

/** Samples by the name of their metric, without its prefix. */
export class Samples {
    constructor(text) {
        this.found = new Map();
        for (const line of text.split("\n")) {
            const [, name, rest, value] = SAMPLE.exec(line) ?? [];
            if (!name?.startsWith(PREFIX)) continue;
            const key = name.slice(PREFIX.length);
            if (!this.found.has(key)) this.found.set(key, []);
            this.found.get(key).push({ labels: labels(rest ?? ""), value: Number(value) });
        }
    }

    /** All samples of a metric. */
    all(name) {
        return this.found.get(name) ?? [];
    }

    /** The value of the sample with these labels, or undefined. */
    value(name, wanted = {}) {
        return this.all(name).find(it =>
            Object.entries(wanted).every(([key, value]) => it.labels[key] === value))?.value;
    }

    /** The sums of a metric by a key of the labels. */
    sums(name, keyOf) {
        const sums = new Map();
        for (const it of this.all(name)) {
            const key = keyOf(it.labels);
            sums.set(key, (sums.get(key) ?? 0) + it.value);
        }
        return sums;
    }
}
