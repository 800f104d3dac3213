// Values over time, and what is computed of two of them.

/** The values of one line of a plot, from the last minutes. */
export class Series {
    constructor(keep) {
        this.keep = keep;
        this.points = [];
    }

    /** Adds a value of a moment; undefined makes a gap. */
    add(at, value) {
        this.points.push({ at, value });
        while (this.points[0].at < at - this.keep) this.points.shift();
    }
}

/** Named series, made as they are needed. */
export class Book {
    constructor(keep) {
        this.keep = keep;
        this.series = new Map();
    }

    add(name, at, value) {
        if (!this.series.has(name)) this.series.set(name, new Series(this.keep));
        this.series.get(name).add(at, value);
    }

    /** Makes a gap in all series but one. */
    endOthers(but, at) {
        for (const [name, series] of this.series) if (name !== but) series.add(at, undefined);
    }

    /** The lines of a plot: of names that were seen, with what stands for each. */
    lines(names) {
        return Object.entries(names).filter(([name]) => this.series.has(name))
            .map(([name, label]) => ({ label, points: this.series.get(name).points }));
    }
}

/**
 * How much each counter grew in a second between two sums, which are at moments. A counter that
 * fell was begun anew: its rate is undefined, as that of one that is in one of both sums alone.
 */
export function rates(before, after) {
    const passed = after.at - before.at, found = new Map();
    for (const name of passed > 0 ? [...before.sums.keys(), ...after.sums.keys()] : []) {
        const grown = after.sums.get(name) - before.sums.get(name);
        found.set(name, grown >= 0 ? grown / passed : undefined);
    }
    return found;
}
