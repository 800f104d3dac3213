// How far a site is behind another, in facts and in seconds.

import { Series } from "./series.js";
import { beyond } from "./vector.js";

/** What one site lacks of another, over time. */
export class Lag {
    constructor(lacking, held, keep) {
        Object.assign(this, { lacking, held, waiting: [], mine: undefined, other: undefined });
        Object.assign(this, { count: undefined, since: undefined, isCurrent: false });
        this.series = new Series(keep);
    }

    /** Takes both vectors of a moment. One that a site doesn't say is undefined. */
    take(at, mine, other) {
        this.follow(at, mine, other);
        this.series.add(at, this.isCurrent ? this.count : undefined);
    }

    /**
     * Computes `count`, how many facts are lacking by what each site said last, and `since`, the
     * moment at which the other site was first seen with one of them. What was seen of the other
     * site waits until this one has all of it.
     */
    follow(at, mine, other) {
        this.mine = mine ?? this.mine;
        this.other = other ?? this.other;
        this.isCurrent = Boolean(mine && other);
        if (!this.mine || !this.other) return;
        if (other) this.waiting.push({ at, vector: other });
        const waiting = this.waiting.filter(it => beyond(it.vector, this.mine));
        this.waiting = thinned(waiting, at - this.series.keep);
        this.count = beyond(this.other, this.mine);
        this.since = this.count ? this.waiting[0]?.at : undefined;
    }
}

/** Without vectors that say nothing new. Of those before a moment the first stays. */
function thinned(waiting, first) {
    return waiting.filter((it, n) => n === 0
        || it.at >= first && beyond(it.vector, waiting[n - 1].vector));
}

/** The lags of each site behind each other, which keep what was in some seconds. */
export function lagsOf(sites, keep) {
    return sites.flatMap(lacking =>
        sites.filter(it => it !== lacking).map(held => new Lag(lacking, held, keep)));
}
