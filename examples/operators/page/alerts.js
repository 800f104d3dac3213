// Alerts of Prometheus, those that fire, those that may soon, and those that have ended.

import { ask } from "./ask.js";
import { clock, seconds } from "./numbers.js";
import { make } from "./dom.js";

const WHY = {
    0: "the server of this page doesn't reply", 404: "this page has no Prometheus",
    502: "Prometheus doesn't reply", 504: "Prometheus doesn't reply",
};

/** The alerts of a reply. Throws if it has none. */
function alertsIn(body) {
    return JSON.parse(body).data.alerts.map(it => ({
        key: JSON.stringify([Object.entries(it.labels).sort(), it.activeAt]),
        name: it.labels.alertname, site: it.labels.site ?? it.labels.instance ?? "",
        state: it.state, since: Date.parse(it.activeAt) / 1000, ended: undefined,
        summary: it.annotations.summary ?? "", todo: it.annotations.do ?? "",
    }));
}

export class Alerts {
    constructor(keep) {
        Object.assign(this, { keep, why: "they weren't asked for yet", known: new Map() });
    }

    /** Asks Prometheus. What it names no more has ended, and stays for some minutes. */
    async read() {
        const { status, body } = await ask("alerts"), at = Date.now() / 1000;
        let active;
        try {
            active = alertsIn(body);
            this.why = "";
        } catch {
            this.why = WHY[status] ?? "the reply has status " + status;
            return;
        }
        for (const it of this.known.values()) it.ended ??= at;
        for (const it of active) this.known.set(it.key, it);
        for (const [key, it] of this.known) {
            // one that never fired isn't shown further
            const isGone = it.state === "pending" || it.ended < at - this.keep;
            if (it.ended && isGone) this.known.delete(key);
        }
    }

    /** The alerts, those that fire first. */
    listed() {
        const rank = it => it.ended ? 2 : it.state === "firing" ? 0 : 1;
        return [...this.known.values()].sort((one, other) =>
            rank(one) - rank(other) || other.since - one.since);
    }

    /** Elements that show the alerts at a moment, or why there are none. */
    shown(at) {
        if (this.why) {
            return [make("p", { class: "look" }, "! Alerts aren't read: " + this.why + ".")];
        }
        const all = this.listed();
        if (!all.length) return [make("p", {}, "No alert fires.")];
        return [make("ul", {}, ...all.map(it => shownOne(it, at)))];
    }
}

function shownOne(it, at) {
    const state = it.ended ? "ended at " + clock(it.ended)
        : (it.state === "firing" ? "fires" : it.state) + ", for " + seconds(at - it.since);
    const grade = it.ended ? "fine" : it.state === "firing" ? "bad" : "look";
    return make("li", {}, make("span", { class: grade }, it.name + " " + it.site + " " + state),
        ": " + it.summary + ". " + it.todo);
}
