// The page: asks each site every few seconds, and shows what they say.

import { Alerts } from "./alerts.js";
import { ask, read } from "./ask.js";
import { make, put } from "./dom.js";
import { lagsOf } from "./lag.js";
import { clock } from "./numbers.js";
import { figures, lagRow, overviewRow, plots } from "./show.js";
import { Site } from "./site.js";
import { stateOf } from "./state.js";

class Page {
    constructor(settings) {
        this.settings = settings;
        this.keep = settings.keep_minutes * 60;
        this.sites = settings.sites.map(name => new Site(name, this.keep));
        this.lags = lagsOf(settings.sites, this.keep);
        this.alerts = new Alerts(this.keep);
        Object.assign(this, { isPaused: false, at: undefined, said: "" });
        put("links", ...this.sites.map((it, n) => make("a", { href: "#site" + n }, it.name)));
        put("sites", ...this.sites.map((it, n) => section(it, n, settings.keep_minutes)));
        document.getElementById("pause").addEventListener("click", it => this.pause(it.target));
    }

    pause(button) {
        this.isPaused = !this.isPaused;
        button.setAttribute("aria-pressed", String(this.isPaused));
        this.sayWhen();
    }

    /** Says when the sites were asked, and whether they are asked again. */
    sayWhen() {
        const last = this.at ? "Asked at " + clock(this.at) : "Nothing was asked yet";
        const next = this.isPaused ? "; paused." : ", every " + this.settings.ask_seconds + " s.";
        put("asked", last + next);
    }

    /** Asks all at once, and shows what came. */
    async ask() {
        const all = Promise.all(this.sites.map(it => read(it.name)));
        const [readings] = await Promise.all([all, this.alerts.read()]);
        const at = Date.now() / 1000;
        this.sites.forEach((it, n) => it.take(readings[n]));
        const vectors = new Map(readings.map(it => [it.site, it.vector]));
        for (const it of this.lags) it.take(at, vectors.get(it.lacking), vectors.get(it.held));
        this.show(at);
    }

    show(at) {
        const states = this.sites.map(it => stateOf(it, this.lags, at, this.settings));
        this.at = at;
        this.sayWhen();
        put("overview", ...this.sites.map((it, n) => overviewRow(it, states[n])));
        put("lacks", ...this.lags.map(it => lagRow(it, at)));
        put("alerts", ...this.alerts.shown(at));
        this.sites.forEach((it, n) => {
            put("figures" + n, ...figures(it, at));
            put("plots" + n, ...plots(it, this.lags, at, this.keep));
        });
        this.announce(states);
    }

    /** Names the sites that are bad, if they have changed: a screen reader reads that out. */
    announce(states) {
        const bad = this.sites.filter((_, n) => states[n][0].grade === "bad").map(it => it.name);
        const said = bad.length ? "✗ Bad: " + bad.join(", ") + "." : "✓ No site is bad.";
        if (said !== this.said) put("said", this.said = said);
        document.title = (bad.length ? "✗ " + bad.length + " bad" : "✓") + " - sites of tokend";
    }

    /** Asks again and again, unless it is paused. */
    async run() {
        const wait = seconds => new Promise(done => setTimeout(done, seconds * 1000));
        for (;;) {
            if (!this.isPaused) await this.ask();
            await wait(this.settings.ask_seconds);
        }
    }
}

/** The part of the page that a site has, whose figures and plots come with each reply. */
function section(site, n, minutes) {
    const title = "site" + n, about = "Plots: the last " + minutes
        + " minutes, from 0 up to the greatest value.";
    return make("section", { "aria-labelledby": title },
        make("h2", { id: title, tabindex: "-1" }, "Site " + site.name),
        make("dl", { id: "figures" + n }), make("p", {}, about),
        make("div", { id: "plots" + n, class: "plots" }));
}

const { status, body } = await ask("settings.json");
try {
    await new Page(JSON.parse(body)).run();
} catch (why) {
    put("asked", "✗ This page has ended: " + why + " (settings.json: status " + status + ")");
}
