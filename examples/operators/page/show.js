// What the page shows of sites: rows of its tables, figures and plots.

import { make } from "./dom.js";
import { bytes, facts, moment, number, seconds } from "./numbers.js";
import { plot } from "./plot.js";
import { size } from "./vector.js";

const SIGNS = { bad: "✗ ", look: "! ", fine: "✓ " };
const REQUESTS = { requests2xx: "2xx", requests3xx: "3xx", requests4xx: "4xx", requests5xx: "5xx" };
const ENDPOINTS = {
    endpointstoken: "token", endpointsintrospect: "introspect", endpointsauthorize: "authorize",
    endpointsrevoke: "revoke",
};
const FAULTS = { faultsread: "read", faultswrite: "write", faultsmemory: "memory" };
const FACTS = { known: "known, also skipped", held_facts: "held" };

const words = it => make("li", { class: it.grade }, SIGNS[it.grade] + it.words);
const rate = value => number(value) + "/s";

/** The row of a site in the overview. */
export function overviewRow(site, state) {
    const { vector } = site.reading ?? {};
    return make("tr", {}, make("th", { scope: "row" }, site.name),
        make("td", {}, site.region === undefined ? "not known" : String(site.region)),
        make("td", {}, make("ul", {}, ...state.map(words))),
        make("td", {}, vector ? number(size(vector)) : "not known"));
}

/** The row of a lag. */
export function lagRow(lag, at) {
    const isKnown = lag.count !== undefined;
    const age = lag.count && lag.since !== undefined ? seconds(at - lag.since) : "";
    const count = isKnown ? number(lag.count) : "not known";
    return make("tr", {}, make("th", { scope: "row" }, lag.lacking), make("td", {}, lag.held),
        make("td", {}, count + (isKnown && !lag.isCurrent ? ", as last seen" : "")),
        make("td", {}, age));
}

const item = (name, ...values) => make("div", {}, make("dt", {}, name), make("dd", {}, ...values));

/** The values of a metric in words, each with one of its labels. */
function each(samples, metric, label, form, otherwise = "not known") {
    return samples.all(metric).map(it => it.labels[label] + ": " + form(it.value)).join(", ")
        || otherwise;
}

const one = (samples, metric, form) => {
    const value = samples.value(metric);
    return value === undefined ? "not known" : form(value);
};

function peers(samples) {
    const lacks = (peer, lacking) => samples.value("lag_facts", { peer, lacking });
    return samples.all("peer_up").map(({ labels: { peer }, value }) => peer + (value
        ? ": replies; here lacks " + facts(lacks(peer, "here") ?? 0) + ", there "
            + facts(lacks(peer, "there") ?? 0)
        : ": doesn't reply")).join(", ") || "none";
}

function rates(site, name, isShown = () => true) {
    const all = [...site.rates[name] ?? []].filter(([, it]) => it !== undefined);
    if (!all.length) return "not known: no --metrics, or not yet";
    return all.filter(([, it]) => isShown(it)).map(([key, it]) => key + ": " + rate(it)).join(", ")
        || "none";
}

/** The figures of a site, by what its metrics say. */
export function figures(site, at) {
    const { samples } = site.reading ?? {}, now = site.collected;
    if (!samples) return [item("metrics", "none")];
    const ago = value => value ? seconds(now - value) + " ago" : "never";
    return [
        item("collected", seconds(site.age(at) ?? 0) + " ago"),
        item("facts known, made by", each(samples, "facts", "made_by", number)),
        item("facts held", one(samples, "held_facts", number)),
        item("requests a second", rates(site, "requests")),
        item("requests a second, by endpoint", rates(site, "endpoints", it => it > 0)),
        item("faults since its start", each(samples, "faults_total", "kind", number)),
        item("open connections", one(samples, "open_connections", number)),
        item("horizon", one(samples, "horizon_timestamp_seconds",
            it => it ? moment(it) : "none")),
        item("last push taken in", one(samples, "last_push_timestamp_seconds", ago)),
        item("last carry that ended well", each(samples, "last_carry_timestamp_seconds",
            "carrier", ago, "no carrier")),
        item("peers", peers(samples)),
        item("memory", one(samples, "resident_bytes", bytes)),
        item("files", each(samples, "file_bytes", "what", bytes)),
        item("free on the disk", one(samples, "free_bytes", bytes)),
        item("numbers left", one(samples, "numbers_left", number)),
        item("certificates expire", each(samples, "certificate_expiry_timestamp_seconds", "file",
            it => it ? moment(it) : "can't be read", "none is named")),
    ];
}

/** The plots of a site. */
export function plots(site, lags, at, keep) {
    const lacks = lags.filter(it => it.lacking === site.name)
        .map(it => ({ label: "of " + it.held, points: it.series.points }));
    const one = (title, names, form) => plot(title, site.book.lines(names), at, keep, form);
    return [
        plot("Facts that it lacks", lacks, at, keep, number),
        one("Requests a second by status", REQUESTS, rate),
        one("Requests a second by endpoint", ENDPOINTS, rate),
        one("Facts", FACTS, number),
        one("Faults a second", FAULTS, rate),
        one("Open connections", { open_connections: "open" }, number),
        one("Memory", { resident_bytes: "resident" }, bytes),
    ];
}
