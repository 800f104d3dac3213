// The state of a site in words, each with its grade: bad, look or fine.

import { facts, moment, seconds } from "./numbers.js";

const CARRY = 300, AHEAD = 60; // seconds: the alert's, and what clocks may differ by
const HEALTH = {
    "200 ok": ["fine", "clients are served"],
    "503 before_horizon":
        ["bad", "clients get 503: the horizon is ahead of the clock (before_horizon)"],
    "503 temporarily_unavailable":
        ["bad", "each request gets 503: the log has failed (temporarily_unavailable)"],
    "404 not_found": ["look", "it doesn't say whether clients are served: start it with --health"],
};

const say = (grade, words) => ({ grade, words });

/** Whether clients are served, or why not. */
function health({ health: { status, word } }) {
    const known = HEALTH[status + " " + word];
    if (known) return say(...known);
    if (status === 0) return say("bad", "no reply from the server of this page");
    if (status === 502 || status === 504) {
        return say("bad", "no reply: the region or the way to it is gone (" + status + ")");
    }
    return say("bad", "its health isn't known: the reply has status " + status);
}

/** Whether other regions are served, if that differs from clients. */
function exchange({ health, vector, vectorStatus }) {
    if (vector && health.status !== 200) return [say("fine", "other regions are served")];
    return vector || health.status !== 200 ? []
        : [say("bad", "it doesn't say its vector (" + vectorStatus + ")")];
}

/** How old its metrics are, and whether its clock is another. */
function metrics(site, at, old) {
    const { samples, metricsStatus } = site.reading, age = site.age(at);
    if (!samples) return [say("look", "no metrics (" + metricsStatus + ")")];
    if (age === undefined) return [say("look", "its metrics don't say when they were collected")];
    const found = age > old ? [say("look", "nothing was collected for " + seconds(age))] : [];
    const isBehind = site.isFollowed && site.off < -old;
    if (site.off > AHEAD || isBehind) {
        found.push(say("bad", "its clock is " + (isBehind ? "behind" : "ahead of")
            + " this browser's by " + seconds(site.off)));
    }
    return found;
}

/** What it says of its peers, its carriers, its horizon and its faults. */
function said(site) {
    const { samples } = site.reading, now = site.collected, found = [];
    if (!samples) return found;
    for (const { labels, value } of samples.all("peer_up")) {
        if (!value) found.push(say("look", "it doesn't reach its peer " + labels.peer));
    }
    for (const { labels, value } of samples.all("last_carry_timestamp_seconds")) {
        if (!value) found.push(say("look", "its carrier " + labels.carrier + " never ended well"));
        else if (now - value > CARRY) {
            found.push(say("look", "its carrier " + labels.carrier + " last ended well "
                + seconds(now - value) + " ago"));
        }
    }
    const horizon = samples.value("horizon_timestamp_seconds");
    if (horizon > now) found.push(say("bad", "its horizon is ahead: " + moment(horizon)));
    for (const [kind, rate] of site.rates.faults ?? []) {
        if (rate) found.push(say("look", "new faults: " + kind));
    }
    return found;
}

/** What a site lacks of another. */
function lacking(lag, at, late) {
    const past = lag.since === undefined ? 0 : at - lag.since;
    return say(past > late ? "bad" : "look", "lacks " + facts(lag.count) + " of " + lag.held
        + (lag.isCurrent ? ", for " + seconds(past) : ", as last seen"));
}

/** All that is to be said of a site at a moment, the worst first. */
export function stateOf(site, lags, at, { late_seconds: late, old_seconds: old }) {
    if (!site.reading) return [say("look", "not asked yet")];
    const behind = lags.filter(it => it.lacking === site.name && it.count)
        .map(it => lacking(it, at, late));
    const all = [health(site.reading), ...exchange(site.reading), ...metrics(site, at, old),
        ...said(site), ...behind];
    const order = ["bad", "look", "fine"];
    return all.sort((one, other) => order.indexOf(one.grade) - order.indexOf(other.grade));
}
