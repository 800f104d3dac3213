// What a site says: its health and its vector, by its region, and the file of its metrics.

import { Samples } from "./text.js";
import { readVector } from "./vector.js";

const PATIENCE = 8000; // milliseconds; nginx gives up before that

/** Status and body of a reply, as bytes or as text; status 0 if there is no reply. */
export async function ask(path, form = "text") {
    try {
        const reply = await fetch(path, { cache: "no-store", redirect: "error",
            signal: AbortSignal.timeout(PATIENCE) });
        return { status: reply.status, body: await reply[form]() };
    } catch {
        return { status: 0, body: "" };
    }
}

/** The `status` or `error` of a body of /health, or an empty text. */
function wordOf(body) {
    try {
        const said = JSON.parse(body);
        return String(said.status ?? said.error ?? "");
    } catch {
        return "";
    }
}

/** The vector of a reply, or undefined. */
function vectorOf({ status, body }) {
    try {
        return status === 200 ? readVector(body) : undefined;
    } catch {
        return undefined;
    }
}

/**
 * Asks a site. Of what it doesn't say the status of the reply is kept: `samples` and `vector` are
 * then undefined. `at` is when it was asked, in seconds.
 */
export async function read(site) {
    const at = Date.now() / 1000, path = "sites/" + encodeURIComponent(site) + "/";
    const [health, vector, metrics] = await Promise.all([
        ask(path + "health"), ask(path + "vector", "arrayBuffer"), ask(path + "metrics")]);
    return {
        site, at,
        health: { status: health.status, word: wordOf(health.body) },
        vectorStatus: vector.status, vector: vectorOf(vector),
        metricsStatus: metrics.status,
        samples: metrics.status === 200 ? new Samples(metrics.body) : undefined,
    };
}
