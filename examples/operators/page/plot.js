// Plots over time, as pictures that a text says too.

import { draw, make } from "./dom.js";

const WIDTH = 300, HEIGHT = 90;

/** The pieces of a line between gaps, as points of the picture. */
function pieces(points, at, keep, most) {
    const found = [[]];
    for (const it of points) {
        if (it.value === undefined) found.push([]);
        else {
            const x = WIDTH * (1 - (at - it.at) / keep), y = HEIGHT * (1 - it.value / most);
            found.at(-1).push(x.toFixed(1) + "," + y.toFixed(1));
        }
    }
    // a value alone is seen as a dash
    return found.filter(it => it.length).map(it => it.length > 1 ? it : [it[0], ...it]);
}

const known = points => points.map(it => it.value).filter(it => it !== undefined);

/** What a line is now, and what it was at most. */
function words({ label, points }, form) {
    const values = known(points), last = points.at(-1)?.value;
    if (!values.length) return label + ": nothing yet";
    return label + ": " + (last === undefined ? "unknown now" : form(last))
        + ", at most " + form(Math.max(...values));
}

function sample(n) {
    return draw("svg", { class: "key", viewBox: "0 0 22 8", "aria-hidden": "true" },
        draw("polyline", { class: "line" + n % 4, points: "0,4 22,4" }));
}

/**
 * Returns a plot of lines up to a moment, which begins `keep` seconds before it. It reaches from 0
 * to the greatest value of the lines. Lines differ by their dashes, not by colour alone.
 */
export function plot(title, lines, at, keep, form) {
    if (!lines.length) return make("figure", {}, make("figcaption", {}, title + ": not known"));
    const most = Math.max(...lines.flatMap(it => known(it.points)), 0) || 1;
    const texts = lines.map(it => words(it, form));
    const picture = draw("svg", { viewBox: `0 -4 ${WIDTH} ${HEIGHT + 8}`, role: "img",
        preserveAspectRatio: "none", "aria-label": title + ". " + texts.join("; ") });
    lines.forEach((line, n) => {
        for (const it of pieces(line.points, at, keep, most)) {
            picture.append(draw("polyline", { class: "line" + n % 4, points: it.join(" ") }));
        }
    });
    return make("figure", {}, make("figcaption", {}, make("b", {}, title),
        ...texts.flatMap((it, n) => [make("br"), sample(n), " " + it])), picture);
}
