// Vectors of regions, as docs/FORMATS.md has them: to each region the serial up to which its facts
// are known.

const HEAD = 6, ENTRY = 10;

/** Reads the bytes of a vector. Throws an Error if they are none. */
export function readVector(buffer) {
    const view = new DataView(buffer);
    const isWhole = view.byteLength >= HEAD && view.getUint32(0) === 0x4f545631 // OTV1
        && view.byteLength === HEAD + ENTRY * view.getUint16(4);
    if (!isWhole) throw new Error("no vector");
    const vector = new Map();
    for (let at = HEAD; at < view.byteLength; at += ENTRY) {
        vector.set(view.getUint16(at), view.getBigUint64(at + 2));
    }
    return vector;
}

/** How many facts one vector covers beyond another. */
export function beyond(one, other) {
    let count = 0n;
    for (const [region, serial] of one) {
        const known = other.get(region) ?? 0n;
        if (serial > known) count += serial - known;
    }
    return Number(count);
}

/** How many facts a vector covers. */
export const size = vector => beyond(vector, new Map());
