// Where the structures of an image lie: docs/FORMAT.md in JavaScript.

import {SECTOR} from "./machine.mjs";

const SLOT = 9, PAGE = 9, NODE = 2, CLUSTER = 8, IN_CLUSTER = 5, IN_SECTOR = 32;

function numberAt(image, byte) {
    return Number(new DataView(image.buffer, image.byteOffset).getBigUint64(byte, true));
}

/** The sizes and places in the superblock. */
export function geometry(image) {
    const view = new DataView(image.buffer, image.byteOffset);
    const ranges = Array.from({length: view.getUint32(12, true)}, (_, it) => {
        const [first, count, sector] = [0, 8, 16].map((byte) => numberAt(image, 64 + 24 * it + byte));
        return {first, count, sector};
    });
    return {
        version: view.getUint32(8, true), nodes: numberAt(image, 16), pages: numberAt(image, 24), log: numberAt(image, 32),
        halves: [numberAt(image, 40), numberAt(image, 48)], total: numberAt(image, 56), ranges,
    };
}

/** The units of a home range: the frames of one object, or of a cluster of nodes. */
function homesOf(range, {version, nodes}) {
    const isNodes = range.first < nodes, clustered = isNodes && version === 2;
    const size = isNodes ? (clustered ? CLUSTER : NODE) : PAGE, each = clustered ? IN_CLUSTER : 1, units = [];
    for (let at = 0; at < range.count; at += each) {
        const first = range.first + at, last = Math.min(range.first + range.count, first + each) - 1;
        const who = first === last ? `${isNodes ? "node" : "page"} ${first}` : `nodes ${first} to ${last}`;
        units.push({name: `home of ${who}`, short: first === last ? `${first}` : `${first}-${last}`, first: range.sector + (at / each) * size, count: size});
    }
    const kind = isNodes ? "nodes" : "pages";
    return {kind: "home", name: `Homes of ${kind} ${range.first} to ${range.first + range.count - 1}`, units};
}

function half(number, {halves, log}) {
    const first = halves[number];
    const units = Array.from({length: log}, (_, it) => ({name: `log half ${number}, slot ${it}`, short: `${it}`, first: first + SLOT * it, count: SLOT}));
    const entries = Math.floor((log + IN_SECTOR - 1) / IN_SECTOR);
    units.push({name: `log half ${number}, directory`, short: "directory", first: first + SLOT * log, count: entries});
    return {kind: "log", name: `Log half ${number}`, units};
}

/** The structures of an image in the order of their sectors: {kind, name, units}. A unit is {name, short, first, count}. */
export function structures(image) {
    const sizes = geometry(image), unit = (name, short, first) => ({name, short, first, count: 1});
    const headers = [0, 1].map((it) => ({kind: "header", name: `Header ${it}`, units: [
        unit(`header slot ${it}`, "header", 1 + 2 * it), unit(`gate of header slot ${it}`, "gate", 2 + 2 * it)]}));
    const rest = [...sizes.ranges.map((it) => homesOf(it, sizes)), half(0, sizes), half(1, sizes)];
    rest.sort((a, b) => a.units[0].first - b.units[0].first);
    return [{kind: "superblock", name: "Superblock", units: [unit("superblock", "", 0)]}, ...headers, ...rest];
}

/** A function from a sector to the name of its unit. */
export function namesOf(parts) {
    const units = parts.flatMap((it) => it.units).sort((a, b) => a.first - b.first);
    return (sector) => {
        let low = 0, high = units.length;
        while (high - low > 1) {
            const middle = (low + high) >> 1;
            if (units[middle].first <= sector) low = middle;
            else high = middle;
        }
        const unit = units[low];
        return sector < unit.first + unit.count ? unit.name : "no structure";
    };
}

/** The committed header: {slot, sequence, generation, entries, age}, or null. */
export function committed(image) {
    const found = [0, 1].filter((it) => image[(2 + 2 * it) * SECTOR] === 1).map((slot) => {
        const [sequence, generation, entries, age] = [8, 16, 24, 32].map((byte) => numberAt(image, (1 + 2 * slot) * SECTOR + byte));
        return {slot, sequence, generation, entries, age};
    }).filter((it) => it.sequence % 2 === it.slot);
    return found.sort((a, b) => b.sequence - a.sequence)[0] ?? null;
}

/** Whether a sector has a byte that isn't zero. */
export function isUsed(image, sector) {
    return image.subarray(sector * SECTOR, (sector + 1) * SECTOR).some((it) => it !== 0);
}
