// The image as a strip of sectors.

import {committed, isUsed, namesOf, structures} from "./image.mjs";
import {SECTOR} from "./machine.mjs";
import {classes, tag} from "./markup.mjs";

// The most cells, and units, that are drawn of one structure.
const MOST_CELLS = 3000, MOST_UNITS = 500;

/** The sectors that calls write. */
export function writtenBy(calls) {
    const found = new Set();
    for (const call of calls) {
        if (!call) continue;
        for (let at = 0; at < call.data.length; at += SECTOR) found.add((call.byte + at) / SECTOR);
    }
    return found;
}

/** A call in words. */
export function callInWords(call, name) {
    if (!call) return "sync: all writes before it are durable";
    const sector = call.byte / SECTOR, count = call.data.length / SECTOR, last = sector + count - 1;
    const where = [...new Set([name(sector), name(last)])].join(" to ");
    return `write ${count === 1 ? `sector ${sector}` : `sectors ${sector} to ${last}`}: ${where}`;
}

export class DiskView {
    constructor(app, find) {
        this.app = app;
        this.find = find;
    }

    /** The structures of the present image, which never move. */
    get parts() {
        if (this.of !== this.app.session) {
            this.of = this.app.session;
            this.structures = structures(this.app.session.storage.image);
            this.name = namesOf(this.structures);
        }
        return this.structures;
    }

    refresh() {
        const {storage, last} = this.app.session, {parts} = this, written = writtenBy(last?.calls ?? []), unsynced = new Set(storage.synced.keys());
        const header = committed(storage.image);
        const {slot, sequence, generation, age, entries} = header ?? {};
        this.find("header").textContent = `${storage.image.length / SECTOR} sectors of ${SECTOR} bytes. ` + (header
            ? `Header ${slot} counts: sequence number ${sequence}, generation ${generation}, age ${age}, ${entries} objects in the log.` : "");
        const strip = this.find("strip");
        strip.innerHTML = parts.map((it) => this.part(it, written, unsynced)).join("");
        strip.setAttribute("role", "img");
        const list = (sectors) => [...new Set([...sectors].map(this.name))].join(", ") || "nothing";
        strip.setAttribute("aria-label", `The sectors of the image. Written by the last line: ${list(written)}. Not synced: ${list(unsynced)}.`);
    }

    part({kind, name, units}, written, unsynced) {
        const each = units[0].count * units.length <= MOST_CELLS, {image} = this.app.session.storage, states = (unit) => {
            const sectors = Array.from({length: unit.count}, (_, it) => unit.first + it);
            const all = sectors.map((it) => (unsynced.has(it) ? "unsynced" : written.has(it) ? "written" : isUsed(image, it) ? "used" : ""));
            return each ? all : [["unsynced", "written", "used", ""].find((it) => all.includes(it))];
        };
        let shown = units.map((unit) => ({unit, cells: states(unit)}));
        if (shown.length > MOST_UNITS) shown = shown.filter(({cells}) => cells.some(Boolean)).slice(0, MOST_UNITS);
        const more = units.length - shown.length, rest = more ? tag("span", {class: "muted"}, more, " more") : "";
        return tag("div", {class: `part ${kind}`}, tag("h3", {}, name), tag("div", {class: "units"}, ...shown.map((it) => this.unit(it)), rest));
    }

    unit({unit, cells}) {
        const isWritten = cells.some((it) => it === "written" || it === "unsynced");
        const {name, short, first, count} = unit, title = `${name}: ${count === 1 ? `sector ${first}` : `sectors ${first} to ${first + count - 1}`}`;
        const drawn = cells.map((it) => tag("i", {class: it}));
        return tag("span", {class: classes({unit: true, written: isWritten}), title}, short && tag("b", {}, short), ...drawn);
    }
}
