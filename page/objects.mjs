// The objects of a machine, as `show` prints them.

const NAMING = new Set(["page", "node", "space", "process", "start", "resume", "bank"]);
const PLACES = {register: "r", slot: "s", word: "w"};

/** How many numbers an image has. */
export function countOf(image) {
    const view = new DataView(image.buffer, image.byteOffset);
    return Number(view.getBigUint64(16, true) + view.getBigUint64(24, true));
}

/** The lines that show all objects of an image. */
export function showAll(image) {
    return Array.from({length: countOf(image)}, (_, number) => `show ${number}\n`).join("");
}

/** A capability: its text, and the number that it names or null. */
function readCapability(text) {
    const [kind, number] = text.split(" ");
    const access = text.endsWith(" weak") ? "weak" : text.endsWith(" ro") ? "ro" : "full";
    return {text, kind, access, names: NAMING.has(kind) ? Number(number) : null};
}

function readRow(line) {
    const [, place, index, rest] = /^(\w+) (\d+) (.*)$/.exec(line);
    const row = {key: `${place} ${index}`, label: PLACES[place] + index, text: rest, capability: null};
    if (place !== "word") row.capability = readCapability(rest);
    return row;
}

function readObject(lines) {
    const [, kind, number, owner] = /^(\w+) (\d+) owner (\d+)/.exec(lines[0]);
    const object = {kind, number: Number(number), owner: Number(owner), first: lines[0], rows: lines.slice(1).map(readRow), text: lines.join("\n")};
    if (kind === "process") {
        const [, annex, state, key, words, space] = /annex (\d+) (\w+) key (\d+) words (.*) space (.*)$/.exec(lines[0]);
        Object.assign(object, {annex: Number(annex), state});
        if (space !== "void") object.rows.unshift({key: "space", label: "space", text: space, capability: readCapability(space)});
        if (words !== "0 0 0 0") object.rows.unshift({key: "words", label: "words", text: words, capability: null});
        object.rows.unshift({key: "state", label: state, text: key === "0" ? "" : `key ${key}`, capability: null});
    }
    if (kind === "bank") {
        const [, limit, used] = /limit (\d+) used (\d+)/.exec(lines[0]);
        Object.assign(object, {limit, used});
    }
    return object;
}

/** The objects in the answers to `show`, by number. Free numbers are left out. */
export function readObjects(text) {
    const found = new Map();
    let lines = [];
    for (const line of text.split("\n")) {
        if (line !== "end") {
            lines.push(line);
            continue;
        }
        if (!lines[0].startsWith("free ")) {
            const object = readObject(lines);
            found.set(object.number, object);
        }
        lines = [];
    }
    return found;
}

/** The numbers whose object differs, or is in one of these maps alone. */
export function changedNumbers(before, now) {
    const all = [...new Set([...before.keys(), ...now.keys()])].sort((a, b) => a - b);
    return new Set(all.filter((it) => before.get(it)?.text !== now.get(it)?.text));
}

/** The keys of an object's rows that it did not have before with this text. */
export function changedRows(before, now) {
    const old = new Map((before?.rows ?? []).map((it) => [it.key, it.text]));
    return new Set(now.rows.filter((it) => old.get(it.key) !== it.text).map((it) => it.key));
}

/** An object in a few words. */
export function titleOf(object) {
    return `${object.kind} ${object.number}`;
}
