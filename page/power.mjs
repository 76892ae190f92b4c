// What a loss of power leaves of a storage, and what opens then.

import {SECTOR} from "./machine.mjs";
import {readObjects, showAll} from "./objects.mjs";

/** What may become of a sector that was written since the last sync. */
export const OUTCOMES = [
    {name: "kept", mark: "✓", says: "has the new bytes"},
    {name: "lost", mark: "✗", says: "has the bytes of the last sync"},
    {name: "half", mark: "½", says: "has new bytes in its first half alone"},
    {name: "noise", mark: "?", says: "has random bytes"},
];

/** Random numbers below 2^32 that a seed fixes (xorshift). */
export function chanceOf(seed) {
    let state = (seed * 2654435761 + 1) >>> 0 || 1;
    return () => {
        state ^= state << 13;
        state >>>= 0;
        state ^= state >>> 17;
        state ^= state << 5;
        state >>>= 0;
        return state;
    };
}

function torn(old, now, outcome, sector) {
    if (outcome === "kept") return now;
    if (outcome === "lost") return old;
    const made = old.slice(), chance = chanceOf(sector);
    if (outcome === "half") made.set(now.subarray(0, SECTOR / 2));
    else made.forEach((_, at) => (made[at] = chance()));
    return made;
}

/** The storage after the first calls of a line. */
export function afterCalls(before, calls, first) {
    return before.copy().carryOut(calls.slice(0, first));
}

/** The image that a power cut leaves, with an outcome for each sector; one that isn't named is kept. */
export function leftBy(storage, outcomes) {
    const left = storage.image.slice();
    for (const [sector, old] of storage.synced) {
        const now = storage.image.slice(sector * SECTOR, (sector + 1) * SECTOR);
        left.set(torn(old, now, outcomes.get(sector) ?? "kept", sector), sector * SECTOR);
    }
    return left;
}

/** What an image saves: {at, objects, text}, or {refused} with the reason. */
export function savedIn(kernel, image) {
    let machine;
    try {
        machine = kernel.open(image);
    } catch (error) {
        return {refused: error.message};
    }
    const at = machine.step("restart\n").trim(), text = machine.step(showAll(image));
    machine.close();
    return {at, objects: readObjects(text), text: `${at}\n${text}`};
}

/** The generation and age of a saved state, in words. */
export function placeOf(saved) {
    const [, generation, age] = saved.at.split(" ");
    return `generation ${generation}, age ${age}`;
}

/** Which of two saved states opens in an image: {opened, old, now, is} with `is` one of "old", "new", "both" and "neither". */
export function judged(kernel, image, old, now) {
    const opened = savedIn(kernel, image), [isOld, isNew] = [old, now].map((it) => !opened.refused && it.text === opened.text);
    return {opened, old, now, is: isOld && isNew ? "both" : isOld ? "old" : isNew ? "new" : "neither"};
}
