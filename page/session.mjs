// A machine, its storage, and what happened to them so far, so that one can go back.

import {Storage} from "./machine.mjs";
import {readObjects, showAll} from "./objects.mjs";

export class Session {
    /** Opens an image. */
    constructor(kernel, image) {
        this.kernel = kernel;
        // Each event is an opening {image, next} or a line {text, row, answer, calls}. The first is an opening.
        this.events = [];
        this.next = 0;
        this.open(image);
    }

    /** Closes the machine, and opens another image in its place: what a power cut left, which opens at this saved state. */
    open(image, state = null) {
        const opened = this.kernel.open(image);
        this.machine?.close();
        this.machine = opened;
        this.events.push({image: image.slice(), next: this.next, opened: state});
        this.storage = new Storage(image).carryOut(opened.calls());
        this.before = this.storage.copy();
        this.last = null;
        this.seen = this.objects = new Map();
        this.look();
        this.seen = this.objects;
    }

    /** Runs a line of the script, which stands in this row. Then `look` reads what it changed. */
    step(text, row) {
        this.before = this.storage.copy();
        const answer = this.machine.step(`${text}\n`), calls = this.machine.calls();
        this.storage.carryOut(calls);
        this.last = {text, row, answer, calls};
        this.events.push(this.last);
        this.next = row + 1;
        return this.last;
    }

    /** Reads the objects again. `seen` is what they were when they were read before. */
    look() {
        const text = this.machine.step(showAll(this.storage.image));
        this.seen = this.objects;
        // A machine that is down shows nothing.
        this.isDown = text.startsWith("down\n");
        if (!this.isDown) this.objects = readObjects(text);
    }

    /** Undoes the last line or power cut. Returns whether there was one. */
    back() {
        if (this.events.length < 2) return false;
        const events = this.events.slice(0, -1), begin = events.findLastIndex((it) => it.image), lines = events.slice(begin + 1);
        this.events = events.slice(0, begin);
        this.next = events[begin].next;
        this.open(events[begin].image, events[begin].opened);
        lines.forEach((it, at) => {
            if (at === lines.length - 1) this.look();
            this.step(it.text, it.row);
        });
        if (lines.length) this.look();
        return true;
    }

    /** An image that saves the present objects: that of a second machine, which runs the same lines and then a checkpoint. */
    saved() {
        const begin = this.events.findLastIndex((it) => it.image), machine = this.kernel.open(this.events[begin].image);
        const storage = new Storage(this.events[begin].image);
        const lines = this.events.slice(begin + 1).map((it) => it.text);
        const all = 1e6, checkpoint = [`stabilize ${all}`, "commit", `migrate ${all}`, "checkpoint", `stabilize ${all}`, "commit"];
        machine.step([...lines, ...checkpoint, ""].join("\n"));
        storage.carryOut(machine.calls());
        machine.close();
        return storage.image;
    }
}
