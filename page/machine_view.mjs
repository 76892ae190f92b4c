// The picture of the machine, the content of one object, and what a process can reach.

import {layOut} from "./layout.mjs";
import {changedNumbers, titleOf} from "./objects.mjs";
import {draw} from "./picture.mjs";

// The most boxes of a picture. Those that changed are drawn in any case.
const MOST = 160;

/** The objects that are drawn, and the banks that own them. */
function drawn(objects, wanted) {
    const boxes = [...objects.values()].filter((it) => it.kind !== "annex");
    if (boxes.length <= MOST) return objects;
    const found = new Map();
    const add = (it) => {
        if (!it || found.has(it.number)) return;
        found.set(it.number, it);
        add(objects.get(it.owner));
    };
    boxes.forEach((it, at) => (at < MOST || wanted.has(it.number)) && add(it));
    return found;
}

export class MachineView {
    constructor(app, find) {
        this.app = app;
        this.find = find;
        this.selected = this.process = this.reached = null;
        const picture = find("picture"), box = (event) => event.target.closest?.("g.object");
        picture.onclick = (event) => box(event) && this.select(Number(box(event).dataset.number));
        picture.onkeydown = (event) => {
            if (!box(event) || event.key !== "Enter" && event.key !== " ") return;
            event.preventDefault();
            this.select(Number(box(event).dataset.number));
        };
        for (const it of ["mouseover", "focusin"]) picture.addEventListener(it, (event) => this.light(box(event)));
        for (const it of ["mouseleave", "focusout"]) picture.addEventListener(it, () => this.light(null));
        find("reach").onclick = () => this.markReach();
        find("close").onclick = () => this.close();
        find("fit").onclick = () => find("fit").setAttribute("aria-pressed", picture.classList.toggle("fit"));
    }

    /** Makes the arrows from and to a box stand out. */
    light(box) {
        const number = box?.dataset.number, svg = this.find("picture").querySelector("svg");
        if (!svg) return;
        let any = false;
        for (const it of svg.querySelectorAll(".net")) {
            const lit = number !== undefined && (it.dataset.to === number || it.dataset.from.split(" ").includes(number));
            it.classList.toggle("lit", lit);
            any ||= lit;
        }
        svg.classList.toggle("focusing", any);
    }

    select(number) {
        this.selected = number;
        this.refresh();
        this.find("picture").querySelector(`g.object[data-number="${number}"]`)?.focus();
    }

    close() {
        this.selected = null;
        this.forget();
        this.refresh();
    }

    /** Forgets the reach, which a line may change. */
    forget() {
        this.process = this.reached = null;
    }

    async markReach() {
        if (this.reached) {
            this.forget();
        } else {
            const {session} = this.app, {last} = session, process = this.selected;
            const reached = await this.app.program.reach(session.saved(), process);
            // A line that was run meanwhile may have changed it.
            if (this.app.session !== session || session.last !== last) return;
            [this.process, this.reached] = [process, reached];
        }
        this.app.refresh();
    }

    refresh() {
        const {session} = this.app, {objects, seen} = session, changed = session.last ? changedNumbers(seen, objects) : new Set();
        const shown = drawn(objects, new Set([...changed, this.selected])), layout = layOut(shown);
        this.layout = layout;
        this.find("picture").innerHTML = draw(layout, {changed, before: seen, reached: this.reached, selected: this.selected});
        const left = [...objects.values()].filter((it) => it.kind !== "annex").length - layout.boxes.length;
        const notes = [session.isDown && "The machine is down; this is what it was before.", left && `${left} more objects aren't drawn.`];
        this.find("now").textContent = notes.filter(Boolean).join(" ");
        this.find("changes").textContent = this.changes(changed);
        this.find("words").textContent = [...objects.values()].map((it) => (changed.has(it.number) ? `(changed) ${it.text}` : it.text)).join("\n\n");
        this.showObject(changed);
    }

    /** What the last line changed, in words. */
    changes(changed) {
        const {objects, seen} = this.app.session, list = (numbers, from) => numbers.map((it) => titleOf(from.get(it))).join(", ");
        const all = [...changed].filter((it) => (objects.get(it) ?? seen.get(it)).kind !== "annex");
        const made = all.filter((it) => !seen.has(it)), freed = all.filter((it) => !objects.has(it));
        const rest = all.filter((it) => seen.has(it) && objects.has(it));
        const parts = [["Changed", rest, objects], ["New", made, objects], ["Freed", freed, seen]];
        const said = parts.filter(([, numbers]) => numbers.length).map(([what, numbers, from]) => `${what}: ${list(numbers, from)}.`);
        return said.join(" ") || "The last line changed no object.";
    }

    showObject() {
        const {objects, seen} = this.app.session, it = objects.get(this.selected), panel = this.find("object");
        panel.hidden = this.selected === null;
        if (panel.hidden) return;
        this.find("object-title").textContent = it ? titleOf(it) : `number ${this.selected}`;
        const old = new Set((seen.get(this.selected)?.text ?? "").split("\n")), isNew = (line) => this.app.session.last && !old.has(line);
        const content = this.find("content");
        content.replaceChildren(...(it?.text ?? "free").split("\n").map((line) => {
            const made = document.createElement("div");
            made.textContent = isNew(line) ? `✱ ${line}` : line;
            made.className = isNew(line) ? "changed-line" : "";
            return made;
        }));
        const reach = this.find("reach");
        reach.hidden = it?.kind !== "process";
        reach.textContent = this.reached ? "Remove the marks" : `Mark what process ${this.selected} can ever change`;
        this.find("reached").textContent = this.reached ? this.reachInWords() : "";
    }

    reachInWords() {
        const {objects} = this.app.session, members = [...this.reached].map((it) => objects.get(it)).filter((it) => it && it.kind !== "annex");
        return `Process ${this.process} can change ${members.map(titleOf).join(", ")}, and what it makes. It can change no other object.`;
    }
}
