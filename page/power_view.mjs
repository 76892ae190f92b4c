// A power cut after any device call of the last line, and what opens then.

import {callInWords} from "./disk_view.mjs";
import {classes, escaped, tag} from "./markup.mjs";
import {OUTCOMES, afterCalls, chanceOf, judged, leftBy, placeOf, savedIn} from "./power.mjs";

const MOST_OBJECTS = 12, MOST_LINES = 8;

export class PowerView {
    constructor(app, find) {
        this.app = app;
        this.find = find;
        this.outcomes = new Map();
        this.seed = 0;
        find("after").oninput = () => this.show();
        find("cut").onclick = () => app.cut(this.left, this.judgement.opened);
        const buttons = [...OUTCOMES.map((it) => [`All ${it.name}`, () => it.name]), ["By chance", this.byChance()]];
        find("outcomes").replaceChildren(...buttons.map(([text, choose]) => {
            const made = document.createElement("button");
            made.textContent = text;
            made.onclick = () => this.setAll(choose);
            return made;
        }));
        find("sectors").onclick = (event) => event.target.dataset.sector && this.turn(Number(event.target.dataset.sector));
    }

    byChance() {
        return (sector) => OUTCOMES[chanceOf(1000 * this.seed + sector)() % OUTCOMES.length].name;
    }

    setAll(choose) {
        this.seed++;
        for (const it of this.storage.synced.keys()) this.outcomes.set(it, choose(it));
        this.show();
    }

    /** Gives a sector its next outcome. */
    turn(sector) {
        const at = OUTCOMES.findIndex((it) => it.name === (this.outcomes.get(sector) ?? "kept"));
        this.outcomes.set(sector, OUTCOMES[(at + 1) % OUTCOMES.length].name);
        this.show();
        this.find("sectors").querySelector(`[data-sector="${sector}"]`)?.focus();
    }

    refresh() {
        const {kernel, session} = this.app, {last} = session, count = last?.calls.length ?? 0, slider = this.find("after");
        this.old = savedIn(kernel, session.before.image);
        this.now = count ? savedIn(kernel, session.storage.image) : this.old;
        slider.max = slider.value = count;
        slider.disabled = !count;
        this.outcomes.clear();
        const calls = count === 1 ? "1 device call" : `${count} device calls`;
        this.find("calls-title").textContent = last ? `“${last.text}” made ${calls}.` : "No line was run yet.";
        this.show();
    }

    /** Shows what a cut at the chosen call would leave. */
    show() {
        const {session, kernel} = this.app, calls = session.last?.calls ?? [], first = Number(this.find("after").value);
        this.storage = afterCalls(session.before, calls, first);
        this.left = leftBy(this.storage, this.outcomes);
        this.judgement = judged(kernel, this.left, this.old, this.now);
        this.find("count").textContent = `${first} of ${calls.length}`;
        const {name} = this.app.disk, item = (it, at) => tag("li", {class: classes({lost: at >= first, here: at === first})}, escaped(callInWords(it, name)));
        this.find("calls").innerHTML = calls.map(item).join("");
        this.showSectors();
        this.showVerdict();
        this.app.lesson?.note(this.judgement, first, calls.length);
    }

    showSectors() {
        const sectors = [...this.storage.synced.keys()].sort((a, b) => a - b), {name} = this.app.disk;
        this.find("loose").textContent = sectors.length
            ? `Not synced: ${sectors.length === 1 ? "1 sector" : `${sectors.length} sectors`}. Choose what becomes of each: a click goes on from kept to lost, half and noise.`
            : "All writes were synced, so a cut loses none.";
        this.find("outcomes").hidden = !sectors.length;
        this.find("sectors").innerHTML = sectors.map((it) => {
            const outcome = OUTCOMES.find((one) => one.name === (this.outcomes.get(it) ?? "kept"));
            const said = `sector ${it}, ${name(it)}: ${outcome.name}, it ${outcome.says}`;
            return tag("button", {class: outcome.name, "data-sector": it, title: name(it), "aria-label": said}, it, " ", outcome.mark);
        }).join("");
    }

    showVerdict() {
        const {opened, is} = this.judgement, verdict = this.find("verdict"), at = opened.refused ? "" : `It opens at ${placeOf(opened)}: `;
        const said = {
            old: "the state that was saved before this line.", new: "the state that this line saves.",
            both: "the saved state. This line doesn't change it.", neither: "neither the state saved before this line nor the one that it saves.",
        };
        verdict.textContent = opened.refused ? `It doesn't open: ${opened.refused}.` : at + said[is];
        verdict.className = `verdict ${is === "neither" ? "bad" : "good"}`;
        this.find("cut").disabled = Boolean(opened.refused);
        this.find("compared").innerHTML = opened.refused ? "" : this.table();
    }

    /** The objects that differ between the saved states, what opens, and what is in memory. */
    table() {
        const {opened, old, now, is} = this.judgement, memory = {at: null, objects: this.app.session.objects};
        const columns = [["Saved before", old], ...(is === "both" ? [] : [["Saved by the line", now]]), ["Opens", opened], ["In memory now", memory]];
        const text = (it, number) => it.objects.get(number)?.text ?? "free", numbers = new Set(columns.flatMap(([, it]) => [...it.objects.keys()]));
        const differing = [...numbers].sort((a, b) => a - b).filter((it) => new Set(columns.map(([, state]) => text(state, it))).size > 1);
        if (!differing.length) return "";
        const cut = (it) => (it.split("\n").length > MOST_LINES ? [...it.split("\n").slice(0, MOST_LINES), "…"].join("\n") : it);
        const same = (state, number) => text(state, number) === text(opened, number);
        const cell = (state, number) => tag("td", {class: classes({same: same(state, number)})}, tag("pre", {}, escaped(cut(text(state, number)))));
        const row = (number) => tag("tr", {}, ...columns.map(([, it]) => cell(it, number)));
        const head = tag("thead", {}, tag("tr", {}, ...columns.map(([name]) => tag("th", {scope: "col"}, name))));
        const body = tag("tbody", {}, ...differing.slice(0, MOST_OBJECTS).map(row)), left = differing.length - MOST_OBJECTS;
        return tag("div", {class: "scroll"}, tag("table", {}, tag("caption", {class: "hidden"}, "Objects that differ"), head, body))
            + (left > 0 ? tag("p", {class: "muted"}, `${left} more objects differ.`) : "");
    }
}
