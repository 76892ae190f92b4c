// The script: its lines with their answers, and the buttons that run them.

import {classes, escaped, tag} from "./markup.mjs";
import {placeOf} from "./power.mjs";

const LONGEST = 256;
const CARRIED_OUT = /^(done|value|left|frozen|committed|journaled|at|free|page|node|process|annex|bank) ?/;

export function linesOf(text) {
    const lines = text.split("\n");
    return lines.at(-1) === "" ? lines.slice(0, -1) : lines;
}

/** Whether a line is empty or a comment. */
export function isSkipped(line) {
    return line === "" || line.startsWith("#") && new TextEncoder().encode(line).length <= LONGEST;
}

/** The first row from `row` on that has a command, or the number of lines. */
export function nextRow(lines, row) {
    while (row < lines.length && isSkipped(lines[row])) row++;
    return row;
}

export class ScriptView {
    constructor(app, find) {
        this.app = app;
        this.rows = find("rows");
        this.edit = find("edit");
        this.change = find("change");
        this.said = find("said");
        for (const it of ["back", "step", "run", "reset"]) find(it).onclick = () => this.act(() => app[it]());
        this.buttons = {back: find("back"), step: find("step"), run: find("run")};
        this.change.onclick = () => this.setEditing(this.edit.hidden);
        find("own").onsubmit = (event) => {
            event.preventDefault();
            this.act(() => app.runOwn(find("line").value));
            find("line").select();
        };
        const keys = {ArrowDown: "step", ArrowUp: "back", End: "run", Home: "reset"};
        this.rows.onkeydown = (event) => {
            if (!(event.key in keys) || event.ctrlKey || event.altKey || event.metaKey) return;
            event.preventDefault();
            app[keys[event.key]]();
        };
    }

    act(what) {
        this.setEditing(false);
        what();
    }

    /** Shows the script as a text to be edited, or as lines. */
    setEditing(editing) {
        if (editing === !this.edit.hidden) return;
        if (editing) this.edit.value = this.app.lines.join("\n");
        else this.app.setScript(this.edit.value);
        this.edit.hidden = !editing;
        this.rows.hidden = editing;
        this.change.textContent = editing ? "Done" : "Edit";
        this.change.setAttribute("aria-pressed", editing);
        if (editing) this.edit.focus();
    }

    refresh() {
        const {lines, session} = this.app, next = nextRow(lines, session.next), answers = new Map(), cuts = new Map();
        session.events.forEach((it, at) => {
            if (it.text !== undefined) answers.set(it.row, it.answer);
            else if (at > 0) cuts.set(it.next, [...(cuts.get(it.next) ?? []), it.opened]);
        });
        const cut = (row) => (cuts.get(row) ?? []).map((it) => tag("li", {class: "cut"}, `The power was cut. The image opened at ${placeOf(it)}.`)).join("");
        this.rows.innerHTML = lines.map((line, row) => cut(row) + this.row(line, row, row === next, answers.get(row))).join("") + cut(lines.length);
        this.rows.querySelector(".next")?.scrollIntoView({block: "nearest"});
        if (next >= lines.length) this.rows.scrollTop = this.rows.scrollHeight;
        this.buttons.step.disabled = this.buttons.run.disabled = next >= lines.length;
        this.buttons.back.disabled = session.events.length < 2;
        this.said.textContent = session.last ? `${session.last.text}: ${session.last.answer.trim() || "no answer"}` : "";
    }

    row(line, row, isNext, answer) {
        const refused = !CARRIED_OUT.test(answer), said = answer ? tag("pre", {class: classes({answer: true, refused})}, escaped(answer.trimEnd())) : "";
        return tag("li", {class: classes({next: isNext}), "aria-current": isNext && "step"}, tag("span", {class: "number code"}, isNext ? "▶" : row + 1),
            tag("pre", {class: classes({line: true, comment: isSkipped(line)})}, escaped(line) || " "), said);
    }
}
