// The description of the world, edited in place, and what is wrong with it.

const PAUSE = 250;
const HEAD = /^\[\[(\w+)\]\]/;

function ends(lines, from) {
    const next = lines.findIndex((it, at) => at > from && it.startsWith("["));
    return next < 0 ? lines.length : next;
}

/** The lines of the table that a fault names: by its place among its kind, or by its number. */
function tableOf(lines, [, kind, place, number]) {
    const heads = lines.flatMap((it, at) => (HEAD.exec(it)?.[1] === kind ? [at] : []));
    if (place !== undefined) return heads[Number(place)];
    const key = kind === "process" ? "root" : "number", own = new RegExp(`^\\s*${key}\\s*=\\s*${number}\\b`);
    return heads.find((it) => lines.slice(it, ends(lines, it)).some((line) => own.test(line)));
}

function lineWith(lines, key, from, to) {
    return lines.findIndex((it, at) => at >= from && at < to && new RegExp(`^\\s*(\\[\\[)?${key}\\b`).test(it));
}

/** The line, from 0, that a line of `explain` names, or null. */
export function lineOf(description, fault) {
    const lines = description.split("\n"), byNumber = /^line (\d+),/.exec(fault);
    if (byNumber) return Number(byNumber[1]) - 1;
    const table = /^(bank|process|node|page)(?:\[(\d+)\]| (\d+))/.exec(fault), rest = table ? fault.slice(table[0].length) : fault;
    const key = /(?:^|, )(?:key "(\w+)"|(\w+))/.exec(rest.split(":")[0])?.slice(1).find(Boolean);
    const from = table ? tableOf(lines, table) : 0;
    if (from === undefined) return null;
    const at = key ? lineWith(lines, key, from, table ? ends(lines, from) : lines.length) : -1;
    return at >= 0 ? at : table ? from : null;
}

export class DescriptionView {
    constructor(app, find) {
        this.app = app;
        this.find = find;
        this.text = find("description");
        this.text.oninput = () => {
            this.number();
            clearTimeout(this.timer);
            this.timer = setTimeout(() => this.explain(), PAUSE);
        };
        this.text.onscroll = () => (find("numbers").scrollTop = this.text.scrollTop);
        find("build").onclick = () => this.build();
        find("find").onclick = () => this.go();
    }

    set(description) {
        this.text.value = description;
        this.say("");
    }

    /** Numbers the lines, and marks the wrong one. */
    number() {
        const count = this.text.value.split("\n").length;
        this.find("numbers").replaceChildren(...Array.from({length: count}, (_, it) => {
            const made = document.createElement("div");
            made.textContent = `${it === this.wrong ? "▶" : ""}${it + 1}`;
            made.className = it === this.wrong ? "wrong" : "";
            return made;
        }));
        this.find("numbers").scrollTop = this.text.scrollTop;
    }

    say(text, fault = null) {
        this.wrong = fault === null ? null : lineOf(this.text.value, fault);
        const place = this.wrong === null ? "" : `Line ${this.wrong + 1}: `, explained = this.find("explained");
        explained.textContent = place + text;
        explained.className = fault === null ? "good" : "bad";
        this.find("find").hidden = this.wrong === null;
        this.number();
    }

    /** Says what is wrong with the description. Returns its image, or undefined. */
    async explain() {
        const description = this.text.value, {image, fault} = await this.app.program.build(description);
        if (description !== this.text.value) return undefined;
        this.say(fault ?? "This description can be built.", fault ?? null);
        return image;
    }

    async build() {
        const image = await this.explain();
        if (!image) return;
        this.app.start(image);
        this.say("Built. The script begins again.");
    }

    /** Selects the wrong line. */
    go() {
        const lines = this.text.value.split("\n"), begin = lines.slice(0, this.wrong).reduce((sum, it) => sum + it.length + 1, 0);
        this.text.focus();
        this.text.setSelectionRange(begin, begin + lines[this.wrong].length);
    }
}
