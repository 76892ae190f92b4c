// The page: its worlds, its machine, and its views.

import {DescriptionView} from "./description_view.mjs";
import {DiskView} from "./disk_view.mjs";
import {Lesson} from "./lesson.mjs";
import {Kernel} from "./machine.mjs";
import {MachineView} from "./machine_view.mjs";
import {PowerView} from "./power_view.mjs";
import {Program} from "./program.mjs";
import {ScriptView, isSkipped, linesOf, nextRow} from "./script_view.mjs";
import {Session} from "./session.mjs";

const OWN = "(own image)";

class App {
    constructor(kernel, program, worlds, find) {
        Object.assign(this, {kernel, program, worlds, find, lines: []});
        this.disk = new DiskView(this, find);
        this.script = new ScriptView(this, find);
        this.view = new MachineView(this, find);
        this.power = new PowerView(this, find);
        this.description = new DescriptionView(this, find);
        this.lesson = new Lesson(this, find);
        this.world = find("world");
        this.world.replaceChildren(...[...worlds.keys()].map((it) => new Option(it)));
        this.world.onchange = () => {
            this.lesson.active = null;
            this.choose(this.world.value);
        };
        find("download").onclick = () => this.download();
        find("upload").onchange = (event) => this.upload(event.target.files[0]);
    }

    /** Builds a world, with its own script or with these lines. */
    async choose(name, lines) {
        const {description, script} = this.worlds.get(name), {image, fault} = await this.program.build(description);
        if (fault) throw new Error(`${name}: ${fault}`);
        this.world.value = name;
        this.find("fault").hidden = true;
        this.description.set(description);
        this.lines = lines ?? linesOf(script);
        this.start(image);
    }

    /** Begins with an image. */
    start(image) {
        const session = new Session(this.kernel, image);
        this.session?.machine.close();
        Object.assign(this, {image, session});
        this.view.selected = null;
        this.refresh();
    }

    refresh() {
        for (const it of [this.script, this.view, this.disk, this.power, this.lesson]) it.refresh();
    }

    /** Runs the next line that is a command. Returns whether there was one. */
    runNext() {
        const row = nextRow(this.lines, this.session.next);
        if (row < this.lines.length) this.session.step(this.lines[row], row);
        return row < this.lines.length;
    }

    step() {
        this.view.forget();
        this.runNext();
        this.session.look();
        this.refresh();
    }

    /** Runs the rest of the script. What the last line changes is marked. */
    run() {
        this.view.forget();
        const last = this.lines.findLastIndex((it) => !isSkipped(it));
        do {
            if (nextRow(this.lines, this.session.next) === last) this.session.look();
        } while (this.runNext());
        this.session.look();
        this.refresh();
    }

    back() {
        this.view.forget();
        this.session.back();
        this.refresh();
    }

    reset() {
        this.view.forget();
        this.start(this.image);
    }

    /** Puts a line in before the next one, and runs it. */
    runOwn(line) {
        const row = nextRow(this.lines, this.session.next);
        this.lines.splice(row, 0, line);
        if (nextRow([line], 0) === 0) this.step();
        else this.refresh();
    }

    /** Takes an edited script. If a line that was run is another now, begins again. */
    setScript(text) {
        const lines = linesOf(text), isSame = this.session.events.every((it) => it.text === undefined || lines[it.row] === it.text);
        this.lines = lines;
        if (!isSame) this.reset();
        else this.refresh();
    }

    /** Goes on from the image that a power cut leaves. */
    cut(image, opened) {
        this.view.forget();
        this.session.open(image, opened);
        this.refresh();
    }

    download() {
        const link = document.createElement("a");
        link.href = URL.createObjectURL(new Blob([this.session.storage.image]));
        link.download = "vezhnake.image";
        link.click();
        setTimeout(() => URL.revokeObjectURL(link.href), 1000);
    }

    /** Takes an image from a file. Its objects are described, and the script stays. */
    async upload(file) {
        const image = new Uint8Array(await file.arrayBuffer()), fault = this.find("fault");
        fault.hidden = true;
        try {
            this.start(image);
        } catch (error) {
            fault.textContent = `${file.name}: ${error.message}. The machine stays as it was.`;
            fault.hidden = false;
            this.refresh();
            return;
        }
        if (![...this.world.options].some((it) => it.value === OWN)) this.world.add(new Option(OWN));
        this.worlds.set(OWN, {description: await this.program.describe(image), script: this.lines.join("\n")});
        this.world.value = OWN;
        this.description.set(this.worlds.get(OWN).description);
    }
}

/** The bytes of a text in base 64 that was packed by zlib. */
async function unpacked(text) {
    const packed = Uint8Array.from(atob(text), (it) => it.charCodeAt(0));
    const stream = new Blob([packed]).stream().pipeThrough(new DecompressionStream("deflate"));
    return new Uint8Array(await new Response(stream).arrayBuffer());
}

async function begin() {
    const find = (id) => document.getElementById(id), assets = JSON.parse(find("assets").textContent);
    const [kernel, program] = await Promise.all([unpacked(assets.kernel), unpacked(assets.program)]);
    const worlds = new Map(assets.worlds.map((it) => [it.name, it]));
    const app = new App(await Kernel.load(kernel), await Program.load(program), worlds, find);
    await app.choose(assets.worlds[0].name);
    return app;
}

begin().then((app) => (globalThis.vezhnake = app), (error) => {
    const fault = document.getElementById("fault");
    fault.textContent = `The page cannot begin: ${error.message}.`;
    fault.hidden = false;
    throw error;
});
