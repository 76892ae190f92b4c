// Five exercises. Each begins with a world and a script, and is done once the machine meets its goal.

function rowOf(objects, number, key) {
    return objects.get(number)?.rows.find((it) => it.key === key)?.text;
}

/** The result code of the last order of a process. */
function codeOf(objects, process) {
    return (rowOf(objects, process, "words") ?? "0").split(" ")[0];
}

export const EXERCISES = [
    {
        title: "A call",
        world: "first-steps",
        script: ["# Process 1 holds page 16 in register 6. Order 2 writes: here 99 into word 3.", "call 1 6 2 3 99 0 0 0 0 0", "show 16"],
        task: "Step, and watch page 16. Then write 7 into its word 0 with a line of your own.",
        hint: "The words are the order, the index and the value: call 1 6 2 0 7 0 0 0 0 0",
        isDone: ({objects}) => rowOf(objects, 16, "word 0") === "7",
    },
    {
        title: "A weak capability",
        world: "first-steps",
        script: ["# Page 16 goes into slot 0 of node 5 (order 2 of a node).", "call 1 5 2 0 0 0 6 0 0 0",
            "# Order 3 reduces the capability: with 3 the one in register 28 is read-only and weak.", "call 1 5 3 3 0 0 0 0 0 0"],
        task: "Run the script. Fetch slot 0 through register 28 (order 1), and look at what comes into register 28. Then try to write to that page.",
        hint: "call 1 28 1 0 0 0 0 0 0 0 fetches the page. call 1 28 2 0 9 0 0 0 0 0 tries to write: result code 2, no access.",
        isDone: ({objects, seen}) => rowOf(seen, 1, "register 28") === "page 16 weak" && codeOf(objects, 1) === "2",
    },
    {
        title: "A bank destroyed",
        world: "banks",
        script: ["# Register 10 holds bank 5. Order 1 makes a page.", "call 1 10 1 0 0 0 0 0 0 0", "# Order 2 of a process keeps it in register 11.",
            "send 1 1 2 11 0 0 28 0 0 0"],
        task: "Run the script: the frame of bank 5 now holds a page. Destroy the bank (order 6). What becomes of registers 10 and 11?",
        hint: "call 1 10 6 0 0 0 0 0 0 0 frees the bank and all that it owns. Every capability to these objects becomes void.",
        isDone: ({objects}) => objects.has(1) && !objects.has(5) && !rowOf(objects, 1, "register 11"),
        begins: ({objects}) => objects.get(16)?.owner === 5,
    },
    {
        title: "A commit, cut at each call",
        world: "first-steps",
        script: ["call 1 6 2 0 42 0 0 0 0 0", "checkpoint", "stabilize 3", "commit"],
        task: "Run the script. Under “Cut the power”, move the slider through all calls of the commit. From which call on can the new state open? "
            + "Also give the unsynced sectors other outcomes.",
        hint: "The last write opens the gate of the new header. Before it only the old state opens, and after the sync only the new one. "
            + "Between them the outcome of one sector decides.",
        isDone: ({last}, {tried, outcomes}) => last?.text === "commit" && tried.size === last.calls.length + 1 && outcomes.has("old") && outcomes.has("new"),
        progress: ({last}, {tried}) => (last?.text === "commit" ? `${tried.size} of ${last.calls.length + 1} places tried.` : ""),
    },
    {
        title: "A confined viewer",
        world: "confined",
        script: ["# Process 3 holds node 5 weakly. It fetches page 16 from slot 0, and tries to write to it.", "call 3 1 1 0 0 0 0 0 0 0",
            "call 3 28 2 0 9 0 0 0 0 0"],
        task: "Run the script: process 3 gets result code 2. Then click process 3, and mark what it can ever change. Neither node 5 nor page 16 is in it.",
        hint: "It can change itself, its bank, and what that bank makes. It holds node 5 weakly, so it can only read what is there.",
        isDone: ({objects}, {view}) => codeOf(objects, 3) === "2" && view.process === 3 && Boolean(view.reached) && !view.reached.has(16),
    },
];

export class Lesson {
    constructor(app, find) {
        this.app = app;
        this.active = null;
        this.done = new Set();
        this.tried = new Set();
        this.outcomes = new Set();
        find("exercises").replaceChildren(...EXERCISES.map((it, at) => this.exercise(it, at)));
    }

    exercise({title, task, hint}, at) {
        const made = document.createElement("section");
        made.className = "exercise";
        made.innerHTML = `<h3></h3><p class="task"></p><div class="bar"><button></button><span role="status"></span></div>
            <details><summary class="hint">Hint</summary><p class="hint"></p></details>`;
        made.querySelector("h3").textContent = `${at + 1}. ${title}`;
        made.querySelector(".task").textContent = task;
        made.querySelector("details p").textContent = hint;
        const button = made.querySelector("button");
        button.textContent = "Begin";
        button.setAttribute("aria-label", `Begin exercise ${at + 1}`);
        button.onclick = () => this.begin(at);
        return made;
    }

    async begin(at) {
        this.active = null;
        await this.app.choose(EXERCISES[at].world, EXERCISES[at].script);
        this.active = at;
        this.hasBegun = !EXERCISES[at].begins;
        this.tried.clear();
        this.outcomes.clear();
        this.done.delete(at);
        this.refresh();
    }

    /** Notes a power cut that was tried: what opens after the first calls. */
    note({is}, first, count) {
        if (this.active === null || !count) return;
        if (this.app.session.last !== this.line) {
            this.line = this.app.session.last;
            this.tried.clear();
            this.outcomes.clear();
        }
        this.tried.add(first);
        this.outcomes.add(is);
        this.refresh();
    }

    refresh() {
        const {session} = this.app, places = document.querySelectorAll(".exercise [role=status]");
        const marks = {tried: this.tried, outcomes: this.outcomes, view: this.app.view};
        if (this.active !== null) {
            const it = EXERCISES[this.active];
            this.hasBegun ||= it.begins(session);
            if (this.hasBegun && it.isDone(session, marks)) this.done.add(this.active);
        }
        places.forEach((place, at) => {
            const isActive = at === this.active, progress = isActive ? EXERCISES[at].progress?.(session, marks) ?? "" : "";
            place.textContent = this.done.has(at) ? "✓ Done." : isActive ? `Not done yet. ${progress}` : "";
            place.className = this.done.has(at) ? "good" : "muted";
        });
    }
}
