// The whole program `eros` over files in memory. Not proved; the module that it loads is compiled from proved code.

const ENOENT = 2, EBADF = 9, EEXIST = 17, EINVAL = 22;
const MESSAGES = {
    [ENOENT]: "No such file or directory", [EBADF]: "Bad file descriptor", [EEXIST]: "File exists", [EINVAL]: "Invalid argument",
};
const CREATE = 0o100, EXCLUSIVE = 0o200, EMPTY = 0o1000, END = 2, CURRENT = 1;
const FILE = 0o100644, CHARACTERS = 0o020666;

class Exit extends Error {
    constructor(status) {
        super(`status ${status}`);
        this.status = status;
    }
}

/** The system calls of one run, over `files`: a Map from names to bytes. An open file is {name, at}, {data, at} or {out}. */
class System {
    constructor(files, input) {
        this.files = files;
        this.open = new Map([[0, {data: new TextEncoder().encode(input), at: 0}], [1, {out: []}], [2, {out: []}]]);
        this.numbers = [...files.keys()];
    }

    memory(at, size) {
        return new Uint8Array(this.wasm.memory.buffer, Number(at), Number(size));
    }

    text(at) {
        const all = new Uint8Array(this.wasm.memory.buffer, Number(at));
        return new TextDecoder().decode(all.slice(0, all.indexOf(0)));
    }

    fail(error, failed = -1) {
        this.wasm.set_errno(error);
        return failed;
    }

    data(it) {
        return it.name === undefined ? it.data : this.files.get(it.name);
    }

    /** What the program printed to a stream. */
    said(descriptor) {
        return new TextDecoder().decode(Uint8Array.from(this.open.get(descriptor).out.flatMap((it) => [...it])));
    }

    opened(path, flags) {
        const name = this.text(path).replace(/^\.\//, ""), special = ["/dev/null", ".", ""].includes(name);
        if (!special && !this.files.has(name)) {
            if (!(flags & CREATE)) return this.fail(ENOENT);
            this.files.set(name, new Uint8Array());
        } else if (!special && flags & CREATE && flags & EXCLUSIVE) {
            return this.fail(EEXIST);
        }
        if (!special && flags & EMPTY) this.files.set(name, new Uint8Array());
        const descriptor = Math.max(...this.open.keys()) + 1;
        this.open.set(descriptor, special ? {data: new Uint8Array(), at: 0} : {name, at: 0});
        return descriptor;
    }

    readAt(it, to, size, at) {
        const piece = this.data(it).subarray(at, at + Number(size));
        this.memory(to, piece.length).set(piece);
        return BigInt(piece.length);
    }

    writeAt(it, from, size, at) {
        const piece = this.memory(from, size).slice(), old = this.files.get(it.name), end = at + piece.length;
        const made = end > old.length ? new Uint8Array(end) : old;
        if (made !== old) made.set(old);
        made.set(piece, at);
        this.files.set(it.name, made);
        return BigInt(piece.length);
    }

    read(descriptor, to, size) {
        const it = this.open.get(descriptor);
        if (!it || !this.data(it)) return this.fail(EBADF, -1n);
        const done = this.readAt(it, to, size, it.at);
        it.at += Number(done);
        return done;
    }

    write(descriptor, from, size) {
        const it = this.open.get(descriptor);
        if (!it) return this.fail(EBADF, -1n);
        if (it.out) {
            it.out.push(this.memory(from, size).slice());
            return size;
        }
        const done = this.writeAt(it, from, size, it.at);
        it.at += Number(done);
        return done;
    }

    seek(descriptor, offset, from) {
        const it = this.open.get(descriptor);
        it.at = Number(offset) + (from === END ? this.data(it).length : from === CURRENT ? it.at : 0);
        return BigInt(it.at);
    }

    resize(descriptor, size) {
        const it = this.open.get(descriptor), made = new Uint8Array(Number(size));
        if (it.name === undefined) return this.fail(EINVAL);
        made.set(this.files.get(it.name).subarray(0, Number(size)));
        this.files.set(it.name, made);
        return 0;
    }

    /** Writes what statx tells: the kind, the number and the length of a file. */
    facts(folder, path, to) {
        const name = this.text(path).replace(/^\.\//, ""), it = name === "" ? this.open.get(folder) : {name};
        const isFile = it.name !== undefined;
        if (isFile && !this.files.has(it.name)) return this.fail(ENOENT);
        this.memory(to, 256).fill(0);
        const view = new DataView(this.wasm.memory.buffer, Number(to), 256);
        view.setUint32(0, 0x7ff, true);
        view.setUint32(16, 1, true);
        view.setUint16(28, isFile ? FILE : CHARACTERS, true);
        if (isFile) {
            if (!this.numbers.includes(it.name)) this.numbers.push(it.name);
            view.setBigUint64(32, BigInt(this.numbers.indexOf(it.name) + 1), true);
            view.setBigUint64(40, BigInt(this.files.get(it.name).length), true);
        }
        return 0;
    }

    message(error, to) {
        const said = new TextEncoder().encode(`${MESSAGES[error] ?? `error ${error}`}\0`);
        this.memory(to, said.length).set(said);
        return 0;
    }

    exit(status) {
        throw new Exit(status);
    }

    rename(from, to) {
        const [old, name] = [from, to].map((it) => this.text(it).replace(/^\.\//, ""));
        if (!this.files.has(old)) return this.fail(ENOENT);
        this.files.set(name, this.files.get(old));
        this.files.delete(old);
        return 0;
    }

    unlink(path) {
        return this.files.delete(this.text(path).replace(/^\.\//, "")) ? 0 : this.fail(ENOENT);
    }

    /** The calls by the names that the program imports. Any other throws once it is made. */
    imports() {
        const missing = (name) => () => {
            throw new Error(`the page has no ${name}`);
        };
        return new Proxy(this.calls(), {get: (calls, name) => calls[name] ?? missing(name)});
    }

    calls() {
        const write = (...words) => this.write(...words), exit = (status) => this.exit(status), done = () => 0, none = () => 0n;
        return {
            open: (path, flags) => this.opened(path, flags),
            close: (descriptor) => (this.open.delete(descriptor) ? 0 : this.fail(EBADF)),
            read: (...words) => this.read(...words),
            pread: (descriptor, to, size, at) => this.readAt(this.open.get(descriptor), to, size, Number(at)),
            pwrite: (descriptor, from, size, at) => this.writeAt(this.open.get(descriptor), from, size, Number(at)),
            write, __write: write, exit, _exit: exit,
            lseek: (...words) => this.seek(...words),
            ftruncate: (...words) => this.resize(...words),
            rename: (from, to) => this.rename(from, to),
            unlink: (path) => this.unlink(path),
            statx: (folder, path, flags, mask, to) => this.facts(folder, path, to),
            flock: done, fsync: done, fdatasync: done, fchmod: done, isatty: done, signal: none, __sysv_signal: none,
            __xpg_strerror_r: (error, to) => this.message(error, to),
        };
    }
}

export class Program {
    static async load(bytes) {
        return new Program(await WebAssembly.compile(bytes));
    }

    constructor(module) {
        this.module = module;
    }

    /** Runs `eros` with these words over files, a Map from names to bytes, which it changes. Returns {status, output, errors}. */
    async run(words, files, input = "") {
        const system = new System(files, input), instance = await WebAssembly.instantiate(this.module, {env: system.imports()});
        system.wasm = instance.exports;
        const text = new TextEncoder().encode(["eros", ...words].map((it) => `${it}\0`).join(""));
        const at = system.wasm.malloc(BigInt(text.length));
        system.memory(at, text.length).set(text);
        let status;
        try {
            status = system.wasm.start(BigInt(words.length + 1), at);
        } catch (error) {
            if (!(error instanceof Exit)) throw error;
            status = error.status;
        }
        return {status, output: system.said(1), errors: system.said(2)};
    }

    /** Builds the image of a description: {image} or {fault}, the line that says what is wrong. */
    async build(description) {
        const files = new Map([["description", new TextEncoder().encode(description)]]);
        const explained = await this.run(["explain", "description"], files);
        if (explained.status) return {fault: (explained.output || explained.errors).trim()};
        const built = await this.run(["build", "description", "image"], files);
        return built.status ? {fault: built.errors.trim()} : {image: files.get("image")};
    }

    /** The description of what an image saves. */
    async describe(image) {
        return (await this.run(["describe", "image"], new Map([["image", image]]))).output;
    }

    /** The numbers of the objects that a process can ever change, by what an image saves; or null if it has no such process. */
    async reach(image, process) {
        const {status, output} = await this.run(["reach", "image", process], new Map([["image", image]]));
        if (status) return null;
        return new Set([...output.matchAll(/^\w+ (\d+) owner/gm)].map((it) => Number(it[1])));
    }
}
