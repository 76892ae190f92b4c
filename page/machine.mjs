// The kernel: machines over images in memory. Not proved; the module that it loads is compiled from proved code.

const STATUSES = {
    11: "memory ran out", 12: "the image has a bad size", 13: "the cache is out of range", 14: "already open", 15: "closed",
    16: "the buffer is too small", 17: "the calls are lost", 18: "memory ran out while opening",
};
const SMALL_BUFFER = 16, SYNC = 2n ** 64n - 1n, FIRST_ROOM = 1 << 16;
export const SECTOR = 512;

export class Refused extends Error {
    constructor(status) {
        super(status <= 10 ? `bad image ${status}` : STATUSES[status] ?? `status ${status}`);
        this.status = status;
    }
}

function refuse(status) {
    if (status) throw new Refused(status);
}

/** One instance of the module, which holds any number of machines. */
export class Kernel {
    static async load(bytes) {
        const {instance} = await WebAssembly.instantiate(bytes, {});
        return new Kernel(instance.exports);
    }

    constructor(wasm) {
        this.wasm = wasm;
        this.size = wasm.malloc(8n);
        this.room = FIRST_ROOM;
        this.buffer = wasm.malloc(BigInt(this.room));
    }

    /** Opens the image in these bytes, which it copies. Throws `Refused`. */
    open(image, cache = 0) {
        const handle = this.wasm.malloc(16n);
        this.bytes(handle, 16).fill(0);
        const status = this.lend(image, (at, size) => this.wasm.vezhnake_open(at, size, BigInt(cache), handle));
        if (status) this.wasm.free(handle);
        refuse(status);
        return new Machine(this, handle);
    }

    bytes(at, size) {
        return new Uint8Array(this.wasm.memory.buffer, Number(at), size);
    }

    /** Calls a function with a copy of these bytes in the module's memory. */
    lend(data, use) {
        const at = this.wasm.malloc(BigInt(data.length || 1));
        if (!at) throw new Refused(11);
        this.bytes(at, data.length).set(data);
        const result = use(at, BigInt(data.length));
        this.wasm.free(at);
        return result;
    }

    /** The bytes that a call copies to the buffer. If the buffer is too small, makes a greater one and calls `again`. */
    fetch(call, again) {
        const size = () => Number(new DataView(this.wasm.memory.buffer).getBigUint64(Number(this.size), true));
        let status = call(this.buffer, BigInt(this.room), this.size);
        if (status === SMALL_BUFFER) {
            this.wasm.free(this.buffer);
            this.room = size();
            this.buffer = this.wasm.malloc(BigInt(this.room));
            status = again(this.buffer, BigInt(this.room), this.size);
        }
        refuse(status);
        return this.bytes(this.buffer, size()).slice();
    }
}

/** An open machine. */
export class Machine {
    constructor(kernel, handle) {
        this.kernel = kernel;
        this.handle = handle;
    }

    /** Runs the lines in these bytes, and returns the bytes of the answers. */
    stepBytes(bytes) {
        const {wasm} = this.kernel;
        return this.kernel.lend(bytes, (at, length) => this.kernel.fetch(
            (...room) => wasm.vezhnake_step(this.handle, at, length, ...room), (...room) => wasm.vezhnake_answer(this.handle, ...room)));
    }

    /** Runs the lines of a text, and returns the answers. */
    step(text) {
        return new TextDecoder().decode(this.stepBytes(new TextEncoder().encode(text)));
    }

    /** The device calls that were not returned yet, in order: {byte, data} is a write, null a sync. */
    calls() {
        const call = (...room) => this.kernel.wasm.vezhnake_calls(this.handle, ...room);
        const data = this.kernel.fetch(call, call), view = new DataView(data.buffer), found = [];
        for (let at = 0; at < data.length;) {
            const byte = view.getBigUint64(at, true), length = Number(view.getBigUint64(at + 8, true));
            found.push(byte === SYNC ? null : {byte: Number(byte), data: data.slice(at + 16, at + 16 + length)});
            at += 16 + length;
        }
        return found;
    }

    close() {
        refuse(this.kernel.wasm.vezhnake_close(this.handle));
        this.kernel.wasm.free(this.handle);
    }
}

/** A storage: its bytes with all writes, and the bytes that each sector had at the last sync, if it was written since. */
export class Storage {
    constructor(image, synced = new Map()) {
        this.image = image.slice();
        this.synced = new Map(synced);
    }

    copy() {
        return new Storage(this.image, this.synced);
    }

    carryOut(calls) {
        for (const call of calls) {
            if (!call) {
                this.synced.clear();
                continue;
            }
            for (let at = call.byte; at < call.byte + call.data.length; at += SECTOR) {
                if (!this.synced.has(at / SECTOR)) this.synced.set(at / SECTOR, this.image.slice(at, at + SECTOR));
            }
            this.image.set(call.data, call.byte);
        }
        return this;
    }
}
