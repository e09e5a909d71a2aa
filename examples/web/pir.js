// Private look-ups in a list that several servers hold, from a web page: which bytes to send, and what the answers agree on.
//
//     const library = await load("libpir.wasm");
//     const query = library.client({ rows: 1000, width: 32, degree: 1, agree: 3, servers: 4 }).ask(17);
//     const answers = await Promise.all(urls.map((url, i) => talk(url, query.frames[i], query.answerSize)));
//     query.judge(answers).block        // the row, or null
//
// It stands on the calls of include/pir.h, which are proved. This module isn't: it hands bytes on to them, has the heap that they
// allocate from, and talks to servers of `pir serve` through WebSockets. docs/WEB.md says how it is built and run.

const INTERFACE = 1;
const PAGE = 65536;
const MOST_MEMORY = 1 << 30;

/** A call was refused: `code` is that of include/pir.h. */
export class PirError extends Error {
    constructor(code) {
        super(`refused with code ${code}`);
        this.code = code;
    }
}

function checked(code) {
    if (code < 0 || code === 12) throw new PirError(Number(code));
    return Number(code);
}

/** The memory of the module behind its own: blocks of powers of two, and by their size those that were given back. */
class Heap {
    free = new Map();
    sizes = new Map();

    /** What the module imports: the functions that the kit's heap has elsewhere, by which `std::alloc::Global` allocates. */
    imports() {
        const answer = (to, at) => {
            const view = new DataView(this.memory.buffer, Number(to), 16);
            view.setBigUint64(0, at ? 1n : 0n, true);
            view.setBigUint64(8, BigInt(at || 16), true);
        };
        return {
            rattle_alloc: (to, size) => answer(to, this.take(Number(size))),
            rattle_realloc: (to, from, kept, size) => {
                const at = this.take(Number(size));
                if (at) {
                    this.bytes(at, Number(size)).set(this.bytes(Number(from), Math.min(Number(kept), Number(size))));
                    this.give(Number(from));
                }
                answer(to, at);
            },
            rattle_dealloc: (from) => this.give(Number(from)),
        };
    }

    begin({ memory, __heap_base }) {
        this.memory = memory;
        this.top = (Number(__heap_base.value) + 15) & -16;
    }

    bytes(at, size) {
        return new Uint8Array(this.memory.buffer, at, size);
    }

    /** Returns where a block of so many bytes is, aligned to 16; 0 where there is no memory. */
    take(size) {
        let whole = 16;
        while (whole < size) whole *= 2;
        const at = this.free.get(whole)?.pop() ?? this.grow(whole);
        if (at) this.sizes.set(at, whole);
        return at;
    }

    grow(size) {
        const at = this.top;
        const lacking = Math.ceil((at + size - this.memory.buffer.byteLength) / PAGE);
        if (at + size > MOST_MEMORY) return 0;
        try {
            // (at least twice what was there, since all of it may be copied)
            if (lacking > 0) this.memory.grow(BigInt(Math.max(lacking, this.memory.buffer.byteLength / PAGE)));
        } catch {
            return 0;
        }
        this.top = at + size;
        return at;
    }

    give(at) {
        const whole = this.sizes.get(at);
        this.sizes.delete(at);
        if (!this.free.has(whole)) this.free.set(whole, []);
        this.free.get(whole).push(at);
    }
}

/** Loads the library. */
export async function load(url) {
    const heap = new Heap();
    const { instance } = await WebAssembly.instantiate(await (await fetch(url)).arrayBuffer(), { heap: heap.imports() });
    heap.begin(instance.exports);
    const said = instance.exports.pir_version();
    if (said !== INTERFACE) throw new Error(`libpir has interface ${said}, and this module is for ${INTERFACE}`);
    return new Library(instance.exports, heap);
}

class Library {
    constructor(calls, heap) {
        this.calls = calls;
        this.heap = heap;
    }

    /** The client of a database of so many rows, each of `width` bytes. `degree` servers together learn nothing of the row; `agree`
     * answers have to agree. Take 2 * agree > servers + degree: then a verdict has one block at most. */
    client({ rows, width, degree, agree, servers }) {
        return new Client(this, [1, degree, agree, servers, 0, rows, width]);
    }

    /** Runs a call with room for what it reads and writes, which is cleared behind it. */
    within(run) {
        const taken = [];
        const room = (size) => {
            const at = this.heap.take(size);
            if (!at) throw new PirError(12);
            taken.push([at, size]);
            this.heap.bytes(at, size).fill(0);
            return BigInt(at);
        };
        const put = (array) => {
            const at = room(array.byteLength);
            this.read(at, array.byteLength).set(new Uint8Array(array.buffer, array.byteOffset, array.byteLength));
            return at;
        };
        try {
            return run(put, room);
        } finally {
            for (const [at, size] of taken) {
                this.heap.bytes(at, size).fill(0);
                this.heap.give(at);
            }
        }
    }

    read(at, size) {
        return this.heap.bytes(Number(at), Number(size));
    }
}

class Client {
    constructor(library, numbers) {
        if (!numbers.every((it) => Number.isInteger(it) && it >= 0 && it < 2 ** 32)) throw new PirError(-1);
        this.library = library;
        this.plan = new Uint32Array(numbers);
        this.servers = numbers[3];
        this.size("pir_coins");
    }

    size(name) {
        return this.library.within((put) => checked(this.library.calls[name](put(this.plan), 1n)));
    }

    /** The query for a row. Its coins are random bytes of the browser, if none are given; they are for this fetch alone, and are
     * cleared. */
    ask(row, coins = null) {
        if (!(Number.isInteger(row) && row >= 0 && row < 2 ** 32)) throw new PirError(-2);
        if (!coins) {
            coins = new Uint8Array(this.size("pir_coins"));
            for (let at = 0; at < coins.length; at += PAGE) crypto.getRandomValues(coins.subarray(at, at + PAGE));
        }
        return new Query(this, row, coins);
    }
}

class Query {
    constructor(client, row, coins) {
        this.client = client;
        this.answerSize = client.size("pir_answer_size");
        this.frames = Array.from({ length: client.servers }, (_, i) => this.frame(row, coins, i + 1));
        this.session = new DataView(coins.buffer, coins.byteOffset).getBigUint64(0);
        coins.fill(0);
    }

    frame(row, coins, index) {
        const { library, plan } = this.client;
        const size = this.client.size("pir_query_size");
        return library.within((put, room) => {
            const [out, used] = [room(size), room(8)];
            const words = [put(plan), put(new Uint32Array([row])), 1n, put(coins), BigInt(coins.length), index];
            checked(library.calls.pir_query(...words, out, BigInt(size), used));
            return library.read(out, new DataView(library.read(used, 8).slice().buffer).getBigUint64(0, true)).slice();
        });
    }

    /** The verdict on what each server answered, in order; null for a server that was silent. Its `code` is 0 for one block, 3 for
     * none, 4 for several, 5 for too few answers, 6 for too weak an agreement and 7 for too high a cost; `block` is the one block, or
     * null; `servers` says of each server 0 where it was silent or its answer isn't usable, 1 where it agrees, 2 where it lied, and is
     * null where that can't be told. */
    judge(answers) {
        let verdict = this.judged(answers, this.answerSize);
        if (verdict.code === -5) verdict = this.judged(answers, verdict.needed);
        checked(verdict.code);
        return verdict;
    }

    judged(answers, size) {
        const { library, plan } = this.client;
        const n = BigInt(answers.length);
        const lengths = new BigUint64Array(answers.map((it) => BigInt(it?.length ?? 0)));
        const joined = new Uint8Array(answers.reduce((sum, it) => sum + (it?.length ?? 0), 0));
        answers.reduce((at, it) => (joined.set(it ?? [], at), at + (it?.length ?? 0)), 0);
        const present = Uint8Array.from(answers, (it) => (it ? 1 : 0));
        return library.within((put, room) => {
            const [out, who, told] = [room(size), put(new Uint8Array(answers.length).fill(255)), room(56)];
            const words = [put(plan), 1n, this.session, put(joined), BigInt(joined.length), put(lengths), n, put(present), n];
            const code = library.calls.pir_liars(...words, out, BigInt(size), who, n, told);
            const [blocks, each, needed] = new BigUint64Array(library.read(told, 24).slice().buffer);
            const said = [...library.read(who, n)];
            const block = code === 0 ? library.read(out, each).slice() : null;
            return { code, block, blocks: Number(blocks), needed: Number(needed), servers: said.includes(255) ? null : said };
        });
    }
}

/** Sends a frame to the server behind a WebSocket, and gives what comes back, `most` bytes at most; null where the server is silent. */
export function talk(url, frame, most, patience = 10000) {
    return new Promise((resolve) => {
        const answer = new Uint8Array(most);
        let [size, came, socket, timer] = [0, false, null, null];
        const end = () => {
            clearTimeout(timer);
            socket?.close();
            resolve(came ? answer.slice(0, size) : null);
        };
        try {
            socket = new WebSocket(url);
        } catch {
            end();
            return;
        }
        timer = setTimeout(end, patience);
        socket.binaryType = "arraybuffer";
        socket.onopen = () => socket.send(frame);
        socket.onmessage = ({ data }) => {
            const piece = typeof data === "string" ? new Uint8Array() : new Uint8Array(data).subarray(0, most - size);
            came = true;
            answer.set(piece, size);
            size += piece.length;
            if (size === most) end();
        };
        socket.onclose = end;
    });
}
