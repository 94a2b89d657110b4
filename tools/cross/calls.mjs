// Makes the calls that standard input lists with the library as a WebAssembly module, and writes all that each answers and
// leaves (tools/cross/calls.py has the layout of both):
//     node calls.mjs bukzarn.wasm < CALLS
// Pointers are 32 bits, lengths and answers 64 (BigInt), since the module was lowered for a 64-bit machine.
import { readFileSync, writeSync } from "node:fs";

const FUNCTIONS = ["run", "run_frames", "validate", "need", "fixed", "load", "strip"];
const WORDS = 9, FILLER = 0xa5, PAGE = 65536, ALIGNMENT = 16;

const { instance } = await WebAssembly.instantiate(readFileSync(process.argv[2]), {});
const { memory, __heap_base: base } = instance.exports;

// Where parts of these lengths stand, one after another behind the module's own data, and where they end.
function laidOut(lengths) {
    let at = base.value;
    const places = lengths.map((length) => {
        at = Math.ceil(at / ALIGNMENT) * ALIGNMENT;
        const place = at;
        at += length;
        return place;
    });
    const lacking = Math.ceil(at / PAGE) - memory.buffer.byteLength / PAGE;
    if (lacking > 0) memory.grow(lacking);
    return places;
}

function call(name, number, depth, count, lengths, places) {
    const [image, frame, log, output, work] = lengths.map((length, i) => [places[i], BigInt(length)]);
    const words = {
        run: () => [...image, ...frame, number, ...log, ...output, ...work],
        run_frames: () => [...image, ...frame, number, ...log, ...output, places[5], BigInt(count), ...work],
        validate: () => [...image, work[1], output[1]],
        need: () => [...image, output[0], output[1] / 4n],
        fixed: () => [...image, ...output],
        load: () => [number, BigInt(depth), ...output],
        strip: () => [...image, number, ...output],
    }[name]();
    return instance.exports[`bukzarn_${name}`](...words);
}

// All of it, also where standard output is a pipe that takes a part at a time.
function writeAll(bytes) {
    for (let at = 0; at < bytes.length;) {
        try {
            at += writeSync(1, bytes, at);
        } catch (error) {
            if (error.code !== "EAGAIN") throw error;
        }
    }
}

const calls = readFileSync(0);
for (let at = 0; at < calls.length;) {
    const [which, number, depth, count, ...lengths] = Array.from({ length: WORDS }, (_, i) => calls.readUInt32LE(at + 4 * i));
    at += 4 * WORDS;
    const places = laidOut([...lengths, 8 * count]);
    const bytes = new Uint8Array(memory.buffer);
    [...lengths, 8 * count].forEach((length, i) => bytes.fill(FILLER, places[i], places[i] + length));
    lengths.slice(0, 2).forEach((length, i) => {
        bytes.set(calls.subarray(at, at + length), places[i]);
        at += length;
    });
    const answer = call(FUNCTIONS[which], number, depth, count, lengths, places);
    if (answer !== undefined) new DataView(memory.buffer).setBigUint64(places[5], answer, true);
    writeAll(bytes.slice(places[5], places[5] + 8 * count));
    for (const part of [2, 3, 4]) writeAll(bytes.slice(places[part], places[part] + lengths[part]));
}
