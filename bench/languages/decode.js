// The job of the image "240 bytes decoded" (bench/src/images/decode.rs) as one would write it in JavaScript. decode.lua says
// what is read and answered; there is no limit of steps.
"use strict";
const readline = require("readline");

// Keeps the greatest byte, adds all up and shows each to the watches.
function decode(frame, watches) {
    let greatest = 0;
    let sum = 0;
    for (const byte of frame) {
        if (greatest < byte) {
            greatest = byte;
        }
        sum += byte;
        for (const watch of watches) {
            watch(byte);
        }
    }
    return { greatest, sum };
}

const iterators = Object.getPrototypeOf([][Symbol.iterator]());
const next = iterators.next;

// A watch that ends the decoder's loop: all loops over arrays ask the same function for the next value.
function harmful() {
    iterators.next = () => ({ done: true, value: undefined });
}

// Decodes a frame with a watch that prints the bytes below 12, or with one that does harm.
function run(frame, harm) {
    const log = [];
    const honest = (byte) => {
        if (byte < 12) {
            log.push(byte);
        }
    };
    const { greatest, sum } = decode(frame, [harm ? harmful : honest]);
    return [sum - greatest, greatest, sum].concat(log);
}

let frame;
readline.createInterface({ input: process.stdin }).on("line", (line) => {
    if (frame === undefined) {
        frame = Uint8Array.from(Buffer.from(line, "hex"));
        return;
    }
    const [calls, , watch] = line.split(" ");
    let left = [];
    const start = process.cpuUsage();
    for (let i = 0; i < Number(calls); i += 1) {
        left = run(frame, watch === "harmful");
    }
    const taken = process.cpuUsage(start);
    iterators.next = next;
    const nanoseconds = ((taken.user + taken.system) * 1000) / Number(calls);
    process.stdout.write(`${nanoseconds.toFixed(1)} ${left.join(" ")}\n`);
});
