// Runs the driver as WebAssembly: node drive.js DRIVER.wasm reads standard input and writes standard output.
'use strict';
const fs = require('fs');

const input = fs.readFileSync(0);
const output = [];
let at = 0;
let memory;

const host = {
  read(into, count) {
    const part = input.subarray(at, at + count);
    at += part.length;
    new Uint8Array(memory.buffer).set(part, into);
    return part.length;
  },
  write(from, count) {
    output.push(Buffer.from(new Uint8Array(memory.buffer, from, count)));
  },
};

const instance = new WebAssembly.Instance(new WebAssembly.Module(fs.readFileSync(process.argv[2])), { host });
memory = instance.exports.memory;
instance.exports.port_drive();
fs.writeFileSync(1, Buffer.concat(output));
