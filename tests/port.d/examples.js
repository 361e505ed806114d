// Runs procedures by panelrue.wasm as a host in JavaScript would: node examples.js PANELRUE.wasm FILE .. prints a line for each file.
'use strict';
const fs = require('fs');

const WORDS = 16384;
const OUTCOMES = ['value', 'arith', 'abort', 'Spent', 'Full'];

const library = new WebAssembly.Instance(new WebAssembly.Module(fs.readFileSync(process.argv[2]))).exports;

// The file, the memory and the answer stand one after the other in the free memory, each at a multiple of 8.
const memory = Math.ceil(library.__heap_base.value / 8) * 8;
const answer = memory + 4 * WORDS;
const file = answer + 8 * 3;

// Makes room for a file and copies it there.
function load(bytes) {
  const lacks = file + bytes.length - library.memory.buffer.byteLength;
  if (lacks > 0) library.memory.grow(Math.ceil(lacks / 65536));
  new Uint8Array(library.memory.buffer).set(bytes, file);
}

// The line of a refusal.
function refusal(number) {
  return `refused ${number & 255n} place ${number >> 16n} item ${(number >> 8n) & 255n}`;
}

// Checks, starts and runs a file for 10,000 steps; lengths and allowance have 64 bits, so they are BigInts.
function line(bytes) {
  load(bytes);
  const length = BigInt(bytes.length);
  const numbers = [
    library.panelrue_check(file, length),
    library.panelrue_start(file, length, memory, BigInt(WORDS)),
    library.panelrue_memory_check(file, length, memory, BigInt(WORDS)),
    library.panelrue_run(file, length, memory, BigInt(WORDS), 10000n, answer, 3n),
    library.panelrue_memory_check(file, length, memory, BigInt(WORDS)),
  ];
  if (numbers.some((number) => number !== numbers[0])) return `the calls differ: ${numbers}`;
  if (numbers[0] !== 0n) return refusal(numbers[0]);
  const [outcome, word, steps] = new BigUint64Array(library.memory.buffer, answer, 3);
  const value = outcome === 0n ? ` ${BigInt.asIntN(32, word)}` : '';
  return `${OUTCOMES[Number(outcome)]}${value} steps ${steps}`;
}

for (const name of process.argv.slice(3)) console.log(line(fs.readFileSync(name)));
