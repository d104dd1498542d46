// Lists a telegram with uss.wasm. After `ports/build wasm32`:
//     node ports/example/list.js 02 0e 03 14 3a 00 00 00 00 00 00 04 7f 20 00 7a
"use strict";
const fs = require("fs");
const path = require("path");
const file = path.join(__dirname, "../../target/ports/wasm32/uss.wasm");
const uss = new WebAssembly.Instance(new WebAssembly.Module(fs.readFileSync(file)), {}).exports;

// A pointer is a place in `memory`; from __heap_base on it is the caller's.
const received = uss.__heap_base.value;
const out = received + 300;
const telegram = process.argv.slice(2, 302).map((byte) => parseInt(byte, 16));
new Uint8Array(uss.memory.buffer).set(telegram, received);
const length = uss.uss_list(received, telegram.length, out, 64);
process.stdout.write(Buffer.from(uss.memory.buffer, out, length));
