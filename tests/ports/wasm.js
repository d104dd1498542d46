// Runs the driver over uss.wasm as it is delivered, and writes its stream to standard output.
//     node wasm.js USS.WASM DRIVER.WASM
// The driver has no memory of its own: it lives in that of uss.wasm, behind its first page.
"use strict";
const fs = require("fs");
const [ussPath, driverPath] = process.argv.slice(2);
const page = 65536;

function write(bytes) {
    for (let at = 0; at < bytes.length;) {
        try {
            at += fs.writeSync(1, bytes, at);
        } catch (fault) {
            if (fault.code !== "EAGAIN") throw fault;
        }
    }
}

const ussModule = new WebAssembly.Module(fs.readFileSync(ussPath));
if (WebAssembly.Module.imports(ussModule).length > 0) throw new Error("uss.wasm imports something");
const uss = new WebAssembly.Instance(ussModule, {}).exports;
if (uss.__heap_base.value > page) throw new Error("uss.wasm needs more than its first page");
uss.memory.grow(31);
const host = { write: (at, len) => write(new Uint8Array(uss.memory.buffer, at, len)) };
const driver = new WebAssembly.Instance(new WebAssembly.Module(fs.readFileSync(driverPath)), { env: uss, host });
process.exitCode = driver.exports.run();
