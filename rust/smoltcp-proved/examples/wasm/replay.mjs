// node replay.mjs FILE.wasm SCRIPT: prints what `pair_replay SCRIPT` does.
import { readFileSync } from "node:fs";

const [wasm, script] = process.argv.slice(2).map((name) => readFileSync(name));
const { instance } = await WebAssembly.instantiate(wasm, {});
const { put, replay, said } = instance.exports;
script.forEach((byte) => put(byte));
const length = replay();
if (length < 0) process.exit(1);
process.stdout.write(Buffer.from(Array.from({ length }, (_, place) => said(place))));
