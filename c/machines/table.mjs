// Runs the table of table.c over passkey.wasm: node table.mjs passkey.wasm table.wasm, or run(bytes, bytes) in a page. The
// table's module lies in the same memory, from 16 MiB up, and calls passkey.wasm without a line of JavaScript in between.
const LIES_AT = 256, PAGES = 64, PAINT = 0x5a;

// The bytes that passkey.wasm's calls took of its stack, which lies lowest in its memory.
export let stack = 0;

export async function run(library, table) {
  const { memory, ...calls } = (await WebAssembly.instantiate(library, {})).instance.exports;
  const size = Number(calls.__stack_pointer.value);
  new Uint8Array(memory.buffer, 0, size).fill(PAINT);
  const pages = memory.buffer.byteLength / 65536;
  memory.grow(LIES_AT + PAGES - pages);
  let said = "";
  const say = (at) => {
    const bytes = new Uint8Array(memory.buffer, Number(at));
    said += new TextDecoder().decode(bytes.slice(0, bytes.indexOf(0)));
  };
  (await WebAssembly.instantiate(table, { env: { memory, say, ...calls } })).instance.exports.table();
  stack = size - new Uint8Array(memory.buffer, 0, size).findIndex((byte) => byte !== PAINT);
  return said;
}

if (typeof process !== "undefined") {
  const { readFileSync } = await import("node:fs");
  process.stdout.write(await run(readFileSync(process.argv[2]), readFileSync(process.argv[3])));
  process.stderr.write(`stack of the module: ${stack} bytes\n`);
}
