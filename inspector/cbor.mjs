// CBOR (RFC 8949) as it is shown, and never judged: items of definite length, also such as the library refuses.

const DEEPEST = 16;

/** A map of CBOR, whose keys may be any items, and may repeat. */
export class Entries {
  constructor(pairs) {
    this.pairs = pairs;
  }

  /** The value of the first pair with this number or text as its key; undefined where there is none. */
  get(key) {
    return this.pairs.find(([one]) => one === key)?.[1];
  }
}

/** What has a name of its own and is no value of JavaScript: tags, floats, other simple values. */
export class Special {
  constructor(text) {
    this.text = text;
  }
}

function fault(at) {
  return new Error(`at byte ${at} no CBOR can be read`);
}

function numberOf(big) {
  return big >= Number.MIN_SAFE_INTEGER && big <= Number.MAX_SAFE_INTEGER ? Number(big) : big;
}

// The number of a head, and where what follows it begins.
function headAt(bytes, at) {
  const short = bytes[at] & 31, size = short < 24 ? 0 : 1 << (short - 24), end = at + 1 + size;
  if (at >= bytes.length || short > 27 || end > bytes.length) throw fault(at);
  let number = size === 0 ? BigInt(short) : 0n;
  for (const byte of bytes.subarray(at + 1, end)) number = (number << 8n) | BigInt(byte);
  return { major: bytes[at] >> 5, number, size, end };
}

function floatOf(bytes) {
  const view = new DataView(bytes.buffer, bytes.byteOffset, bytes.length);
  if (bytes.length === 8) return view.getFloat64(0);
  if (bytes.length === 4) return view.getFloat32(0);
  const exponent = (bytes[0] >> 2) & 31, fraction = ((bytes[0] & 3) << 8) | bytes[1], sign = bytes[0] > 127 ? -1 : 1;
  if (exponent === 31) return fraction === 0 ? sign * Infinity : NaN;
  return sign * (exponent === 0 ? fraction * 2 ** -24 : (1024 + fraction) * 2 ** (exponent - 25));
}

const SIMPLE = { 20: false, 21: true, 22: null };

function simpleOf({ number, size, end }, bytes) {
  if (size >= 2) return new Special(String(floatOf(bytes.subarray(end - size, end))));
  return Object.hasOwn(SIMPLE, Number(number)) ? SIMPLE[Number(number)] : new Special(`simple(${number})`);
}

function stringAt(bytes, from, number, at) {
  const end = from + Number(number);
  if (number > BigInt(bytes.length) || end > bytes.length) throw fault(at);
  return { value: bytes.slice(from, end), end };
}

function textOf(bytes) {
  try {
    return new TextDecoder("utf-8", { fatal: true, ignoreBOM: true }).decode(bytes);
  } catch {
    return new Special("a text that is not UTF-8");
  }
}

function listAt(bytes, head, count, depth) {
  const made = [];
  let { end } = head;
  for (let index = 0n; index < count; index++) {
    const one = itemAt(bytes, end, depth + 1);
    made.push(one.value);
    ({ end } = one);
  }
  return { value: made, end };
}

function pairsOf(values) {
  return new Entries(values.flatMap((value, index) => (index % 2 === 0 ? [[value, values[index + 1]]] : [])));
}

/** The item that begins at an offset, and where it ends. Throws where there is none. */
export function itemAt(bytes, at, depth = 0) {
  if (depth > DEEPEST) throw fault(at);
  const head = headAt(bytes, at), { major, number, end } = head;
  if (major === 0) return { value: numberOf(number), end };
  if (major === 1) return { value: numberOf(-1n - number), end };
  if (major === 2) return stringAt(bytes, end, number, at);
  if (major === 3) {
    const string = stringAt(bytes, end, number, at);
    return { value: textOf(string.value), end: string.end };
  }
  if (major === 4) return listAt(bytes, head, number, depth);
  if (major === 5) {
    const list = listAt(bytes, head, 2n * number, depth);
    return { value: pairsOf(list.value), end: list.end };
  }
  if (major === 7) return { value: simpleOf(head, bytes), end };
  const tagged = itemAt(bytes, end, depth + 1);
  return { value: new Special(`${number}(${diagnostic(tagged.value)})`), end: tagged.end };
}

export function hexOf(bytes) {
  return Array.from(bytes, (byte) => byte.toString(16).padStart(2, "0")).join("");
}

/** An item in diagnostic notation (RFC 8949, section 8). */
export function diagnostic(value) {
  if (value instanceof Uint8Array) return `h'${hexOf(value)}'`;
  if (value instanceof Special) return value.text;
  if (Array.isArray(value)) return `[${value.map(diagnostic).join(", ")}]`;
  if (value instanceof Entries) return `{${value.pairs.map((pair) => pair.map(diagnostic).join(": ")).join(", ")}}`;
  return typeof value === "string" ? JSON.stringify(value) : String(value);
}
