"use strict";
/*
 * The proved library for JavaScript: in a page as a classic script, under node by require.
 *
 * `Library` has each exported call one to one, with every argument judged before the module sees it. `Sheet` has the same in the
 * field's words, with lists that the counting calls size. A bad argument is a TypeError or a RangeError; a refusal of the library is
 * `Refused`, with its number and sentence.
 */

/* The version that this file belongs to. */
const ZIBROTKA_RELEASE = 10000;

/* Addresses have 32 bits. No list may have half of them: compiled code counts the bytes from a list's start in a signed number. */
const MEMORY_BYTES = 2 ** 32;
const LIST_BYTES = 2 ** 31 - 1;
const PAGE_BYTES = 65536;
/* A memory cannot shrink. After a call that needed more than this its instance is dropped, and the next call has a new one. */
const KEPT_BYTES = 64 * 2 ** 20;

const EDGE_BYTES = 126;
const TRIANGLE_BYTES = 768;
const TEXT_BYTES = 200;
const LONGEST_LOOPS = 3969;

const ARRAYS = {
  u8: Uint8Array, i8: Int8Array, i32: Int32Array, u32: Uint32Array, u64: BigUint64Array, i64: BigInt64Array, f64: Float64Array,
};
const RANGES = {
  u8: [0n, 255n], i8: [-128n, 127n], i32: [-(2n ** 31n), 2n ** 31n - 1n], u32: [0n, 2n ** 32n - 1n], u64: [0n, 2n ** 64n - 1n],
};

/*
 * What a typed array is, by JavaScript's own functions. Properties of the same names, which a caller may have put on it or on a class of
 * its own, are never asked. `kindOf` is the name of the kind, or undefined for what is no typed array.
 */
const OWN = Object.getOwnPropertyDescriptors(Object.getPrototypeOf(Uint8Array.prototype));
const OWN_BUFFER = Object.getOwnPropertyDescriptors(ArrayBuffer.prototype);
const kindOf = (value) => OWN[Symbol.toStringTag].get.call(value);
const lengthOf = (list) => OWN.length.get.call(list);
const bytesOf = (list) => OWN.byteLength.get.call(list);
const startOf = (list) => OWN.byteOffset.get.call(list);
const bufferOf = (list) => OWN.buffer.get.call(list);
const copyTo = (to, from) => OWN.set.value.call(to, from);

/* Whether one of these functions takes the value. For shared memory and for memory that is gone some throw. */
function isTaken(own, value) {
  try {
    own.call(value);
    return true;
  } catch {
    return false;
  }
}

/* A refusal of the library: its number, 1 to 17, and its sentence. */
class Refused extends Error {
  constructor(number, sentence) {
    super(`refused ${number}: ${sentence}`);
    this.name = "Refused";
    this.number = number;
    this.sentence = sentence;
  }
}

/*
 * The refusal 17 with its finding: {kind: "breaksLaw", vertex, excess}, the lowest vertex that breaks the law and its sum, or
 * {kind: "outsideBand", edge}, the lowest edge whose value is not from -L to L.
 */
class NotInBasis extends Refused {
  constructor(sentence, finding) {
    super(17, sentence);
    this.name = "NotInBasis";
    this.finding = finding;
  }
}

/* A whole number as a BigInt, if it is one of the kind's range. A Number counts as whole only where it is exact. */
function wholeNumber(name, kind, value) {
  if (typeof value === "number") {
    if (!Number.isInteger(value)) throw new TypeError(`${name} must be a whole number, not ${value}`);
    if (!Number.isSafeInteger(value)) throw new RangeError(`${name} is ${value}: from 2 to the 53 on, give a BigInt`);
  } else if (typeof value !== "bigint") {
    throw new TypeError(`${name} must be a whole number, not ${spoken(value)}`);
  }
  const [low, high] = RANGES[kind];
  const whole = BigInt(value);
  if (whole < low || whole > high) throw new RangeError(`${name} is ${value}, which is not from ${low} to ${high}`);
  return whole;
}

function floatNumber(name, value) {
  if (typeof value !== "number") throw new TypeError(`${name} must be a number, not ${spoken(value)}`);
  return value;
}

/* What a wrong argument is, for a message. */
function spoken(value) {
  if (value === null) return "null";
  if (typeof value === "object") return kindOf(value) ?? (Array.isArray(value) ? "an array" : "an object");
  if (typeof value === "undefined" || typeof value === "boolean") return String(value);
  return typeof value === "number" || typeof value === "bigint" ? String(value) : `a ${typeof value}`;
}

function stopOnBytes(what, bytes, most) {
  if (bytes > most) throw new RangeError(`${what} would take ${bytes} bytes, and at most ${most} fit into the library's memory`);
}

/* A lent list as it is judged, everything read once: its length, its memory, and the bytes that it takes there. */
function lentList(name, kind, list) {
  if (kindOf(list) !== ARRAYS[kind].name) throw new TypeError(`${name} must be ${ARRAYS[kind].name}, not ${spoken(list)}`);
  const buffer = bufferOf(list);
  // Two objects may stand for the same shared memory, so an overlap could not be told; and others may write to it meanwhile.
  if (!isTaken(OWN_BUFFER.byteLength.get, buffer)) throw new TypeError(`${name} must not lie in shared memory`);
  if (!isTaken(OWN.keys.value, list)) throw new TypeError(`${name} lies in memory that is no longer there`);
  const start = startOf(list);
  return { list, length: lengthOf(list), buffer, start, end: start + bytesOf(list) };
}

/* How many entries an array has. A Proxy may answer anything, and something else each time: it is asked once. */
function countOf(name, array) {
  const count = array.length;
  if (!Number.isInteger(count) || count < 0) throw new TypeError(`${name} must have a whole number of entries, not ${spoken(count)}`);
  return count;
}

/* One entry of a caller's array, read once and then judged. */
function entryOf(name, kind, value) {
  if (kind === "f64") return floatNumber(name, value);
  return kind === "u64" ? wholeNumber(name, kind, value) : Number(wholeNumber(name, kind, value));
}

/* A list of numbers for a call to read: a typed array of the kind as it is, or a copy of an array. */
function listOf(name, kind, given) {
  if (kindOf(given) === ARRAYS[kind].name) return lentList(name, kind, given).list;
  if (!Array.isArray(given)) throw new TypeError(`${name} must be an array of numbers or ${ARRAYS[kind].name}, not ${spoken(given)}`);
  const count = countOf(name, given);
  stopOnBytes(name, count * ARRAYS[kind].BYTES_PER_ELEMENT, LIST_BYTES);
  const list = new ARRAYS[kind](count);
  for (let at = 0; at < count; at++) list[at] = entryOf(`${name}[${at}]`, kind, given[at]);
  return list;
}

/* A list of pairs, triples or fives, one behind the other. Each may be a typed array too. */
function flatList(name, kind, width, given) {
  if (!Array.isArray(given)) throw new TypeError(`${name} must be an array, not ${spoken(given)}`);
  const count = countOf(name, given);
  stopOnBytes(name, count * width * ARRAYS[kind].BYTES_PER_ELEMENT, LIST_BYTES);
  const flat = new ARRAYS[kind](count * width);
  for (let at = 0; at < count; at++) {
    const one = given[at];
    const length = kindOf(one) !== undefined ? lengthOf(one) : Array.isArray(one) ? one.length : null;
    if (length !== width) throw new TypeError(`${name}[${at}] must have ${width} vertices`);
    for (let k = 0; k < width; k++) flat[at * width + k] = entryOf(`${name}[${at}][${k}]`, kind, one[k]);
  }
  return flat;
}

/* The steps of a path, {edge, direction}, as a list of edges and one of directions. */
function stepLists(path) {
  if (!Array.isArray(path)) throw new TypeError(`path must be an array of steps, not ${spoken(path)}`);
  const count = countOf("path", path);
  stopOnBytes("path", count, LIST_BYTES);
  const [edges, directions] = [new Uint8Array(count), new Int8Array(count)];
  for (let at = 0; at < count; at++) {
    const step = path[at];
    edges[at] = entryOf(`path, edge[${at}]`, "u8", step?.edge);
    directions[at] = entryOf(`path, direction[${at}]`, "i8", step?.direction);
  }
  return [edges, directions];
}

/* The entries of a flat list by twos or threes. */
function grouped(flat, width) {
  const groups = [];
  for (let at = 0; at < flat.length; at += width) groups.push(Object.freeze(Array.from(flat.subarray(at, at + width))));
  return Object.freeze(groups);
}

/* Lists that were made here and that no call has had yet: they hold zeros, and memory that holds zeros too needs no copy of them. */
const ZEROS = new WeakSet();
/* Lists in which the library works. They are given to nobody, so what they hold after the call need not be copied back. */
const WORK = new WeakSet();

function workList(list) {
  WORK.add(list);
  return list;
}

/* New lists of zeros, each given as its kind and length. None is made where they would not fit beside each other. */
function newLists(...sizes) {
  const bytes = sizes.map(([kind, length]) => ARRAYS[kind].BYTES_PER_ELEMENT * length);
  bytes.forEach((one) => stopOnBytes("a list of the result", one, LIST_BYTES));
  stopOnBytes("the lists of the result", bytes.reduce((sum, one) => sum + one, 0), MEMORY_BYTES);
  try {
    return sizes.map(([kind, length]) => {
      const list = new ARRAYS[kind](length);
      ZEROS.add(list);
      return list;
    });
  } catch (error) {
    throw new RangeError("there is not enough memory for the lists of the result", { cause: error });
  }
}

/* One parameter from its text, as `sheet: &[u8]`, `edges: &mut [u8; 126]`, `vertex: &mut u64` or `lambda: u64`. */
function parameterOf(text) {
  const found = /^(\w+): (?:(u64|i32|f64|bool)|&(mut )?(?:(\w+)|\[(\w+)(?:; (\d+))?\]))$/.exec(text);
  const kind = found && (found[2] ?? found[4] ?? found[5]);
  if (!found || !(Object.hasOwn(ARRAYS, kind) || found[2] === "bool")) throw new Error(`the list of calls has a parameter of no known form: ${text}`);
  const length = found[4] ? 1 : found[6] ? Number(found[6]) : null;
  return { name: found[1], kind, isList: !found[2], isWritten: Boolean(found[3]), length };
}

/* The calls by name, each with its parameters, from the text that lists them. */
function callsOf(text) {
  if (typeof text !== "string") throw new TypeError(`the list of calls must be a string, not ${spoken(text)}`);
  const calls = new Map();
  for (const line of text.split("\n")) {
    if (line === "") continue;
    const found = /^(\w+)\((.*)\) -> [iu]64$/.exec(line);
    if (!found) throw new Error(`the list of calls has a line of no known form: ${line}`);
    calls.set(found[1], found[2] === "" ? [] : found[2].split(", ").map(parameterOf));
  }
  return calls;
}

/* One argument by value, judged, as the module takes it. */
function judgedValue(name, kind, value) {
  if (kind !== "bool") return entryOf(name, kind, value);
  if (value !== true && value !== false) throw new TypeError(`${name} must be true or false, not ${spoken(value)}`);
  return Number(value);
}

/* One argument, judged, with its parameter: a value, or a lent list with what was read of it. */
function judged(call, parameter, given) {
  const { kind, length } = parameter;
  const name = `${call}: ${parameter.name}`;
  if (!parameter.isList) return { parameter, value: judgedValue(name, kind, given) };
  const lent = lentList(name, kind, given);
  if (length !== null && lent.length !== length) throw new RangeError(`${name} must have ${length} entries, not ${lent.length}`);
  stopOnBytes(name, lent.end - lent.start, LIST_BYTES);
  return { parameter, pointer: 0, ...lent };
}

/* Whether two lent lists have a byte in common. */
function overlaps(one, other) {
  return one.buffer === other.buffer && Math.max(one.start, other.start) < Math.min(one.end, other.end);
}

/* Stops where a list that is written to shares memory with another one. */
function stopOnOverlap(call, lent) {
  for (const one of lent.filter((it) => it.parameter.isWritten)) {
    const other = lent.find((it) => it !== one && overlaps(it, one));
    if (other) throw new RangeError(`${call}: ${one.parameter.name} is written to and overlaps ${other.parameter.name}`);
  }
}

/* Gives the lent lists places one behind the other, from the first free byte on. Answers where they end. */
function placeLists(call, lent, first) {
  let end = first;
  for (const one of lent) {
    one.pointer = one.length === 0 ? first : end;
    end += Math.ceil((one.length * ARRAYS[one.parameter.kind].BYTES_PER_ELEMENT) / 16) * 16;
  }
  stopOnBytes(`${call}: the lists together`, end, MEMORY_BYTES);
  return end;
}

/* A lent list's place in the module's memory. It has exactly the list's length, so that nothing beside it can be touched. */
const placeIn = (buffer, { parameter, pointer, length }) => new ARRAYS[parameter.kind](buffer, pointer, length);

/* The arguments as the module takes them: a list as its address, and then its length where that is not fixed. */
function wordsOf(slots) {
  const words = [];
  for (const { parameter, value, pointer, length } of slots) {
    words.push(parameter.isList ? pointer : value);
    if (parameter.isList && parameter.length === null) words.push(BigInt(length));
  }
  return words;
}

/* The proved calls, in a WebAssembly module without imports. */
class Library {
  #module;
  #calls;
  #instance = null;
  /* No list has lain in the instance's memory from here on, so it holds zeros there. */
  #used = 0;

  constructor(module, callsText) {
    this.#module = module;
    this.#calls = callsOf(callsText);
    this.#judgeExports();
    const release = this.#call("release", []);
    if (release !== ZIBROTKA_RELEASE) throw new Error(`the module is of release ${release}, and zibrotka.js of ${ZIBROTKA_RELEASE}`);
  }

  /* From the module's bytes and the text that lists its calls (bindings/python/zibrotka/calls.txt). */
  static async load(wasmBytes, callsText) {
    return new Library(await WebAssembly.compile(wasmBytes), callsText);
  }

  /* The names of all calls. */
  get names() {
    return [...this.#calls.keys()];
  }

  #judgeExports() {
    const exports = this.#exports();
    const named = new Set([...this.#calls.keys()].map((name) => `zibrotka_${name}`));
    for (const name of Object.keys(exports)) {
      const isFunction = typeof exports[name] === "function";
      if (isFunction && !named.has(name)) throw new Error(`the module has a call that is not listed: ${name}`);
    }
    for (const [name, parameters] of this.#calls) {
      const words = parameters.reduce((sum, it) => sum + (it.isList && it.length === null ? 2 : 1), 0);
      if (exports[`zibrotka_${name}`]?.length !== words) throw new Error(`the module's call ${name} is not the one that is listed`);
    }
  }

  #exports() {
    if (this.#instance === null) {
      this.#instance = new WebAssembly.Instance(this.#module, {});
      this.#used = 0;
    }
    return this.#instance.exports;
  }

  #grow(memory, end) {
    const missing = Math.ceil((end - memory.buffer.byteLength) / PAGE_BYTES);
    if (missing <= 0) return;
    try {
      memory.grow(missing);
    } catch (error) {
      throw new RangeError(`there is not enough memory: the library would need ${end} bytes for this call`, { cause: error });
    }
  }

  /* Puts a lent list into its place. Of one that holds zeros only the part matters that lies where others have lain. */
  #fill(buffer, lent) {
    if (!ZEROS.delete(lent.list)) copyTo(placeIn(buffer, lent), lent.list);
    else new Uint8Array(buffer, lent.pointer, Math.max(Math.min(lent.end - lent.start, this.#used - lent.pointer), 0)).fill(0);
  }

  #run(name, words) {
    try {
      return Number(this.#exports()[`zibrotka_${name}`](...words));
    } catch (error) {
      this.#instance = null;
      throw new Error(`the library stopped in the call ${name}: ${error.message}`, { cause: error });
    }
  }

  #call(name, given) {
    if (typeof name !== "string") throw new TypeError(`the name of a call must be a string, not ${spoken(name)}`);
    const parameters = this.#calls.get(name);
    if (parameters === undefined) throw new RangeError(`the library has no call ${name}`);
    if (given.length !== parameters.length) throw new TypeError(`${name} takes ${parameters.length} arguments, not ${given.length}`);
    const slots = parameters.map((parameter, at) => judged(name, parameter, given[at]));
    const lent = slots.filter((it) => it.parameter.isList);
    stopOnOverlap(name, lent);

    const { memory, __heap_base: heapBase } = this.#exports();
    const end = placeLists(name, lent, Math.ceil((heapBase.value >>> 0) / 16) * 16);
    this.#grow(memory, end);
    const { buffer } = memory;
    for (const it of lent) this.#fill(buffer, it);
    this.#used = Math.max(this.#used, end);
    const answer = this.#run(name, wordsOf(slots));
    for (const it of lent) if (it.parameter.isWritten && !WORK.has(it.list)) copyTo(it.list, placeIn(buffer, it));
    if (end > KEPT_BYTES) this.#instance = null;
    return answer;
  }

  #ask(name, given) {
    const answer = this.#call(name, given);
    if (answer < 0) throw new Refused(-answer, this.#sentence(-answer));
    return answer;
  }

  #sentence(number) {
    const text = new Uint8Array(TEXT_BYTES);
    const length = this.#ask("refusal_text", [number, text]);
    return String.fromCharCode(...text.subarray(0, length));
  }

  /*
   * One exported call, with one argument for each of its parameters. Lists are typed arrays of the parameter's own kind; a lent number is
   * one of length 1. Answers the call's number: its value, or minus a refusal. A list that is written to holds the result afterwards.
   */
  call(name, ...given) {
    return this.#call(name, given);
  }

  /* The same, but a refusal is thrown. */
  ask(name, ...given) {
    return this.#ask(name, given);
  }

  /* The sentence of a refusal, 1 to 17. */
  sentence(number) {
    return this.#sentence(number);
  }

  /* The library, if it is one: not something with the same names. */
  static judge(library) {
    const isObject = typeof library === "object" && library !== null;
    if (!isObject || !(#calls in library)) throw new TypeError(`library must be a Library, not ${spoken(library)}`);
    return library;
  }
}

/* A library's calls as they stand above. A property that a caller put on it, or a class of a caller's, cannot answer in their place. */
const { judge: judgedLibrary } = Library;
const { call: ownCall, ask: ownAsk, sentence: ownSentence } = Library.prototype;
const called = (library, name, ...given) => ownCall.call(judgedLibrary(library), name, ...given);
const asked = (library, name, ...given) => ownAsk.call(judgedLibrary(library), name, ...given);

const refusalText = (library, number) => ownSentence.call(judgedLibrary(library), number);
const release = (library) => called(library, "release");

function params(library, call, gSquared) {
  const factors = new Float64Array(3);
  asked(library, call, gSquared, factors);
  return { gSquared: factors[0], electric: factors[1], magnetic: factors[2] };
}

/* The coupling record of a mode: g² and its two factors. */
const u1Params = (library, gSquared) => params(library, "u1_params", gSquared);
const su2Params = (library, gSquared) => params(library, "su2_params", gSquared);

/* The product of row lists, {starts, columns, values}, with a vector. The lists may be anyone's. */
function matvec(library, rows, vector) {
  const { starts, columns, values } = rows;
  const matrix = [listOf("starts", "u32", starts), listOf("columns", "u32", columns), listOf("values", "f64", values)];
  const amplitudes = listOf("vector", "f64", vector);
  // Only now: an array's own reader, which runs while it is copied, may shorten a typed array.
  const [result] = newLists(["f64", lengthOf(amplitudes)]);
  asked(library, "matvec", ...matrix, amplitudes, result);
  return result;
}

/* A sheet that the library has judged, and what can be asked of it. */
class Sheet {
  #library;
  #bytes;
  #nVertices;
  #nEdges;

  constructor(library, bytes) {
    this.#library = judgedLibrary(library);
    const given = listOf("bytes", "u8", bytes);
    this.#bytes = new Uint8Array(lengthOf(given));
    copyTo(this.#bytes, given);
    const counts = Array.from({ length: 4 }, () => new BigUint64Array(1));
    const [edges, triangles] = [new Uint8Array(EDGE_BYTES), new Uint8Array(TRIANGLE_BYTES)];
    this.#ask("read_sheet", ...counts, edges, triangles);
    const [nVertices, nEdges, nTriangles, truncation] = counts.map((it) => Number(it[0]));
    this.#nVertices = this.nVertices = nVertices;
    this.#nEdges = nEdges;
    this.edges = grouped(edges.subarray(0, 2 * nEdges), 2);
    this.triangles = grouped(triangles.subarray(0, 3 * nTriangles), 3);
    this.truncation = truncation;
    Object.freeze(this);
  }

  /* From edges as pairs and triangles as triples of vertices. */
  static fromEdges(library, nVertices, edges, triangles, truncation) {
    return Sheet.#made(library, nVertices, flatList("edges", "u8", 2, edges), flatList("triangles", "u8", 3, triangles), truncation);
  }

  /* From pentachora, five vertices each. */
  static fromPentachora(library, nVertices, pentachora, truncation) {
    const flat = flatList("pentachora", "u64", 5, pentachora);
    const [edges, triangles, nTriangles] = [new Uint8Array(EDGE_BYTES), new Uint8Array(TRIANGLE_BYTES), new BigUint64Array(1)];
    const nEdges = asked(library, "from_pentachorons", nVertices, flat, edges, triangles, nTriangles);
    return Sheet.#made(library, nVertices, edges.slice(0, 2 * nEdges), triangles.slice(0, 3 * Number(nTriangles[0])), truncation);
  }

  static #made(library, nVertices, edges, triangles, truncation) {
    const sheet = new Uint8Array(11 + EDGE_BYTES + TRIANGLE_BYTES);
    const length = asked(library, "make_sheet", nVertices, edges, triangles, truncation, sheet);
    return new Sheet(library, sheet.slice(0, length));
  }

  #ask(name, ...given) {
    return asked(this.#library, name, this.#bytes, ...given);
  }

  /* The same for the two calls that can refuse with 17: they write their finding to three lent numbers. */
  #place(name, ...given) {
    const [vertex, excess, edge] = [new BigUint64Array(1), new BigInt64Array(1), new BigUint64Array(1)];
    const answer = called(this.#library, name, this.#bytes, ...given, vertex, excess, edge);
    if (answer >= 0) return answer;
    const sentence = refusalText(this.#library, -answer);
    if (answer !== -17) throw new Refused(-answer, sentence);
    const breaksLaw = { kind: "breaksLaw", vertex: Number(vertex[0]), excess: Number(excess[0]) };
    throw new NotInBasis(sentence, excess[0] !== 0n ? breaksLaw : { kind: "outsideBand", edge: Number(edge[0]) });
  }

  toBytes() {
    return this.#bytes.slice();
  }

  /* The numbers of a triangle's edges (a,b), (a,c), (b,c). */
  triEdgeIndices(triangle) {
    const indices = new BigUint64Array(3);
    this.#ask("tri_edge_indices", triangle, indices);
    return Array.from(indices, Number);
  }

  spanningTree() {
    const [tree, free] = newLists(["u32", this.#nVertices], ["u32", this.#nEdges]);
    const nFree = this.#ask("spanning_tree", tree, free);
    return { tree: Array.from(tree.subarray(0, this.#nVertices - 1)), free: Array.from(free.subarray(0, nFree)) };
  }

  /* The fundamental loops: for each free edge its steps, {edge, direction}. */
  loops() {
    const [starts, edges, directions] = newLists(["u32", this.#nEdges + 1], ["u8", LONGEST_LOOPS], ["i8", LONGEST_LOOPS]);
    const nLoops = this.#ask("fundamental_loops", starts, edges, directions);
    const steps = Array.from(edges, (edge, at) => ({ edge, direction: directions[at] }));
    return Array.from({ length: nLoops }, (_, loop) => steps.slice(starts[loop], starts[loop + 1]));
  }

  /* The same as edges alone. */
  su2Loops() {
    const [starts, edges] = newLists(["u32", this.#nEdges + 1], ["u8", LONGEST_LOOPS]);
    const nLoops = this.#ask("su2_fundamental_loops", starts, edges);
    return Array.from({ length: nLoops }, (_, loop) => Array.from(edges.subarray(starts[loop], starts[loop + 1])));
  }

  /* null where the law holds at every vertex, else the finding. */
  checkGaussLaw(configuration) {
    const [vertex, excess] = [new BigUint64Array(1), new BigInt64Array(1)];
    const holds = this.#ask("check_gauss_law_finding", listOf("configuration", "i32", configuration), vertex, excess);
    return holds === 1 ? null : { kind: "breaksLaw", vertex: Number(vertex[0]), excess: Number(excess[0]) };
  }

  countStates() {
    return this.#ask("count_states");
  }

  su2CountStates() {
    return this.#ask("su2_count_states");
  }

  countEntries() {
    return this.#ask("count_entries");
  }

  su2CountEntries() {
    return this.#ask("su2_count_entries");
  }

  /* The number of states in U(1) or in Z2, with the kind and length of their list. */
  #basis(isSu2) {
    const n = this.#ask(isSu2 ? "su2_count_states" : "count_states");
    return { n, size: isSu2 ? ["u64", n] : ["i32", n * this.#nEdges] };
  }

  /* All states, one after the other: the value of edge e in state s is values[s * nEdges + e]. */
  states() {
    const [values] = newLists(this.#basis(false).size);
    return { n: this.#ask("enumerate_gauge_invariant", values), nEdges: this.#nEdges, values };
  }

  /* All even edge sets as masks: bit e says that edge e is in the set. */
  su2States() {
    const [masks] = newLists(this.#basis(true).size);
    return { n: this.#ask("su2_basis", masks), masks };
  }

  configToIndex(configuration) {
    const [states] = newLists(this.#basis(false).size);
    return this.#place("config_to_index_finding", listOf("configuration", "i32", configuration), workList(states));
  }

  /* The place of the configuration that has `delta` more on one edge, and that configuration. */
  applyShift(configuration, edge, delta) {
    const [states, shifted] = newLists(this.#basis(false).size, ["i32", this.#nEdges]);
    const place = this.#place("apply_shift_finding", listOf("configuration", "i32", configuration), edge, delta, workList(states), shifted);
    return { place, configuration: shifted };
  }

  applyTriangleShift(triangle, place) {
    const [states] = newLists(this.#basis(false).size);
    return this.#ask("apply_triangle_shift", triangle, place, workList(states));
  }

  /*
   * What the calls on the Hamiltonian take first: g², its factors, whether weights are given, and the weights. The factors of a g² out of
   * its range are zeros here, so that the call itself refuses, with the smallest number that holds.
   */
  #coupling(isSu2, gSquared, weights) {
    const factors = new Float64Array(3);
    called(this.#library, isSu2 ? "su2_params" : "u1_params", gSquared, factors);
    const isGiven = weights !== null;
    return [gSquared, factors[1], factors[2], isGiven, isGiven ? listOf("weights", "f64", weights) : new Float64Array(0)];
  }

  #dense(isSu2, gSquared, weights) {
    const coupling = this.#coupling(isSu2, gSquared, weights);
    const { n, size } = this.#basis(isSu2);
    const [states, values] = newLists(size, ["f64", n * n]);
    this.#ask(isSu2 ? "build_su2_hamiltonian" : "build_hamiltonian", ...coupling, workList(states), values);
    return { n, values };
  }

  /* The Hamiltonian as a dense matrix: row i, column j is values[i * n + j]. */
  hamiltonian(gSquared, weights = null) {
    return this.#dense(false, gSquared, weights);
  }

  su2Hamiltonian(gSquared, weights = null) {
    return this.#dense(true, gSquared, weights);
  }

  #rowLists(isSu2, gSquared, weights) {
    const coupling = this.#coupling(isSu2, gSquared, weights);
    const { n, size } = this.#basis(isSu2);
    const entries = this.#ask(isSu2 ? "su2_count_entries" : "count_entries");
    const [states, starts, columns, values] = newLists(size, ["u32", n + 1], ["u32", entries], ["f64", entries]);
    this.#ask(isSu2 ? "build_csr_su2" : "build_csr", ...coupling, workList(states), starts, columns, values);
    return { n, starts, columns, values };
  }

  /* The Hamiltonian as row lists: row i has the entries from starts[i] up to but without starts[i + 1]. */
  csr(gSquared, weights = null) {
    return this.#rowLists(false, gSquared, weights);
  }

  su2Csr(gSquared, weights = null) {
    return this.#rowLists(true, gSquared, weights);
  }

  #product(isSu2, gSquared, vector, weights) {
    const coupling = this.#coupling(isSu2, gSquared, weights);
    const { n, size } = this.#basis(isSu2);
    const [states, result] = newLists(size, ["f64", n]);
    this.#ask(isSu2 ? "su2_hamiltonian_matvec" : "hamiltonian_matvec", ...coupling, listOf("vector", "f64", vector), workList(states), result);
    return result;
  }

  /* The product of the Hamiltonian with a vector, without a matrix. */
  matvec(gSquared, vector, weights = null) {
    return this.#product(false, gSquared, vector, weights);
  }

  su2Matvec(gSquared, vector, weights = null) {
    return this.#product(true, gSquared, vector, weights);
  }

  /* The squares of the field, one for each edge, in a state: amplitudes, one for each basis state. */
  electricFieldSq(state) {
    const [states, squares] = newLists(this.#basis(false).size, ["f64", this.#nEdges]);
    this.#ask("electric_field_sq", listOf("state", "f64", state), workList(states), squares);
    return squares;
  }

  /* The expectation of a Wilson loop along steps {edge, direction}, with direction 1 or -1, in a state. */
  wilson(path, state) {
    const [edges, directions] = stepLists(path);
    const [states, expectation] = newLists(this.#basis(false).size, ["f64", 1]);
    this.#ask("wilson_loop", listOf("state", "f64", state), edges, directions, workList(states), expectation);
    return expectation[0];
  }

  #su2Loop(name, path, state) {
    const [states, expectation] = newLists(this.#basis(true).size, ["f64", 1]);
    this.#ask(name, listOf("state", "f64", state), listOf("path", "u8", path), workList(states), expectation);
    return expectation[0];
  }

  /* The same in Z2 along edge numbers, by the set of the path's edges. */
  su2Wilson(path, state) {
    return this.#su2Loop("su2_wilson_loop", path, state);
  }

  /* The same, each edge counted by its passes modulo two. */
  su2WilsonPasses(path, state) {
    return this.#su2Loop("su2_wilson_passes", path, state);
  }
}

if (typeof module !== "undefined") {
  module.exports = { Library, Sheet, Refused, NotInBasis, matvec, u1Params, su2Params, refusalText, release };
}
