"use strict";
/* What zibrotka.js gives for the worked cases, and that misuse is thrown and refusals are told. `check.js` runs it. */
const assert = require("node:assert");
const fs = require("node:fs");
const os = require("node:os");
const path = require("node:path");
const { ROOT, CALLS, WASM, instances, check, same, throws, refuses, sentencesTold, zibrotka } = require("./check.js");
const { Library, Sheet, NotInBasis, matvec, u1Params, su2Params, refusalText, release } = zibrotka;

const TRIANGLE = [3, [[0, 1], [0, 2], [1, 2]], [[0, 1, 2]], 1];
const BYTES = new Uint8Array([0x47, 0x4c, 0x53, 1, 0, 3, 3, 1, 0, 1, 0, 0, 1, 0, 2, 1, 2, 0, 1, 2]);
/* With more memory free than this, a call is made with a list above the first two gigabytes. */
const MEMORY_FOR_LARGE = 9e9;

const triangle = (library) => Sheet.fromEdges(library, ...TRIANGLE);

/* The cases of docs/SCOPE.md, by Sheet: complexes, states and places. */
function checkWorkedComplexes(library) {
  const sheet = triangle(library);
  same("the triangle's bytes", sheet.toBytes(), BYTES);
  same("the triangle's fields", [sheet.nVertices, sheet.edges, sheet.triangles, sheet.truncation], TRIANGLE);
  same("the triangle, read", new Sheet(library, Array.from(BYTES)).toBytes(), BYTES);
  same("its tree", sheet.spanningTree(), { tree: [0, 1], free: [2] });
  same("its sides", sheet.triEdgeIndices(0), [0, 1, 2]);
  same("its states", sheet.states(), { n: 3, nEdges: 3, values: Int32Array.of(-1, 1, -1, 0, 0, 0, 1, -1, 1) });
  same("its masks", sheet.su2States(), { n: 2, masks: BigUint64Array.of(0n, 7n) });
  same("its counts", [sheet.countStates(), sheet.su2CountStates(), sheet.countEntries(), sheet.su2CountEntries()], [3, 2, 6, 3]);
  same("its loops", sheet.loops(), [[{ edge: 0, direction: -1 }, { edge: 1, direction: 1 }, { edge: 2, direction: -1 }]]);
  same("its loops in Z2", sheet.su2Loops(), [[0, 1, 2]]);
  same("a place", sheet.configToIndex([1, -1, 1]), 2);
  same("a triangle's shift", sheet.applyTriangleShift(0, 0), 1);
  same("a shift by nothing", sheet.applyShift([1, -1, 1], 0, 0), { place: 2, configuration: Int32Array.of(1, -1, 1) });
  same("the release", release(library), 10000);
  same("one pentachoron", Sheet.fromPentachora(library, 5, [[4, 3, 2, 1, 0]], 2).countStates(), 4175);
  same("one vertex", Sheet.fromEdges(library, 1, [], [], 0).states(), { n: 1, nEdges: 0, values: new Int32Array(0) });
}

/* The same: matrices, products and expectations. */
function checkWorkedFloats(library) {
  const sheet = triangle(library);
  const dense = [1.5, -0.5, 0, -0.5, 0, -0.5, 0, -0.5, 1.5];
  same("its matrix", sheet.hamiltonian(1), { n: 3, values: Float64Array.from(dense) });
  same("its matrix in Z2", sheet.su2Hamiltonian(1), { n: 2, values: Float64Array.of(0, -0.5, -0.5, 1.125) });
  const rows = sheet.csr(1);
  same("its row starts", rows.starts, Uint32Array.of(0, 2, 4, 6));
  same("its product", sheet.matvec(1, [1, 2, 3]), Float64Array.of(0.5, -2, 3.5));
  same("its product by row lists", matvec(library, rows, Float64Array.of(1, 2, 3)), Float64Array.of(0.5, -2, 3.5));
  same("its product in Z2", sheet.su2Matvec(1, [3, 5]), matvec(library, sheet.su2Csr(1), [3, 5]));
  same("its squares", sheet.electricFieldSq([1, 2, 3]), Float64Array.of(10, 10, 10));
  same("its expectation", sheet.wilson(sheet.loops()[0], [1, 2, 3]), 8);
  same("an edge and back", sheet.wilson([{ edge: 0, direction: 1 }, { edge: 0, direction: -1 }], [1, 2, 3]), 5);
  same("in Z2", [sheet.su2Wilson([0, 1, 2], [3, 5]), sheet.su2Wilson([0, 0], [3, 5]), sheet.su2WilsonPasses([0, 0], [3, 5])], [-16, -16, 34]);
  const weighted = sheet.csr(3, [2 ** -1071]);
  same("a small weight", [weighted.values[1], sheet.hamiltonian(3, [2 ** -1071]).values[1]], [-(2 ** -1074), -(2 ** -1073)]);
  same("couplings", [u1Params(library, 1), su2Params(library, 1)], [
    { gSquared: 1, electric: 0.5, magnetic: -1 },
    { gSquared: 1, electric: 0.375, magnetic: -0.5 },
  ]);
}

function checkWorkedCases(library) {
  checkWorkedComplexes(library);
  checkWorkedFloats(library);
}

const [u8, i32, f64] = [(n) => new Uint8Array(n), (n) => new Int32Array(n), (n) => new Float64Array(n)];
const one = () => new BigUint64Array(1);

/* Calls that are none, and arguments of a wrong kind or length. */
function checkKinds(library) {
  const dense = (given, weights) => library.call("build_hamiltonian", BYTES, 1, 0.5, -1, given, weights, i32(9), f64(9));
  throws(RangeError, ["no call", "nothing"], () => library.call("nothing"));
  throws(TypeError, ["takes 1 arguments, not 0"], () => library.call("count_states"));
  throws(TypeError, ["given", "true or false"], () => dense(2, f64(1)));
  throws(TypeError, ["given", "true or false"], () => dense(1, f64(1)));
  throws(TypeError, ["given", "true or false"], () => dense("true", f64(1)));
  throws(TypeError, ["weights", "Float64Array"], () => dense(true, new Float32Array(1)));
  throws(TypeError, ["weights", "Float64Array"], () => dense(false, [1]));
  throws(TypeError, ["sheet", "Uint8Array", "Uint8ClampedArray"], () => library.call("count_states", Uint8ClampedArray.from(BYTES)));
  throws(TypeError, ["sheet", "Uint8Array", "Int8Array"], () => library.call("count_states", Int8Array.from(BYTES)));
  const posing = { length: 20, byteLength: 20, byteOffset: 0, buffer: BYTES.buffer, [Symbol.toStringTag]: "Uint8Array" };
  throws(TypeError, ["sheet", "Uint8Array", "an object"], () => library.call("count_states", posing));
  throws(TypeError, ["sheet", "null"], () => library.call("count_states", null));
  throws(TypeError, ["sheet", "shared memory"], () => library.call("count_states", new Uint8Array(new SharedArrayBuffer(20))));
  const readSheet = (second, edges) => library.call("read_sheet", BYTES, one(), second, one(), one(), edges, u8(768));
  throws(RangeError, ["edges", "126 entries, not 125"], () => readSheet(one(), u8(125)));
  throws(RangeError, ["n_edges", "1 entries, not 2"], () => readSheet(new BigUint64Array(2), u8(126)));
  throws(RangeError, ["indices", "3 entries"], () => library.call("tri_edge_indices", BYTES, 0, new BigUint64Array(4)));
}

/* Numbers that are none, or outside their range. */
function checkNumbers(library) {
  const sides = (triangle) => library.call("tri_edge_indices", BYTES, triangle, new BigUint64Array(3));
  const shift = (delta) => library.call("apply_shift", BYTES, i32(3), 0, delta, i32(9), i32(3));
  throws(RangeError, ["triangle", "-1"], () => sides(-1));
  throws(RangeError, ["triangle", "18446744073709551616"], () => sides(2n ** 64n));
  throws(RangeError, ["triangle", "BigInt"], () => sides(2 ** 53));
  throws(TypeError, ["triangle", "0.5"], () => sides(0.5));
  throws(TypeError, ["triangle", "NaN"], () => sides(NaN));
  throws(TypeError, ["triangle", "string"], () => sides("0"));
  throws(RangeError, ["delta", "2147483648"], () => shift(2 ** 31));
  throws(RangeError, ["delta", "-2147483649"], () => shift(-(2n ** 31n) - 1n));
  throws(TypeError, ["g_squared", "1"], () => library.call("u1_params", 1n, f64(3)));
  throws(TypeError, ["g_squared", "string"], () => library.call("u1_params", "1", f64(3)));
}

/* Lists that share memory. */
function checkOverlaps(library) {
  const memory = new ArrayBuffer(4096);
  const part = (Kind, at, length) => new Kind(memory, at, length);
  const overlapping = ["overlaps", "configuration", "states"];
  throws(RangeError, overlapping, () => library.call("config_to_index", BYTES, part(Int32Array, 0, 3), part(Int32Array, 8, 9)));
  throws(RangeError, overlapping, () => library.call("config_to_index", BYTES, part(Int32Array, 40, 3), part(Int32Array, 8, 9)));
  const shift = (states, result) => library.call("apply_shift", BYTES, i32(3), 0, 0, states, result);
  throws(RangeError, ["overlaps", "states", "result"], () => shift(part(Int32Array, 0, 9), part(Int32Array, 32, 3)));
  throws(RangeError, ["overlaps", "sheet", "states"], () => library.call("su2_basis", part(Uint8Array, 5, 20), part(BigUint64Array, 0, 2)));
  throws(RangeError, ["overlaps", "n_vertices", "n_edges"], () => {
    const both = one();
    library.call("read_sheet", BYTES, both, both, one(), one(), u8(126), u8(768));
  });
  same("lists side by side", library.call("config_to_index", BYTES, part(Int32Array, 0, 3), part(Int32Array, 12, 9)), 1);
  same("an empty list inside another", library.call("spanning_tree", BYTES, part(Uint32Array, 0, 4), part(Uint32Array, 8, 0)), -15);
  const read = f64(3);
  same("lists that are only read may be one", library.call("matvec", Uint32Array.of(0, 1, 2, 3), Uint32Array.of(0, 1, 2), read, read, f64(3)), 0);
}

/* The same by Sheet and the functions beside it. */
function checkSheetArguments(library) {
  const sheet = triangle(library);
  throws(RangeError, ["edges[1][1]", "300"], () => Sheet.fromEdges(library, 3, [[0, 1], [0, 300]], [], 1));
  throws(RangeError, ["edges[0][0]", "-1"], () => Sheet.fromEdges(library, 3, [[-1, 1]], [], 1));
  throws(TypeError, ["edges[1]", "2 vertices"], () => Sheet.fromEdges(library, 3, [[0, 1], [0, 2, 1]], [], 1));
  throws(TypeError, ["triangles[0]", "3 vertices"], () => Sheet.fromEdges(library, 3, [[0, 1]], [0, 1, 2], 1));
  throws(TypeError, ["edges[0][1]", "1.5"], () => Sheet.fromEdges(library, 3, [[0, 1.5]], [], 1));
  throws(TypeError, ["edges", "array"], () => Sheet.fromEdges(library, 3, "01", [], 1));
  throws(TypeError, ["pentachora[0]", "5 vertices"], () => Sheet.fromPentachora(library, 5, [[0, 1, 2, 3]], 1));
  throws(RangeError, ["lambda", "-1"], () => Sheet.fromEdges(library, 3, TRIANGLE[1], [], -1));
  throws(TypeError, ["bytes[0]", "string"], () => new Sheet(library, ["47"]));
  throws(TypeError, ["bytes", "string"], () => new Sheet(library, "GLS"));
  throws(RangeError, ["bytes[0]", "300"], () => new Sheet(library, [300]));
  throws(TypeError, ["configuration[1]", "undefined"], () => sheet.configToIndex([1, undefined, 1]));
  throws(RangeError, ["bytes", "4294967295 bytes"], () => new Sheet(library, new Array(2 ** 32 - 1)));
  throws(RangeError, ["edges", "8589934590 bytes"], () => Sheet.fromEdges(library, 3, new Array(2 ** 32 - 1), [], 1));
  throws(RangeError, ["vector", "34359738360 bytes"], () => sheet.matvec(1, new Array(2 ** 32 - 1)));
  throws(RangeError, ["configuration[0]", "2147483648"], () => sheet.configToIndex([2 ** 31, 0, 0]));
  throws(TypeError, ["configuration", "Int16Array"], () => sheet.checkGaussLaw(new Int16Array(3)));
  throws(TypeError, ["vector[0]", "string"], () => sheet.matvec(1, ["1", 2, 3]));
  throws(TypeError, ["vector", "Float32Array"], () => sheet.matvec(1, new Float32Array(3)));
  throws(TypeError, ["weights", "number"], () => sheet.matvec(1, [1, 2, 3], 1));
  throws(TypeError, ["g_squared", "string"], () => sheet.hamiltonian("1"));
  throws(TypeError, ["path, edge[0]", "undefined"], () => sheet.wilson([[0, 1]], [1, 2, 3]));
  throws(RangeError, ["path, direction[0]", "255"], () => sheet.wilson([{ edge: 0, direction: 255 }], [1, 2, 3]));
  throws(RangeError, ["path[0]", "256"], () => sheet.su2Wilson([256], [3, 5]));
  throws(TypeError, ["columns", "array"], () => matvec(library, { starts: [0, 0], values: [] }, [1]));
}

const shipped = (name) => new Uint8Array(fs.readFileSync(path.join(ROOT, "sheets", name)));

/* A thing with properties of its own, whatever it and its class have under these names. */
function posing(thing, own) {
  for (const name of Reflect.ownKeys(own)) Object.defineProperty(thing, name, { value: own[name] });
  return thing;
}

/* A class that has a wrong answer wherever a list could be asked what it is. */
class Posing extends Uint8Array {
  get length() { return 64; }
  get byteLength() { return 64; }
  get byteOffset() { return 8; }
  get buffer() { return new ArrayBuffer(64); }
  get [Symbol.toStringTag]() { return "Int8Array"; }
  static get [Symbol.species]() { return Float64Array; }
  *[Symbol.iterator]() { yield 1; }
  set() { return undefined; }
  slice() { return new Uint8Array(3); }
  subarray() { return new Uint8Array(3); }
}

/* Typed arrays that tell of themselves what is not so. */
function checkPosingLists(library) {
  const whole = shipped("tetrahedron.gls");
  same("a whole sheet", library.call("count_states", whole), 15);
  same("a front of it that calls itself whole", library.call("count_states", posing(whole.slice(0, 12), { length: whole.length })), -6);
  const memory = new ArrayBuffer(4096);
  for (const own of [{ buffer: new ArrayBuffer(4096) }, { byteOffset: 2048 }, { byteLength: 0 }, { length: 0 }]) {
    const states = posing(new Int32Array(memory, 8, 9), own);
    throws(RangeError, ["overlaps"], () => library.call("config_to_index", BYTES, new Int32Array(memory, 0, 3), states));
  }
  const listed = Int32Array.of(-1, 1, -1, 0, 0, 0, 1, -1, 1);
  const states = posing(i32(9), { set: () => undefined });
  same("a list that would not be written to", [library.call("enumerate_gauge_invariant", BYTES, states), [...states]], [3, [...listed]]);
  const shown = posing(i32(3), { length: 9, byteLength: 36 });
  same("a short list that calls itself long", library.call("enumerate_gauge_invariant", BYTES, shown), -15);
  same("a class of its own, lent", library.call("count_states", new Posing(BYTES)), 3);
  const own = new Sheet(library, new Posing(BYTES));
  same("a class of its own, kept", [own.toBytes(), own.states().values], [BYTES, listed]);
  same("an edge of this class", Sheet.fromEdges(library, 2, [new Posing([0, 1])], [], 1).edges, [[0, 1]]);
  same("node's Buffer", [new Sheet(library, Buffer.from(BYTES)).toBytes(), library.call("count_states", Buffer.from(BYTES))], [BYTES, 3]);
}

const inMemory = (buffer) => {
  new Uint8Array(buffer).set(BYTES);
  return buffer;
};

function judgesShared(library, buffer) {
  throws(TypeError, ["sheet", "shared memory"], () => library.call("count_states", new Uint8Array(buffer)));
  throws(TypeError, ["bytes", "shared memory"], () => new Sheet(library, new Uint8Array(buffer)));
}

function judgesGone(library, list) {
  throws(TypeError, ["sheet", "no longer there"], () => library.call("count_states", list));
  throws(TypeError, ["bytes", "no longer there"], () => new Sheet(library, list));
}

/* Memory that is shared or gone. */
function checkMemory(library) {
  judgesShared(library, posing(inMemory(new SharedArrayBuffer(20)), { [Symbol.toStringTag]: "ArrayBuffer", byteLength: 20 }));
  const handedOver = BYTES.slice();
  structuredClone(handedOver.buffer, { transfer: [handedOver.buffer] });
  judgesGone(library, handedOver);
}

/* Memory of changing size. Node 18 has none. */
function checkChangingMemory(library) {
  if (!("resize" in ArrayBuffer.prototype)) {
    console.log("web: not done here: lists in memory that changes its size, for there is no such memory in this node");
    return;
  }
  judgesShared(library, inMemory(new SharedArrayBuffer(20, { maxByteLength: 40 })));
  const buffer = inMemory(new ArrayBuffer(20, { maxByteLength: 40 }));
  const [fixed, following] = [new Uint8Array(buffer, 0, 20), new Uint8Array(buffer)];
  same("memory that may change its size", [library.call("count_states", fixed), library.call("count_states", following)], [3, 3]);
  buffer.resize(19);
  judgesGone(library, fixed);
  same("a shortened list", library.call("count_states", following), -6);
  const vector = new Float64Array(new ArrayBuffer(24, { maxByteLength: 24 }));
  vector.set([5, 6, 7]);
  const starts = Object.defineProperty([0, 1], 0, { get: () => vector.buffer.resize(8) ?? 0 });
  same("a vector shortened while another list is copied", matvec(library, { starts, columns: [0], values: [2] }, vector), Float64Array.of(10));
}

/* An array that answers the first time with `first`, and then with `then`, when it is asked for its entry or its length. */
function changing(array, name, first, then) {
  let count = 0;
  return new Proxy(array, { get: (target, key) => (key === name ? (count++ === 0 ? first : then) : target[key]) });
}

/* Arrays that answer otherwise when they are asked again, or have functions of their own. */
function checkPosingArrays(library) {
  const sheet = triangle(library);
  const edges = (...given) => Sheet.fromEdges(library, 3, [...given, [1, 2]], [], 1).edges;
  const wanted = [[0, 1], [1, 2]];
  same("an edge with an iterator of its own", edges(posing([0, 1], { *[Symbol.iterator]() { yield* [0, 2]; } })), wanted);
  same("an edge with a changing length", edges(changing([0, 1], "length", 2, 1)), wanted);
  same("an edge with a changing entry", edges(changing([0, 1], "1", 1, 2)), wanted);
  same("edges with a changing length", Sheet.fromEdges(library, 3, changing(wanted, "length", 2, 1), [], 1).edges, wanted);
  same("a changing configuration", sheet.configToIndex(changing([1, -1, 1], "length", 3, 2)), 2);
  same("a changing entry", sheet.checkGaussLaw(changing([1, -1, 1], "0", 1, 2)), null);
  const own = { map: () => [], slice: () => [], [Symbol.iterator]: null };
  same("a configuration with functions of its own", sheet.configToIndex(posing([1, -1, 1], own)), 2);
  for (const length of [NaN, -1, 1.5, Infinity, "3", { valueOf: () => 3 }]) {
    throws(TypeError, ["configuration", "entries"], () => sheet.configToIndex(changing([1, -1, 1], "length", length, 3)));
    throws(TypeError, ["edges", "entries"], () => Sheet.fromEdges(library, 3, changing(wanted, "length", length, 2), [], 1));
  }
  throws(RangeError, ["configuration", "bytes"], () => sheet.configToIndex(changing([], "length", 2 ** 60, 0)));
  for (const edge of [{ 0: 0, 1: 1, length: 2 }, "01", null, new Uint8Array(3)]) throws(TypeError, ["edges[0]", "2 vertices"], () => edges(edge));
  const state = [1, 2, 3];
  const path = sheet.loops()[0];
  same("a path with a map of its own", sheet.wilson(posing([...path], { map: () => [] }), state), 8);
  same("a path with a changing step", sheet.wilson(changing([...path], "0", path[0], { edge: 0, direction: 1 }), state), 8);
  same("a path with a changing length", sheet.wilson(changing([...path], "length", 3, 0), state), 8);
  same("a step with a changing edge", sheet.wilson([changing({ direction: -1 }, "edge", 0, 1), ...path.slice(1)], state), 8);
  throws(TypeError, ["path", "an object"], () => sheet.wilson({ map: () => [], length: 0 }, state));
  throws(TypeError, ["path, edge[0]", "undefined"], () => sheet.wilson([null], state));
}

/* Values that are no numbers, or that would run something when they are read as one. */
function checkPosingValues(library) {
  const made = (n) => Sheet.fromEdges(library, n, [], [], 1);
  const must = "make_sheet: n_vertices must be a whole number, not";
  const mute = posing(() => 1, { toString() { throw new Error("its own"); }, valueOf: () => 1 });
  throws(TypeError, [`${must} a function`], () => made(mute));
  throws(TypeError, [`${must} a function`], () => made(class Count {}));
  throws(TypeError, [`${must} a symbol`], () => made(Symbol("1")));
  for (const value of [{ valueOf: () => 1 }, new Number(1), Object(1n), { [Symbol.toPrimitive]: () => 1 }]) {
    throws(TypeError, [`${must} an object`], () => made(value));
  }
  throws(TypeError, ["g_squared", "an object"], () => triangle(library).matvec(new Number(1), [1, 2, 3]));
  throws(TypeError, ["given", "an object"], () => library.call("build_hamiltonian", BYTES, 1, 0.5, -1, new Boolean(true), f64(1), i32(9), f64(9)));
  throws(TypeError, ["name of a call", "a function"], () => library.call(mute));
  throws(TypeError, ["name of a call", "an object"], () => library.ask({ toString: () => "release" }));
  const { proxy, revoke } = Proxy.revocable([1, 2, 3], {});
  revoke();
  throws(TypeError, [], () => triangle(library).configToIndex(proxy));
  throws(TypeError, ["sheet", "an object"], () => library.call("count_states", new Proxy(BYTES, {})));
}

/* What takes a library first takes nothing else, and asks a library itself. */
function checkPosingLibraries(library) {
  const answering = { call: () => 5, ask: () => 5, sentence: () => "none", judge: () => true };
  for (const other of [answering, Object.setPrototypeOf({ ...answering }, Library.prototype), new Proxy(library, {}), null, undefined, () => 5]) {
    throws(TypeError, ["library must be a Library"], () => new Sheet(other, BYTES));
    throws(TypeError, ["library must be a Library"], () => Sheet.fromEdges(other, ...TRIANGLE));
    throws(TypeError, ["library must be a Library"], () => Sheet.fromPentachora(other, 5, [[0, 1, 2, 3, 4]], 1));
    throws(TypeError, ["library must be a Library"], () => matvec(other, { starts: [0], columns: [], values: [] }, []));
    for (const take of [u1Params, su2Params, refusalText, release]) throws(TypeError, ["library must be a Library"], () => take(other, 1));
  }
  class Lying extends Library {
    call() { return 5; }
    ask() { return 5; }
    sentence() { return "none"; }
  }
  check("a library of a class of its own", () => {
    const lying = new Lying(new WebAssembly.Module(WASM), CALLS);
    same("its sheet", Sheet.fromEdges(lying, ...TRIANGLE).states().values, triangle(library).states().values);
    same("its sentence", refusalText(lying, 1), refusalText(library, 1));
    same("its factors", u1Params(lying, 1), u1Params(library, 1));
    same("its release", release(lying), 10000);
    same("a place by it", new Sheet(lying, BYTES).configToIndex([1, -1, 1]), 2);
    refuses(1, refusalText(library, 1), () => new Sheet(lying, []));
  });
  class Sparse extends Sheet {
    countStates() { return 1; }
    countEntries() { return 1; }
    get edges() { return []; }
    set edges(given) { assert.ok(given); }
  }
  const sparse = new Sparse(library, BYTES);
  same("a sheet of a class of its own", sparse.states(), triangle(library).states());
  same("its row lists", sparse.csr(1), triangle(library).csr(1));
}

/* Lists of zeros that are made here are not copied into the module's memory. It must hold zeros there all the same. */
function checkOwnLists() {
  const library = new Library(new WebAssembly.Module(WASM), CALLS);
  const sheet = triangle(library);
  library.call("enumerate_gauge_invariant", BYTES, i32(100).fill(-1));
  const { tree, free } = sheet.spanningTree();
  const { memory, __heap_base: heapBase } = instances[instances.length - 1].exports;
  const lists = new Uint32Array(memory.buffer, Math.ceil(heapBase.value / 16) * 16 + 32, 8);
  same("where lists have lain", [tree, free, [...lists.subarray(0, 3)], [...lists.subarray(4, 7)]], [[0, 1], [2], [0, 1, 0], [2, 0, 0]]);
  const { values } = sheet.states();
  values.fill(7);
  same("a result, lent again and refused", library.call("enumerate_gauge_invariant", shipped("tetrahedron.gls"), values), -15);
  same("it is as it was", values, i32(9).fill(7));
}

/* A sheet cannot be changed from outside. */
function checkOwnBytes(library) {
  const sheet = triangle(library);
  throws(TypeError, [], () => {
    "use strict";
    sheet.nVertices = 64;
  });
  throws(TypeError, [], () => sheet.edges[0].push(1));
  const lent = BYTES.slice();
  const own = new Sheet(library, lent);
  lent.fill(0);
  same("a sheet keeps its own bytes", own.toBytes(), BYTES);
  own.toBytes().fill(0);
  same("it does not give them away", [own.toBytes(), own.countStates()], [BYTES, 3]);
}

function checkMisuse(library) {
  checkKinds(library);
  checkNumbers(library);
  checkOverlaps(library);
  checkSheetArguments(library);
  checkPosingLists(library);
  checkMemory(library);
  checkChangingMemory(library);
  checkPosingArrays(library);
  checkPosingValues(library);
  checkPosingLibraries(library);
  checkOwnLists();
  checkOwnBytes(library);
}

/* The refusals of a sheet and of pentachora, each with its sentence. */
function checkSheetRefusals(library, told) {
  const changed = (at, value) => {
    const bytes = BYTES.slice();
    bytes[at] = value;
    return new Sheet(library, bytes);
  };
  refuses(1, told[1], () => new Sheet(library, []));
  refuses(2, told[2], () => changed(0, 0x67));
  refuses(3, told[3], () => changed(3, 2));
  refuses(4, told[4], () => Sheet.fromEdges(library, 65, [], [], 1));
  refuses(4, told[4], () => Sheet.fromEdges(library, 2n ** 64n - 1n, [], [], 1));
  refuses(5, told[5], () => Sheet.fromEdges(library, 3, TRIANGLE[1], [], 1001));
  refuses(6, told[6], () => new Sheet(library, BYTES.subarray(0, 19)));
  refuses(7, told[7], () => Sheet.fromEdges(library, 3, [[1, 0], [1, 2]], [], 1));
  refuses(8, told[8], () => Sheet.fromEdges(library, 3, TRIANGLE[1].slice(0, 2), [[0, 1, 2]], 1));
  refuses(9, told[9], () => Sheet.fromEdges(library, 3, [[0, 1]], [], 1));
  refuses(10, told[10], () => new Sheet(library, shipped("two-free-edges-512.gls")).states());
  refuses(10, told[10], () => new Sheet(library, shipped("two-free-edges-512.gls")).hamiltonian(NaN));
  refuses(11, told[11], () => Sheet.fromPentachora(library, 5, [[0, 1, 2, 3, 3]], 1));
  refuses(11, told[11], () => Sheet.fromPentachora(library, 5, [[0, 1, 2, 3, 2n ** 64n - 1n]], 1));
}

/* The refusals of the calls on a sheet. */
function checkCallRefusals(library, told) {
  const sheet = triangle(library);
  refuses(12, told[12], () => sheet.configToIndex([1, -1]));
  refuses(12, told[12], () => sheet.matvec(1, [1, 2]));
  refuses(12, told[12], () => sheet.hamiltonian(NaN, [1, 2]));
  refuses(13, told[13], () => sheet.triEdgeIndices(1));
  refuses(13, told[13], () => sheet.wilson([{ edge: 0, direction: 2 }], [1, 2, 3]));
  refuses(13, told[13], () => sheet.applyTriangleShift(0, 3));
  refuses(13, told[13], () => matvec(library, { starts: [0, 2], columns: [0], values: [1] }, [1]));
  refuses(13, told[13], () => refusalText(library, 0));
  refuses(13, told[13], () => library.sentence(18));
  for (const g of [NaN, 0, -1, Infinity, 2 ** -33, 2 ** 33]) refuses(14, told[14], () => sheet.csr(g));
  refuses(14, told[14], () => u1Params(library, NaN));
  refuses(14, told[14], () => sheet.su2Matvec(1, [NaN, 1]));
  refuses(14, told[14], () => sheet.su2Hamiltonian(1, [Infinity]));
  const lists = [new Float64Array(0), new Int32Array(9), new Float64Array(9)];
  refuses(14, told[14], () => library.ask("build_hamiltonian", BYTES, 1, 0.5, -2, false, ...lists));
  refuses(15, told[15], () => library.ask("enumerate_gauge_invariant", BYTES, new Int32Array(8)));
  refuses(16, told[16], () => sheet.applyShift([1, -1, 1], 0, 1));
  refuses(16, told[16], () => sheet.applyTriangleShift(0, 2));
  refuses(17, told[17], () => sheet.configToIndex([3, 0, -2]));
  refuses(17, told[17], () => sheet.applyShift([0, 0, 0], 0, 1));
  const states = Int32Array.from({ length: 8 }, (_, at) => at);
  library.call("enumerate_gauge_invariant", BYTES, states);
  same("a refusal changes no list", states, Int32Array.from({ length: 8 }, (_, at) => at));
}

/* Each refusal, by a method where one can meet it. */
function checkRefusals(library) {
  const told = sentencesTold();
  same("the page tells all refusals", Object.keys(told).length, 17);
  for (let number = 1; number <= 17; number++) same(`sentence ${number}`, refusalText(library, number), told[number]);
  checkSheetRefusals(library, told);
  checkCallRefusals(library, told);
}

/* What is told beside 17, and by Gauss's law. */
function checkFindings(library) {
  const sheet = triangle(library);
  const findingOf = (call) => {
    try {
      return call();
    } catch (error) {
      assert.ok(error instanceof NotInBasis && error.number === 17, error.message);
      return error.finding;
    }
  };
  const breaksLaw = (vertex, excess) => ({ kind: "breaksLaw", vertex, excess });
  same("3 0 -2", findingOf(() => sheet.configToIndex([3, 0, -2])), breaksLaw(0, -3));
  same("2 -2 2", findingOf(() => sheet.configToIndex([2, -2, 2])), { kind: "outsideBand", edge: 0 });
  same("0 0 1", findingOf(() => sheet.configToIndex([0, 0, 1])), breaksLaw(1, -1));
  same("a shift", findingOf(() => sheet.applyShift([0, 0, 0], 1, 1)), breaksLaw(0, -1));
  same("a shift into the band", findingOf(() => sheet.applyShift([3, -2, 2], 0, -2)), breaksLaw(0, 1));
  same("a shift that leaves another edge outside", findingOf(() => sheet.applyShift([0, -2, 2], 1, 1)), breaksLaw(0, 1));
  const wide = Sheet.fromEdges(library, 4, [[0, 1], [0, 2], [1, 2], [0, 3]], [], 1);
  same("the lowest edge outside", findingOf(() => wide.applyShift([2, -2, 2, 1], 3, -1)), { kind: "outsideBand", edge: 0 });
  const most = 2 ** 31 - 1;
  same("the law, and the largest values", sheet.checkGaussLaw([most, most, -most - 1]), breaksLaw(0, -2 * most));
  same("the law at the last vertex", sheet.checkGaussLaw([-1, 1, 0]), breaksLaw(1, -1));
  same("the law holds", [sheet.checkGaussLaw([5, -5, 5]), sheet.checkGaussLaw(Int32Array.of(0, 0, 0))], [null, null]);
}

const text = (name) => [name.length, ...Buffer.from(name)];
const section = (number, ...content) => [number, content.length, ...content];

/*
 * A module made by hand: a memory of five pages, the first free byte at 1024, `zibrotka_release` with the release 10000 or another, and functions
 * without parameters that stop at once.
 */
function handmade(release, stopping) {
  const names = ["zibrotka_release", ...stopping];
  const bodies = [[4 + release.length - 1, 0, 0x42, ...release, 0x0b].map((it, at) => (at === 0 ? release.length + 3 : it))];
  stopping.forEach(() => bodies.push([3, 0, 0x00, 0x0b]));
  const exported = [[...text("memory"), 2, 0], [...text("__heap_base"), 3, 0], ...names.map((name, at) => [...text(name), 0, at])];
  return Uint8Array.from([
    0, 0x61, 0x73, 0x6d, 1, 0, 0, 0,
    ...section(1, 1, 0x60, 0, 1, 0x7e),
    ...section(3, names.length, ...names.map(() => 0)),
    ...section(5, 1, 0, 5),
    ...section(6, 1, 0x7f, 0, 0x41, 0x80, 8, 0x0b),
    ...section(7, exported.length, ...exported.flat()),
    ...section(10, bodies.length, ...bodies.flat()),
  ]);
}

/* A module that stops, and modules that do not belong to the list of calls. */
async function checkForeignModules() {
  const [right, wrong] = [[0x90, 0xce, 0x00], [0x91, 0xce, 0x00]];
  const library = await Library.load(handmade(right, ["zibrotka_stops"]), "release() -> u64\nstops() -> i64\n");
  const before = instances.length;
  throws(Error, ["the library stopped in the call stops"], () => library.call("stops"));
  same("a new instance after a stop", [release(library), instances.length], [10000, before + 1]);
  const rejected = async (what, word, bytes, calls) => {
    const error = await Library.load(bytes, calls).then(() => null, (it) => it);
    check(what, () => assert.ok(error?.message.includes(word), String(error)));
  };
  await rejected("another release", "of release 10001", handmade(wrong, []), "release() -> u64\n");
  await rejected("a call too many", "not listed: zibrotka_stops", handmade(right, ["zibrotka_stops"]), "release() -> u64\n");
  await rejected("a call too few", "stops", handmade(right, []), "release() -> u64\nstops() -> i64\n");
  await rejected("a call with other parameters", "stops", handmade(right, ["zibrotka_stops"]), "release() -> u64\nstops(it: u64) -> i64\n");
  await rejected("a list of calls that is none", "no known form", WASM, "release\n");
  await rejected("a list of calls that is no text", "must be a string", WASM, { split: () => [] });
  await rejected("a kind by the name of a function", "no known form", WASM, CALLS.replace("&[u8]", "&[toString]"));
  await rejected("a lent truth value", "no known form", WASM, CALLS.replace("given: bool", "given: &bool"));
  await rejected("a parameter of no known kind", "no known form", WASM, CALLS.replace("&[u8]", "&[u128]"));
  await rejected("bytes that are no module", "", Uint8Array.of(1, 2, 3), CALLS);
}

/* Sizes beyond what the memory holds, and a list that lies above the first two gigabytes. */
function checkLarge(library) {
  const sheet = new Sheet(library, shipped("two-free-edges-511.gls"));
  const before = instances.length;
  throws(RangeError, ["4928506404872 bytes"], () => sheet.hamiltonian(1));
  throws(RangeError, ["bytes"], () => library.call("enumerate_gauge_invariant", BYTES, new Int32Array(2 ** 29)));
  throws(RangeError, ["together"], () => {
    const long = () => new Uint8Array(2 ** 31 - 1);
    library.call("make_sheet", 3, long(), long(), 1, new Uint8Array(905));
  });
  same("the instance is the same after that", instances.length, before);
  const chain = new Sheet(library, shipped("chain.gls"));
  const { n } = chain.states();
  same("a new instance after a call that needed much", [n, chain.countStates(), instances.length], [1046529, 1046529, before + 1]);
  if (os.freemem() < MEMORY_FOR_LARGE) {
    console.log("web: not done here: a list above two gigabytes, for there is no memory");
    return;
  }
  const [edges, triangles, nTriangles] = [new Uint8Array(2 ** 31 - 1), new Uint8Array(40), new BigUint64Array(1)];
  edges[20] = triangles[30] = 0xa5;
  same("lists above two gigabytes", library.call("from_pentachorons", 5, BigUint64Array.of(0n, 1n, 2n, 3n, 4n), edges, triangles, nTriangles), 10);
  same("the number written there", nTriangles[0], 10n);
  same("the list written there", triangles.subarray(24, 31), Uint8Array.of(1, 3, 4, 2, 3, 4, 0xa5));
  same("the list before it", edges.subarray(16, 21), Uint8Array.of(2, 4, 3, 4, 0xa5));
}

module.exports = { checkWorkedCases, checkMisuse, checkRefusals, checkFindings, checkForeignModules, checkLarge };
