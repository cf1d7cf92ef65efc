"use strict";
/* Tests zibrotka.js and the module. With a file that native.py wrote, every call in it must answer as the native library did. */
const assert = require("node:assert");
const { createHash } = require("node:crypto");
const { once } = require("node:events");
const fs = require("node:fs");
const path = require("node:path");
const readline = require("node:readline");
const vm = require("node:vm");

const ROOT = path.dirname(__dirname);
const SHEETS = path.join(ROOT, "sheets");
const WASM = fs.readFileSync(path.join(ROOT, "target/web/zibrotka.wasm"));
const CALLS = fs.readFileSync(path.join(ROOT, "bindings/python/zibrotka/calls.txt"), "utf8");
const STACK = 262144;
/* What must be left of the stack. */
const STACK_SPARE = 131072;
const LEAST_SHEETS = 3000;
const LEAST_ANSWERED = 300;
const KINDS = {
  u8: Uint8Array, i8: Int8Array, i32: Int32Array, u32: Uint32Array, u64: BigUint64Array, i64: BigInt64Array, f64: Float64Array,
};

/* Every instance that zibrotka.js makes is kept here, its stack filled, so that it shows how deep the calls went. */
const instances = [];
const Instance = WebAssembly.Instance;
WebAssembly.Instance = function (...given) {
  const made = new Instance(...given);
  new Uint8Array(made.exports.memory.buffer, 0, STACK).fill(0xa5);
  instances.push(made);
  return made;
};

const zibrotka = require("./zibrotka.js");
const { Library, Sheet, Refused, NotInBasis } = zibrotka;

let checks = 0;
let failed = 0;

function check(what, test) {
  checks += 1;
  try {
    test();
  } catch (error) {
    failed += 1;
    if (failed <= 20) console.log(`web: ${what}: ${error.stack}`);
  }
}

/* That a call throws an error of the class, with the words in its message. */
function throws(Class, words, call) {
  check(`${call.toString()} throws ${Class.name}`, () => {
    try {
      call();
    } catch (error) {
      assert.strictEqual(error.constructor, Class, `${error.name}: ${error.message}`);
      for (const word of words) assert.ok(error.message.includes(word), `no "${word}" in: ${error.message}`);
      return;
    }
    assert.fail("nothing was thrown");
  });
}

/* That a call is refused with the number and its sentence. */
function refuses(number, sentence, call) {
  check(`${call.toString()} is refused with ${number}`, () => {
    try {
      call();
    } catch (error) {
      assert.ok(error instanceof Refused, `${error.name}: ${error.message}`);
      assert.deepStrictEqual([error.number, error.sentence], [number, sentence]);
      assert.strictEqual(error.message, `refused ${number}: ${sentence}`);
      assert.strictEqual(error instanceof NotInBasis, number === 17);
      return error;
    }
    return assert.fail("it was answered");
  });
}

const same = (what, found, wanted) => check(what, () => assert.deepStrictEqual(found, wanted));

/* The sentences of docs/REFUSALS.md by number. */
function sentencesTold() {
  const page = fs.readFileSync(path.join(ROOT, "docs/REFUSALS.md"), "utf8");
  return Object.fromEntries([...page.matchAll(/^\| (\d+) \| (.*) \|$/gm)].map((it) => [Number(it[1]), it[2]]));
}

/* The checksum of POSIX's cksum: the bytes and then their number, low byte first, by the polynomial 0x04c11db7. */
const CKSUM = Uint32Array.from({ length: 256 }, (_, byte) => {
  let sum = byte << 24;
  for (let bit = 0; bit < 8; bit++) sum = sum & 0x80000000 ? (sum << 1) ^ 0x04c11db7 : sum << 1;
  return sum >>> 0;
});

class Cksum {
  sum = 0;
  length = 0;

  add(bytes) {
    for (const byte of bytes) this.sum = ((this.sum << 8) ^ CKSUM[(this.sum >>> 24) ^ byte]) >>> 0;
    this.length += bytes.length;
  }

  told() {
    const length = [];
    for (let rest = this.length; rest > 0; rest = Math.floor(rest / 256)) length.push(rest % 256);
    const bytes = this.length;
    this.add(length);
    this.length = bytes;
    return ~this.sum >>> 0;
  }
}

/* The lines that `basis list` prints, some at a time. */
function* listing(library, bytes) {
  let sheet, states;
  try {
    sheet = new Sheet(library, bytes);
    states = sheet.states();
  } catch (error) {
    if (!(error instanceof Refused)) throw error;
    yield [`refused ${error.number}`];
    return;
  }
  const { n, nEdges, values } = states;
  yield [`vertices ${sheet.nVertices} edges ${nEdges} triangles ${sheet.triangles.length} lambda ${sheet.truncation} dim ${n}`];
  for (let from = 0; from < n; from += 4096) {
    const lines = [];
    for (let at = from; at < Math.min(from + 4096, n); at++) lines.push([at, ...values.subarray(at * nEdges, (at + 1) * nEdges)].join(" "));
    yield lines;
  }
}

/* All shipped sheets, against sheets/expected. */
function checkSheets(library) {
  const expected = fs.readFileSync(path.join(SHEETS, "expected"), "utf8").trimEnd().split("\n");
  const sheets = fs.readdirSync(SHEETS).filter((name) => name.endsWith(".gls"));
  same("the number of sheets", sheets.length, expected.length);
  for (const name of sheets) {
    const cksum = new Cksum();
    let [count, first, last] = [0, null, null];
    for (const lines of listing(library, new Uint8Array(fs.readFileSync(path.join(SHEETS, name))))) {
      cksum.add(Buffer.from(`${lines.join("\n")}\n`));
      count += lines.length;
      first ??= lines[0];
      last = lines[lines.length - 1];
    }
    const told = `${name} | ${count} | ${cksum.told()} | ${first} | ${last}`;
    check(`${name} is listed as expected`, () => assert.ok(expected.includes(told), told));
  }
}

/* The parameters of each call: kind, whether it is a list, whether it is written to. */
function parametersTold() {
  const calls = {};
  for (const [, name, inside] of CALLS.matchAll(/^(\w+)\((.*)\)/gm)) {
    const parameters = [...inside.matchAll(/\w+: (&?)(mut )?\[?(\w+)/g)];
    calls[name] = parameters.map((it) => ({ isList: it[1] === "&", isWritten: Boolean(it[2]), kind: it[3] }));
  }
  return calls;
}

/* The bytes of a line in a typed array of the kind, in the middle of a larger one, so that what lies around it can be watched. */
function embedded(kind, length, fill) {
  const Kind = KINDS[kind];
  const whole = new Kind(length + 4);
  const bytes = new Uint8Array(whole.buffer);
  bytes.fill(0x5a);
  fill(bytes.subarray(2 * Kind.BYTES_PER_ELEMENT, (length + 2) * Kind.BYTES_PER_ELEMENT));
  return { list: whole.subarray(2, length + 2), bytes, edge: 2 * Kind.BYTES_PER_ELEMENT };
}

const isWhole = ({ bytes, edge }) => bytes.subarray(0, edge).every((it) => it === 0x5a) && bytes.subarray(-edge).every((it) => it === 0x5a);

function repeated(pattern, bytes) {
  for (let at = 0; at < bytes.length; at += pattern.length) bytes.set(pattern.subarray(0, Math.min(pattern.length, bytes.length - at)), at);
}

/* One argument of a line as the call takes it. */
function decoded(parameter, value, patterns) {
  const { kind, isList, isWritten } = parameter;
  if (!isList) return { list: kind === "u64" ? BigInt(value) : kind === "f64" ? Buffer.from(value, "hex").readDoubleLE() : value };
  if (isWritten) return embedded(kind, value, (bytes) => repeated(patterns[kind], bytes));
  const given = Buffer.from(value, "base64");
  return embedded(kind, given.length / KINDS[kind].BYTES_PER_ELEMENT, (bytes) => bytes.set(given));
}

const bytesOf = (list) => new Uint8Array(list.buffer, list.byteOffset, list.byteLength);

/* What one line says, by the module. Answers the difference, or null, with the arguments after the call. */
function replayed(library, parameters, line, patterns) {
  const given = line.given.map((value, at) => decoded(parameters[at], value, patterns));
  const before = given.map((it, at) => (parameters[at].isList && !parameters[at].isWritten ? bytesOf(it.list).slice() : null));
  const answer = library.call(line.call, ...given.map((it) => it.list));
  const sum = createHash("md5");
  given.filter((_, at) => parameters[at].isWritten).forEach((it) => sum.update(bytesOf(it.list)));
  const lists = given.filter((_, at) => parameters[at].isList);
  let difference = null;
  if (answer !== line.answer) difference = `it answers ${answer}, and the native library ${line.answer}`;
  else if (sum.digest("hex") !== line.sum) difference = "it writes other lists than the native library";
  else if (!lists.every(isWhole)) difference = "it changes what lies beside a list";
  else if (before.some((it, at) => it && Buffer.compare(it, bytesOf(given[at].list)))) difference = "it changes a list that it only reads";
  return { difference, lists: given.map((it) => it.list) };
}

/*
 * The same by the methods of Sheet: what each gives for the arguments of a line that the native library answered, as fronts of the lists
 * that were written to. The last entry is what the answer must be.
 */
const number = (it) => Number(it[0]);
const METHODS = {
  tri_edge_indices: (s, [, triangle]) => [s.triEdgeIndices(triangle).map(BigInt), 0],
  spanning_tree: (s) => [s.spanningTree().tree, s.spanningTree().free, s.spanningTree().free.length],
  su2_fundamental_loops: (s) => [startsOf(s.su2Loops()), s.su2Loops().flat(), s.su2Loops().length],
  fundamental_loops: (s) => {
    const loops = s.loops();
    return [startsOf(loops), loops.flat().map((it) => it.edge), loops.flat().map((it) => it.direction), loops.length];
  },
  check_gauss_law: (s, [, configuration]) => [s.checkGaussLaw(configuration) === null ? 1 : 0],
  enumerate_gauge_invariant: (s) => [s.states().values, s.states().n],
  config_to_index: (s, [, configuration]) => [[], s.configToIndex(configuration)],
  apply_shift: (s, [, configuration, edge, delta]) => {
    const shifted = s.applyShift(configuration, edge, delta);
    return [[], shifted.configuration, shifted.place];
  },
  apply_triangle_shift: (s, [, triangle, place]) => [[], s.applyTriangleShift(triangle, place)],
  su2_basis: (s) => [s.su2States().masks, s.su2States().n],
  build_hamiltonian: (s, [, g, , , given, weights]) => dense(s.hamiltonian(g, given ? weights : null)),
  build_su2_hamiltonian: (s, [, g, , , given, weights]) => dense(s.su2Hamiltonian(g, given ? weights : null)),
  build_csr: (s, [, g, , , given, weights]) => rowLists(s.csr(g, given ? weights : null)),
  build_csr_su2: (s, [, g, , , given, weights]) => rowLists(s.su2Csr(g, given ? weights : null)),
  count_states: (s) => [s.countStates()],
  su2_count_states: (s) => [s.su2CountStates()],
  count_entries: (s) => [s.countEntries()],
  su2_count_entries: (s) => [s.su2CountEntries()],
  hamiltonian_matvec: (s, [, g, , , given, weights, vector]) => product(s.matvec(g, vector, given ? weights : null)),
  su2_hamiltonian_matvec: (s, [, g, , , given, weights, vector]) => product(s.su2Matvec(g, vector, given ? weights : null)),
  electric_field_sq: (s, [, state]) => product(s.electricFieldSq(state)),
  wilson_loop: (s, [, state, edges, directions]) => [[], [s.wilson(steps(edges, directions), state)], 0],
  su2_wilson_loop: (s, [, state, edges]) => [[], [s.su2Wilson(Array.from(edges), state)], 0],
  su2_wilson_passes: (s, [, state, edges]) => [[], [s.su2WilsonPasses(edges, state)], 0],
};
const startsOf = (loops) => [0, ...loops.map(((sum) => (it) => (sum += it.length))(0))];
const dense = ({ n, values }) => [[], values, n];
const rowLists = ({ starts, columns, values }) => [[], starts, columns, values, columns.length];
const product = (result) => [[], result, result.length];
const steps = (edges, directions) => Array.from(edges, (edge, at) => ({ edge, direction: directions[at] }));

function checkMethod(library, parameters, line, lists) {
  const method = METHODS[line.call];
  const told = method(new Sheet(library, lists[0]), lists);
  const written = lists.filter((_, at) => parameters[at].isWritten);
  assert.strictEqual(told.pop(), line.answer, `${line.call} by Sheet answers otherwise`);
  told.forEach((front, at) => assert.deepStrictEqual(Array.from(written[at].subarray(0, front.length)), Array.from(front), line.call));
}

/* Every line of native.py's file, by Library.call and, where it was answered, by Sheet. */
async function checkAgainstNative(library, file) {
  const calls = parametersTold();
  const [answered, refused, sheets] = [{}, {}, new Set()];
  let patterns = null;
  const lines = readline.createInterface({ input: fs.createReadStream(file) });
  lines.on("line", (text) => {
    const line = JSON.parse(text);
    if (line.patterns) {
      patterns = Object.fromEntries(Object.entries(line.patterns).map(([kind, it]) => [kind, new Uint8Array(Buffer.from(it, "base64"))]));
      return;
    }
    const parameters = calls[line.call];
    if (line.call === "read_sheet") sheets.add(line.given[0]);
    if (line.answer < 0) refused[-line.answer] = (refused[-line.answer] ?? 0) + 1;
    else answered[line.call] = (answered[line.call] ?? 0) + 1;
    check(`${line.call} as the native library: ${text.slice(0, 400)}`, () => {
      const { difference, lists } = replayed(library, parameters, line, patterns);
      assert.strictEqual(difference, null, difference ?? "");
      if (line.answer >= 0 && line.call in METHODS) checkMethod(library, parameters, line, lists);
    });
  });
  await once(lines, "close");
  return { calls, answered, refused, sheets };
}

function report({ calls, answered, refused, sheets }) {
  const fewest = Math.min(...Object.keys(calls).map((name) => answered[name] ?? 0));
  const total = Object.values(answered).concat(Object.values(refused)).reduce((sum, it) => sum + it, 0);
  const each = `each of ${Object.keys(calls).length} calls answered at least ${fewest} times`;
  console.log(`web: ${total} calls on ${sheets.size} different sheets as the native library, ${each}`);
  if (!process.env.SHEETS) {
    check("there are many sheets", () => assert.ok(sheets.size >= LEAST_SHEETS, String(sheets.size)));
    check("each call is answered often", () => assert.ok(fewest >= LEAST_ANSWERED, String(fewest)));
    for (let it = 1; it <= 17; it++) check(`refusal ${it} is among the answers`, () => assert.ok(refused[it] > 0));
  }
}

/* The deepest byte of the stack that any call has written to, over all instances. */
function checkStack() {
  const depths = instances.map((it) => STACK - new Uint8Array(it.exports.memory.buffer, 0, STACK).findIndex((byte) => byte !== 0xa5));
  const deepest = Math.max(...depths.filter((it) => it <= STACK));
  console.log(`web: the calls took at most ${deepest} of ${STACK} bytes of stack`);
  check("enough of the stack is left", () => assert.ok(deepest > 1000 && deepest <= STACK - STACK_SPARE, String(deepest)));
}

module.exports = { ROOT, CALLS, WASM, instances, check, same, throws, refuses, sentencesTold, zibrotka };

async function checkAll(file) {
  const library = await Library.load(WASM, CALLS);
  const { checkWorkedCases, checkMisuse, checkRefusals, checkFindings, checkForeignModules, checkLarge } = require("./check-misuse.js");
  checkSheets(library);
  checkWorkedCases(library);
  checkMisuse(library);
  checkRefusals(library);
  checkFindings(library);
  await checkForeignModules();
  if (file) report(await checkAgainstNative(library, file));
  checkLarge(library);
  checkStack();
  const page = vm.createContext({ WebAssembly });
  vm.runInContext(fs.readFileSync(path.join(__dirname, "zibrotka.js"), "utf8"), page);
  same("zibrotka.js as a classic script", vm.runInContext("typeof Library + typeof Sheet + typeof matvec", page), "functionfunctionfunction");
}

async function main(file) {
  try {
    await checkAll(file);
  } catch (error) {
    check("the checks come to their end", () => { throw error; });
  }
  console.log(`web: ${checks} checks, ${failed} failed`);
  process.exitCode = failed ? 1 : 0;
}

if (require.main === module) main(process.argv[2]);
