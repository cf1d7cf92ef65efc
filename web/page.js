"use strict";
/*
 * The page. It reads what is typed, asks the library (zibrotka.js), and shows what it answers. Whatever takes time runs in one queue, one
 * job after the other, so no answer comes to a sheet that is no longer in use.
 */
(() => {
  const { Mistyped, wordsOf, edgeOf, valueOf, floatOf, stepOf, placeOf, couplingOf, sheetOf, sheetOfPentachora } = Words;

  /* The page draws no matrix with more entries than this, and builds one unasked only up to the second number. */
  const MOST_ENTRIES = 8000000;
  const UNASKED_ENTRIES = 300000;
  const UNASKED_STATES = 100000;
  const MOST_NUMBERS = 24;
  /* Work on fewer numbers than this is done before anyone could read that it is under way. */
  const QUIET_NUMBERS = 200000;
  const ROWS_OF_TEXT = 4096;
  /* On paper: so many rows of the list (page.css hides the others), and so many letters in a row of a table. */
  const PAPER_ROWS = 50;
  const PAPER_LETTERS = 90;
  /* No sheet is longer. One byte more is read, so that the library sees that a file is too long. */
  const READ_BYTES = 906;

  const EXAMPLES = [
    { name: "triangle", title: "Triangle", vertices: "3", edges: "0 1\n0 2\n1 2", triangles: "0 1 2", truncation: "1" },
    { name: "square", title: "Square with a diagonal", vertices: "4", edges: "0 1\n0 2\n0 3\n1 2\n2 3", triangles: "0 1 2\n0 2 3", truncation: "2" },
    { name: "tetrahedron", title: "Tetrahedron", vertices: "4", edges: "0 1\n0 2\n0 3\n1 2\n1 3\n2 3", triangles: "0 1 2\n0 1 3\n0 2 3\n1 2 3",
      truncation: "1" },
    { name: "ring", title: "Ring of six", vertices: "6", edges: "0 1\n1 2\n2 3\n3 4\n4 5\n0 5", triangles: "", truncation: "3" },
    { name: "octahedron", title: "Octahedron", vertices: "6", edges: "0 1\n0 2\n0 4\n0 5\n1 2\n1 3\n1 5\n2 3\n2 4\n3 4\n3 5\n4 5",
      triangles: "0 1 2\n0 1 5\n0 2 4\n0 4 5\n1 2 3\n1 3 5\n2 3 4\n3 4 5", truncation: "1" },
    { name: "five-vertices", title: "Five vertices", vertices: "5", edges: "0 1\n0 2\n0 3\n0 4\n1 2\n1 3\n1 4\n2 3\n2 4\n3 4",
      triangles: "0 1 2\n0 1 3\n0 1 4\n0 2 3\n0 2 4\n0 3 4\n1 2 3\n1 2 4\n1 3 4\n2 3 4", truncation: "2" },
    { name: "two-free-edges", title: "Two free edges, L 511", vertices: "4", edges: "0 1\n0 2\n0 3\n1 2\n1 3", triangles: "", truncation: "511" },
  ];

  /*
   * What is in use. `list` holds the states of the mode, `numbers` says how many numbers that is, `chosen` is the place of the state that
   * stays drawn, `rows` and `squares` are the matrix, `cursor` is the square of it that was last pointed at. `answered` has the texts of each
   * form that its answer belongs to.
   */
  const page = { library: null, sheet: null, name: "sheet", mode: "u1", tree: null, picture: null, list: null, first: 0, chosen: null,
    answered: { "hamiltonian-form": null, "loops-form": null } };
  const at = (id) => document.getElementById(id);
  const isZ2 = () => page.mode === "z2";

  function element(name, attributes = {}, ...inside) {
    const made = document.createElement(name);
    for (const [key, value] of Object.entries(attributes)) made.setAttribute(key, value);
    made.append(...inside);
    return made;
  }

  /* ---- Numbers as text ---- */

  const counted = (number) => number.toLocaleString("en");
  const several = (number, one, all) => `${counted(number)} ${number === 1 ? one : all}`;
  /* The shortest text that reads back as the same float. The library's minus zero keeps its sign. */
  const shown = (value) => (Object.is(value, -0) ? "-0" : String(value));
  const edgeName = (edge) => `(${page.sheet.edges[edge].join(",")})`;
  const stepText = ({ edge, direction }) => `${edge}${direction > 0 ? "+" : "-"}`;

  function edgesOfMask(mask) {
    return page.sheet.edges.map((_, edge) => edge).filter((edge) => (mask >> BigInt(edge)) & 1n);
  }

  const valuesAt = (place) => Array.from(page.list.values.subarray(place * page.list.nEdges, (place + 1) * page.list.nEdges));

  function stateText(place) {
    if (isZ2()) {
      const edges = edgesOfMask(page.list.masks[place]);
      return edges.length ? `edges ${edges.join(" ")}` : "no edge";
    }
    return valuesAt(place).join(" ") || "no value";
  }

  function findingText({ kind, vertex, excess, edge }) {
    if (kind === "breaksLaw") return `vertex ${vertex} breaks the law, its sum is ${excess}`;
    return `edge ${edge} is outside -${page.sheet.truncation} to ${page.sheet.truncation}`;
  }

  /*
   * What a person is told of an error. Memory may not suffice (RangeError); any other error is a fault of the page, and goes to the console
   * too.
   */
  function told(error) {
    if (error instanceof NotInBasis) return `refused ${error.number}: ${findingText(error.finding)}\n${error.sentence}`;
    if (error instanceof Refused) return `refused ${error.number}: ${error.sentence}`;
    if (error instanceof Mistyped) return error.message;
    if (!(error instanceof RangeError)) console.error(error);
    return `the page could not do it: ${error.message}`;
  }

  function say(id, text, kind = "") {
    at(id).textContent = text;
    at(id).className = kind ? `message ${kind}` : "message";
  }

  /* ---- The queue ---- */

  let queue = Promise.resolve();
  let waiting = 0;

  function countJobs(by) {
    waiting += by;
    document.querySelector("main").setAttribute("aria-busy", String(waiting > 0));
  }

  /* Runs a job after those before it; what it throws is told at `id`. */
  function inTurn(id, job) {
    countJobs(1);
    queue = queue.then(job).catch((error) => say(id, told(error), "bad")).then(() => countJobs(-1));
  }

  /* The texts in the fields of a form, by the fields' names. */
  const textsIn = (form) => Object.fromEntries(Array.from(at(form).elements, ({ id, value }) => [id, value]));
  const stillIn = (form, typed) => Object.entries(textsIn(form)).every(([id, text]) => typed[id] === text);

  /* Runs a job on the list that is shown now. If another list is in use when its turn comes, that is told at `id` in its stead. */
  function onList(id, job) {
    const { list } = page;
    inTurn(id, () => (list !== null && list === page.list ? job() : say(id, "The states have changed since. Press again.", "bad")));
  }

  /* The same for a form: the job gets the texts that stand in it now. */
  function askWith(form, id, job) {
    const typed = textsIn(form);
    onList(id, () => job(typed));
  }

  /* Lets the browser paint. A page that is not in view paints nothing, so a clock goes on in its stead. */
  const painted = () => new Promise((done) => {
    setTimeout(done, 100);
    requestAnimationFrame(() => setTimeout(done, 0));
  });

  /* Work that goes through many numbers says so first, and lets the browser paint that. */
  async function atWork(numbers, what, work) {
    if (numbers < QUIET_NUMBERS) return work();
    at("working").textContent = `Working: ${what} ...`;
    at("working").hidden = false;
    await painted();
    try {
      return await work();
    } finally {
      at("working").hidden = true;
    }
  }

  /* ---- The sheet ---- */

  function forget() {
    Object.assign(page, { sheet: null, tree: null, picture: null });
    forgetStates();
    for (const id of ["results", "bar"]) at(id).hidden = true;
    at("save-sheet").disabled = true;
    say("sheet-message", "");
    setAddress("");
  }

  /* The address carries the sheet, so that it can be kept or handed on. Where a browser does not allow that, it stays as it is. */
  function setAddress(hash) {
    try {
      history.replaceState(null, "", hash || location.pathname + location.search);
    } catch (error) {
      if (!(error instanceof DOMException)) throw error;
    }
  }

  const hexOf = (bytes) => Array.from(bytes, (byte) => byte.toString(16).padStart(2, "0")).join("");
  const addressOf = (sheet) => (sheet ? `#sheet=${hexOf(sheet.toBytes())}` : "");

  function bytesOfAddress(hash) {
    const hex = hash.replace(/^#sheet=/, "");
    if (!/^([0-9a-f]{2})*$/i.test(hex)) throw new Mistyped("after #sheet= there must be pairs of the digits 0 to 9 and a to f");
    return Uint8Array.from(hex.slice(0, 2 * READ_BYTES).match(/../g) ?? [], (pair) => parseInt(pair, 16));
  }

  function fillForm({ nVertices, truncation, edges, triangles }) {
    at("vertices").value = nVertices;
    at("truncation").value = truncation;
    at("edges").value = edges.map((edge) => edge.join(" ")).join("\n");
    at("triangles").value = triangles.map((triangle) => triangle.join(" ")).join("\n");
  }

  const countsText = ({ nVertices, edges, triangles, truncation }) =>
    [several(nVertices, "vertex", "vertices"), several(edges.length, "edge", "edges"), several(triangles.length, "triangle", "triangles"),
      `L ${truncation}`].join(", ");

  /*
   * Takes the sheet that `make` makes. Where it makes none, nothing of the sheet before stays. The fields then show it; but where it was made
   * from typed texts and these have changed since, the newer ones stay.
   */
  async function useSheet(make, name, typed = null) {
    forget();
    const sheet = make();
    const isNewerTyped = typed !== null && !stillIn("sheet-form", typed);
    Object.assign(page, { sheet, name, tree: sheet.spanningTree() });
    if (!isNewerTyped) fillForm(sheet);
    at("changed").hidden = !isNewerTyped;
    setAddress(addressOf(sheet));
    at("summary").textContent = countsText(sheet);
    at("save-sheet").disabled = at("bar").hidden = at("results").hidden = false;
    at("weights").value = at("configuration").value = "";
    drawComplex();
    await showMode();
  }

  function useTyped() {
    const typed = textsIn("sheet-form");
    inTurn("sheet-message", () => useSheet(() => sheetOf(page.library, typed), "sheet", typed));
  }

  function usePentachora() {
    const typed = textsIn("pentachora-form");
    const truncation = at("truncation").value;
    inTurn("sheet-message", () => useSheet(() => sheetOfPentachora(page.library, typed, truncation), "pentachora"));
  }

  /* Takes a sheet from bytes that are not typed. Where they are refused or cannot be had, the fields show no other sheet beside that. */
  async function useBytes(from, bytesOf, name) {
    forget();
    try {
      const bytes = await bytesOf();
      await useSheet(() => new Sheet(page.library, bytes), name);
    } catch (error) {
      for (const id of ["vertices", "truncation", "edges", "triangles"]) at(id).value = "";
      say("sheet-message", `${from}: ${error instanceof DOMException ? "it cannot be read, or is a folder" : told(error)}`, "bad");
    }
  }

  function useFile(file) {
    const bytesOf = async () => new Uint8Array(await file.slice(0, READ_BYTES).arrayBuffer());
    return useBytes(file.name, bytesOf, file.name.replace(/\.gls$/i, "") || "sheet");
  }

  const useExample = (example) => inTurn("sheet-message", () => useSheet(() => sheetOf(page.library, example), example.name));

  function useAddress() {
    const { hash } = location;
    inTurn("sheet-message", () => useBytes("the address", () => bytesOfAddress(hash), "sheet"));
  }

  /* An address that names no sheet, as one further back may be, leaves the sheet in use. So the address is made that of the sheet again. */
  const keepAddress = () => inTurn("sheet-message", () => setAddress(addressOf(page.sheet)));

  function save(parts, name, type) {
    const link = element("a", { href: URL.createObjectURL(new Blob(parts, { type })), download: name });
    link.click();
    setTimeout(() => URL.revokeObjectURL(link.href), 60000);
  }

  /* ---- The complex ---- */

  function drawComplex() {
    const { nVertices, edges, triangles } = page.sheet;
    const { tree, free } = page.tree;
    const title = `A complex with ${countsText(page.sheet)}. Tree edges: ${tree.join(", ") || "none"}. Free edges: ${free.join(", ") || "none"}.`;
    page.picture = Drawing.complex(at("complex"), { nVertices, edges, triangles, free, title });
    at("crowded").hidden = !page.picture.isCrowded;
    at("tree").textContent = `Tree edges, as they are found: ${tree.join(" ") || "none"}. Free edges: ${free.join(" ") || "none"}.`;
  }

  const LEGENDS = {
    plain: [["tree", "tree edge"], ["free", "free edge"], ["face", "triangle"]],
    u1: [["above", "value above 0, along the edge"], ["below", "value below 0, against it"], ["none", "value 0"]],
    z2: [["inside", "edge in the set"], ["none", "edge not in it"]],
  };

  function showLegend(name) {
    const lines = name === "plain" ? LEGENDS.plain : [...LEGENDS.plain.slice(0, 2), ...LEGENDS[name]];
    at("legend").replaceChildren(...lines.map(([kind, text]) => element("li", {}, element("span", { class: `key ${kind}` }), text)));
  }

  /* Draws the state at a place, or the complex alone where there is none. */
  function showState(place) {
    Drawing.markVertex(page.picture, null);
    showLegend(place === null ? "plain" : page.mode);
    if (place === null) {
      Drawing.plain(page.picture);
      at("shown").textContent = "";
      return;
    }
    if (isZ2()) Drawing.edgeSet(page.picture, new Set(edgesOfMask(page.list.masks[place])));
    else Drawing.values(page.picture, valuesAt(place), page.sheet.truncation);
    at("shown").textContent = `State ${counted(place)}: ${stateText(place)}`;
  }

  function showConfiguration(values, vertex) {
    Drawing.values(page.picture, values, page.sheet.truncation);
    Drawing.markVertex(page.picture, vertex);
    showLegend("u1");
    at("shown").textContent = `The configuration: ${values.join(" ") || "no value"}`;
  }

  /* ---- The states ---- */

  function forgetStates() {
    Object.assign(page, { list: null, first: 0, chosen: null });
    forgetMatrix();
    forgetAnswer("loops-form");
    at("table").tHead.replaceChildren();
    at("table").tBodies[0].replaceChildren();
    for (const id of ["mode-message", "goto-message", "check-message"]) say(id, "");
    for (const id of ["count", "taken", "rows", "shown"]) at(id).textContent = "";
  }

  /* Lists the states of the mode, and works out what costs little. A sheet may be refused here that has a picture: then that alone is shown. */
  async function showMode() {
    forgetStates();
    document.body.dataset.mode = page.mode;
    showState(null);
    at("results").classList.add("no-states");
    try {
      await listStates();
    } catch (error) {
      say("mode-message", told(error), "bad");
      return;
    }
    at("results").classList.remove("no-states");
    showRows();
    fillLoops();
    await showUnasked();
  }

  /* The sheet may have been refused since the mode was chosen. */
  async function useMode(mode) {
    page.mode = mode;
    if (page.sheet) await showMode();
  }

  async function listStates() {
    const n = isZ2() ? page.sheet.su2CountStates() : page.sheet.countStates();
    page.numbers = n * (isZ2() ? 1 : Math.max(1, page.sheet.edges.length));
    await atWork(page.numbers, "listing the states", () => {
      const started = performance.now();
      page.list = isZ2() ? page.sheet.su2States() : page.sheet.states();
      at("taken").textContent = `listed in ${Math.max(1, Math.round(performance.now() - started))} ms`;
    });
    at("count").textContent = several(page.list.n, "state", "states");
  }

  const countEntries = () => atWork(page.numbers, "counting the entries", () => (isZ2() ? page.sheet.su2CountEntries() : page.sheet.countEntries()));

  async function showUnasked() {
    const entries = await countEntries();
    if (entries <= UNASKED_ENTRIES) await tellingAt("hamiltonian-message", () => buildMatrix(textsIn("hamiltonian-form")));
    else say("hamiltonian-message", `The row lists have ${counted(entries)} entries. Press Build to have them.`);
    if (page.list.n <= UNASKED_STATES) await tellingAt("loops-message", () => workOutLoops(textsIn("loops-form")));
  }

  async function tellingAt(id, job) {
    try {
      await job();
    } catch (error) {
      say(id, told(error), "bad");
    }
  }

  /* So many rows that the table stays quick: a thousand, or fewer where they are long. */
  const rowsAtOnce = () => (isZ2() || page.list.nEdges < 16 ? 1000 : 250);

  function headRow() {
    const head = (text, under) => element("th", { scope: "col" }, text, ...(under ? [element("small", {}, under)] : []));
    if (isZ2()) return element("tr", {}, head("place"), head("mask"), head("edges in the set"));
    return element("tr", {}, head("place"), ...page.sheet.edges.map((_, edge) => head(`edge ${edge}`, edgeName(edge))));
  }

  function stateRow(place) {
    const cell = (text) => element("td", {}, String(text));
    const row = element("tr", { "data-place": place, tabindex: -1 }, element("th", { scope: "row" }, String(place)));
    if (!isZ2()) row.append(...valuesAt(place).map(cell));
    else row.append(cell(page.list.masks[place]), cell(edgesOfMask(page.list.masks[place]).join(" ")));
    return row;
  }

  function showRows() {
    const { n } = page.list;
    const end = Math.min(n, page.first + rowsAtOnce());
    const rows = Array.from({ length: end - page.first }, (_, row) => stateRow(page.first + row));
    rows[0].tabIndex = 0;
    at("table").className = isZ2() ? "sets" : "numbers";
    at("table").tHead.replaceChildren(headRow());
    at("table").tBodies[0].replaceChildren(...rows);
    if (!isZ2()) foldOnPaper("table");
    at("table-box").scrollTop = 0;
    at("rows").textContent = `rows ${counted(page.first + 1)} to ${counted(end)} of ${counted(n)}`;
    const onPaper = Math.min(rows.length, PAPER_ROWS);
    at("printed").textContent = `Printed here: rows ${counted(page.first + 1)} to ${counted(page.first + onPaper)} of ${counted(n)}.`;
    at("printed").hidden = onPaper === n;
    at("back").disabled = page.first === 0;
    at("on").disabled = end === n;
  }

  /* Rows that are longer than a line of paper have several lines there. The first rows of a long list tell for all. */
  function foldOnPaper(table) {
    const cells = Array.from(at(table).rows).slice(0, MOST_NUMBERS + 1).flatMap((row) => Array.from(row.cells));
    const letters = Math.max(...cells.map(({ firstChild }) => firstChild?.length ?? 0));
    at(table).classList.toggle("folded", at(table).rows[0].cells.length * (letters + 1.25) > PAPER_LETTERS);
    at(table).style.setProperty("--letters", letters);
  }

  function turnTo(first) {
    page.first = first;
    page.chosen = null;
    showState(null);
    showRows();
  }

  const rowAt = (place) => at("table").tBodies[0].rows[place - page.first];

  /* Chooses the state at a place: its row is marked, and it stays on the drawing. */
  function choose(place) {
    const first = place - (place % rowsAtOnce());
    if (first !== page.first) turnTo(first);
    for (const row of at("table").querySelectorAll("[aria-current]")) row.removeAttribute("aria-current");
    for (const row of at("table").querySelectorAll("tbody [tabindex='0']")) row.tabIndex = -1;
    page.chosen = place;
    say("goto-message", "");
    const row = rowAt(place);
    row.setAttribute("aria-current", "true");
    row.tabIndex = 0;
    showState(place);
    return row;
  }

  const placeOfRow = (target) => {
    const row = target.closest("tr[data-place]");
    return row ? Number(row.dataset.place) : null;
  };

  function stepRows(event) {
    const by = { ArrowDown: 1, ArrowUp: -1, Enter: 0, " ": 0 }[event.key];
    const from = placeOfRow(event.target);
    if (by === undefined || from === null) return;
    event.preventDefault();
    const to = page.chosen === null ? from : from + by;
    if (to >= 0 && to < page.list.n) choose(to).focus();
  }

  function goTo(typed) {
    choose(placeOf(typed.goto, page.list.n)).scrollIntoView({ block: "nearest" });
  }

  /* ---- The list as text ---- */

  /* A space and a value, as bytes, for each value from -L to L. */
  function valueWords(truncation) {
    const encoder = new TextEncoder();
    return Array.from({ length: 2 * truncation + 1 }, (_, digit) => encoder.encode(` ${digit - truncation}`));
  }

  /* The lines of the states from one place up to another, as `basis list` prints them. */
  function linesOfText(first, end, words) {
    const { nEdges, values } = page.list;
    const text = new Uint8Array((end - first) * (8 + 6 * nEdges));
    let used = 0;
    for (let place = first; place < end; place++) {
      const name = String(place);
      for (let digit = 0; digit < name.length; digit++) text[used++] = name.charCodeAt(digit);
      for (let edge = 0; edge < nEdges; edge++) {
        const word = words[values[place * nEdges + edge] + page.sheet.truncation];
        for (let letter = 0; letter < word.length; letter++) text[used++] = word[letter];
      }
      text[used++] = 10;
    }
    return text.slice(0, used);
  }

  async function listAsText() {
    const { nVertices, edges, triangles, truncation } = page.sheet;
    const { n } = page.list;
    const words = valueWords(truncation);
    const parts = [`vertices ${nVertices} edges ${edges.length} triangles ${triangles.length} lambda ${truncation} dim ${n}\n`];
    let last = performance.now();
    for (let first = 0; first < n; first += ROWS_OF_TEXT) {
      parts.push(linesOfText(first, Math.min(n, first + ROWS_OF_TEXT), words));
      if (performance.now() - last > 400) {
        at("working").textContent = `Working: writing the list, ${counted(first)} of ${counted(n)} ...`;
        await painted();
        last = performance.now();
      }
    }
    return parts;
  }

  async function saveList() {
    save(await atWork(page.numbers, "writing the list", listAsText), `${page.name}.txt`, "text/plain");
  }

  /* ---- Checking a configuration ---- */

  /* Where the text has changed meanwhile, nothing is told of it. */
  async function check(typed) {
    const values = wordsOf(typed.configuration).map(valueOf);
    say("check-message", "");
    try {
      const place = await atWork(page.numbers, "looking the configuration up", () => page.sheet.configToIndex(values));
      choose(place);
      if (stillIn("check-form", typed)) say("check-message", `in the basis, place ${place}`, "good");
    } catch (error) {
      if (error instanceof NotInBasis) showConfiguration(values, error.finding.vertex ?? null);
      if (stillIn("check-form", typed)) throw error;
    }
  }

  function takeChosen() {
    say("check-message", page.chosen === null ? "no state is chosen: choose a row of the list" : "");
    if (page.chosen !== null) at("configuration").value = stateText(page.chosen);
  }

  /* ---- Answers beside their fields ---- */

  /* What each form asks for, where what goes wrong is told, and the button that asks. */
  const ANSWERS = {
    "hamiltonian-form": { answer: "matrix", message: "hamiltonian-message", button: "Build" },
    "loops-form": { answer: "expectations", message: "loops-message", button: "Work out" },
  };

  /* Shows an answer beside the fields that it was asked with. Where these have changed since, it is not seen, and the page says so. */
  function showAnswer(form) {
    const { answer, message, button } = ANSWERS[form];
    const typed = page.answered[form];
    const isSeen = typed !== null && stillIn(form, typed);
    at(answer).hidden = !isSeen;
    if (typed !== null) say(message, isSeen ? "" : `The fields have changed. Press ${button}.`);
    else if (at(message).classList.contains("bad")) say(message, "");
  }

  function forgetAnswer(form) {
    const { answer, message } = ANSWERS[form];
    page.answered[form] = null;
    at(answer).hidden = true;
    say(message, "");
  }

  function haveAnswer(form, typed) {
    page.answered[form] = typed;
    showAnswer(form);
  }

  /* ---- The Hamiltonian ---- */

  function forgetMatrix() {
    Object.assign(page, { rows: null, squares: null, cursor: null });
    forgetAnswer("hamiltonian-form");
    at("entry").textContent = "";
  }

  function weightsOf(text) {
    const words = wordsOf(text);
    return words.length ? words.map(floatOf) : null;
  }

  async function buildMatrix(typed) {
    forgetMatrix();
    const coupling = couplingOf(typed.coupling);
    const weights = weightsOf(typed.weights);
    const { sheet } = page;
    const entries = await countEntries();
    if (entries > MOST_ENTRIES) throw new Mistyped(`there are ${counted(entries)} entries, and the page draws up to ${counted(MOST_ENTRIES)}`);
    await atWork(page.numbers + entries, "building the matrix", () => {
      page.rows = isZ2() ? sheet.su2Csr(coupling, weights) : sheet.csr(coupling, weights);
      page.squares = Drawing.squaresOf(page.rows);
      drawMatrix("heat");
      tellMatrix(coupling);
      showNumbers(coupling, weights);
      haveAnswer("hamiltonian-form", typed);
    });
  }

  /* The colours of the picture, on the screen ("heat") or on paper. */
  function heatColours(ground) {
    const style = getComputedStyle(document.documentElement);
    const shades = (name) => style.getPropertyValue(`--${ground}-${name}`).match(/[0-9a-f]{2}/gi).map((pair) => parseInt(pair, 16));
    return { zero: shades("zero"), above: shades("above"), below: shades("below"), line: shades("line") };
  }

  function drawMatrix(ground) {
    if (!page.squares) return;
    const colours = heatColours(ground);
    const { largest } = page.squares;
    Drawing.heatMap(at("heat"), page.squares, colours);
    const shades = Array.from({ length: 41 }, (_, part) => `rgb(${Drawing.colourOf((part - 20) / 20, 1, colours)})`);
    at("ramp").style.background = `linear-gradient(90deg, ${shades.join(", ")})`;
    at("scale").hidden = largest === 0;
    at("scale-low").textContent = shown(-largest + 0);
    at("scale-high").textContent = shown(largest);
  }

  function tellMatrix(coupling) {
    const { size } = page.squares;
    const notZero = page.rows.values.reduce((sum, value) => sum + (value !== 0 ? 1 : 0), 0);
    const lists = `${several(page.rows.values.length, "entry", "entries")} in ${several(page.rows.n, "row", "rows")}`;
    const points = `Each point stands for ${size} rows and ${size} columns: it shows the entry that is largest without its sign.`;
    const colours = "The colour grows with the root of the value; 0 alone has no colour.";
    const sentences = notZero ? [`${lists}, ${counted(notZero)} of them not 0.`, size > 1 ? points : "", colours]
      : [`${lists}. Every entry of the matrix is 0.`];
    at("heat-caption").textContent = sentences.filter((sentence) => sentence).join(" ");
    const { electric, magnetic } = (isZ2() ? su2Params : u1Params)(page.library, coupling);
    at("factors").textContent = `Electric factor ${shown(electric)}, magnetic factor ${shown(magnetic)}.`;
  }

  /* The dense matrix of a small basis, in numbers. */
  function showNumbers(coupling, weights) {
    const { n } = page.rows;
    const isSmall = n <= MOST_NUMBERS;
    at("numbers-box").hidden = !isSmall;
    at("numbers").replaceChildren();
    const apart = "The numbers are those of the dense matrix, the picture is that of the row lists. "
      + "With weights they may differ in the last digit, or in the sign of a 0.";
    const large = `The numbers stand here for up to ${MOST_NUMBERS} states. Point at the picture to read an entry.`;
    at("numbers-hint").textContent = !isSmall ? large : weights ? apart : "Point at the picture to read an entry and its states.";
    if (!isSmall) return;
    const { values } = isZ2() ? page.sheet.su2Hamiltonian(coupling, weights) : page.sheet.hamiltonian(coupling, weights);
    const places = Array.from({ length: n }, (_, place) => place);
    const head = element("thead", {}, element("tr", {}, element("td"), ...places.map((place) => element("th", { scope: "col" }, String(place)))));
    const rows = places.map((row) => element("tr", {}, element("th", { scope: "row" }, String(row)),
      ...places.map((column) => element("td", values[row * n + column] === 0 ? { class: "zero" } : {}, shown(values[row * n + column])))));
    at("numbers").append(head, element("tbody", {}, ...rows));
    foldOnPaper("numbers");
  }

  /* The entry of the row lists in a row and column, or null where none is listed. */
  function entryOf(row, column) {
    const { starts, columns, values } = page.rows;
    for (let place = starts[row]; place < starts[row + 1]; place++) if (columns[place] === column) return values[place];
    return null;
  }

  const rangeText = (one, all, first, end) => (end - first === 1 ? `${one} ${counted(first)}` : `${all} ${counted(first)} to ${counted(end - 1)}`);

  function showEntry(down, over) {
    const { size, across, cells, n } = page.squares;
    page.cursor = { down, over };
    const end = (cell) => Math.min(n, (cell + 1) * size);
    const where = `${rangeText("row", "rows", down * size, end(down))}, ${rangeText("column", "columns", over * size, end(over))}`;
    if (size > 1) {
      at("entry").textContent = `${where}: largest ${shown(cells[down * across + over])}`;
      return;
    }
    const value = entryOf(down, over);
    const states = [...new Set([down, over])].map((place) => `State ${counted(place)}: ${stateText(place)}`);
    at("entry").textContent = [`${where}: ${value === null ? "no entry" : shown(value)}`, ...states].join("\n");
  }

  function pointAtEntry(event) {
    if (!page.squares) return;
    const { left, top, width, height } = at("heat").getBoundingClientRect();
    const cell = (part) => Math.min(page.squares.across - 1, Math.max(0, Math.floor(part * page.squares.across)));
    showEntry(cell((event.clientY - top) / height), cell((event.clientX - left) / width));
  }

  function stepEntries(event) {
    const by = { ArrowUp: [-1, 0], ArrowDown: [1, 0], ArrowLeft: [0, -1], ArrowRight: [0, 1] }[event.key];
    if (!by || !page.squares) return;
    event.preventDefault();
    const from = page.cursor ?? { down: -by[0], over: -by[1] };
    const inside = (cell) => Math.min(page.squares.across - 1, Math.max(0, cell));
    showEntry(inside(from.down + by[0]), inside(from.over + by[1]));
  }

  /* ---- Wilson loops ---- */

  function loopTexts() {
    const loops = isZ2() ? page.sheet.su2Loops() : page.sheet.loops().map((loop) => loop.map(stepText));
    return loops.map((loop) => loop.join(" "));
  }

  function fillLoops() {
    const texts = loopTexts();
    const label = (text) => (text.length > 60 ? `${text.slice(0, 60)} ...` : text);
    at("loop").replaceChildren(...texts.map((text, loop) => element("option", { value: text }, `${loop}: ${label(text)}`)),
      element("option", { value: "typed" }, "a typed path"));
    at("path").value = texts[0] ?? "";
    at("loop").value = texts.length ? texts[0] : "typed";
    at("vector").value = "uniform";
    at("place").value = "0";
    at("amplitudes").value = "";
    showVectorFields();
  }

  /* The amplitudes that were chosen, one for each state; typed ones are as many as were typed. */
  function vectorOf({ vector: kind, amplitudes, place }) {
    if (kind === "typed") return Float64Array.from(wordsOf(amplitudes), floatOf);
    const vector = new Float64Array(page.list.n).fill(kind === "uniform" ? 1 : 0);
    if (kind === "basis") vector[placeOf(place, page.list.n)] = 1;
    return vector;
  }

  function answersOf(typed, vector) {
    const words = wordsOf(typed.path);
    const { sheet } = page;
    if (!isZ2()) {
      const path = words.map(stepOf);
      return [["Expectation", sheet.wilson(path, vector)], ["Of the empty path", sheet.wilson([], vector)]];
    }
    const path = words.map(edgeOf);
    return [["Expectation by the set of edges", sheet.su2Wilson(path, vector)], ["Expectation by passes", sheet.su2WilsonPasses(path, vector)],
      ["Of the empty path", sheet.su2Wilson([], vector)]];
  }

  function showSquares(vector) {
    at("squares").replaceChildren();
    if (isZ2()) return;
    const squares = Array.from(page.sheet.electricFieldSq(vector));
    at("squares-part").hidden = squares.length === 0;
    const head = squares.map((_, edge) => element("th", { scope: "col" }, `edge ${edge}`, element("small", {}, edgeName(edge))));
    at("squares").append(element("thead", {}, element("tr", {}, ...head)),
      element("tbody", {}, element("tr", {}, ...squares.map((square) => element("td", {}, shown(square))))));
    foldOnPaper("squares");
  }

  async function workOutLoops(typed) {
    forgetAnswer("loops-form");
    const vector = vectorOf(typed);
    await atWork(page.numbers, "working out the expectations", () => {
      const answers = answersOf(typed, vector);
      showSquares(vector);
      at("answers").replaceChildren(...answers.map(([name, value]) => element("div", {}, element("dt", {}, name), element("dd", {}, shown(value)))));
      haveAnswer("loops-form", typed);
    });
  }

  function showVectorFields() {
    at("place-field").hidden = at("vector").value !== "basis";
    at("amplitudes-field").hidden = at("vector").value !== "typed";
  }

  /* ---- What a person does ---- */

  function onSubmit(id, job) {
    at(id).addEventListener("submit", (event) => {
      event.preventDefault();
      job();
    });
  }

  function listenToSheet() {
    at("examples").append(...EXAMPLES.map((example) => {
      const button = element("button", { type: "button", class: "choice" }, example.title);
      button.addEventListener("click", () => useExample(example));
      return button;
    }));
    onSubmit("sheet-form", useTyped);
    onSubmit("pentachora-form", usePentachora);
    at("sheet-form").addEventListener("input", () => (at("changed").hidden = !page.sheet));
    at("save-sheet").addEventListener("click", () => save([page.sheet.toBytes()], `${page.name}.gls`, "application/octet-stream"));
    at("file").addEventListener("change", () => {
      const [file] = at("file").files;
      if (file) inTurn("sheet-message", () => useFile(file).finally(() => (at("file").value = "")));
    });
    addEventListener("hashchange", () => (location.hash.startsWith("#sheet=") ? useAddress() : keepAddress()));
  }

  /* Files alone are taken: text may be dragged into a field. A drag that was given up may end without an event, but then the pointer moves. */
  function listenToDrops() {
    const hover = (isOver) => document.body.classList.toggle("dropping", isOver);
    const onFiles = (kind, job) => addEventListener(kind, (event) => {
      if (!event.dataTransfer.types.includes("Files")) return;
      event.preventDefault();
      job(event.dataTransfer);
    });
    onFiles("dragover", () => hover(true));
    onFiles("drop", ({ files: [file] }) => {
      hover(false);
      if (file) inTurn("sheet-message", () => useFile(file));
    });
    addEventListener("dragleave", (event) => event.relatedTarget === null && hover(false));
    addEventListener("pointermove", () => hover(false));
  }

  function listenToStates() {
    const body = at("table").tBodies[0];
    body.addEventListener("pointerover", (event) => {
      const place = placeOfRow(event.target);
      if (event.pointerType === "mouse" && place !== null) showState(place);
    });
    body.addEventListener("pointerleave", () => page.list && showState(page.chosen));
    body.addEventListener("click", (event) => placeOfRow(event.target) !== null && choose(placeOfRow(event.target)));
    body.addEventListener("keydown", stepRows);
    at("back").addEventListener("click", () => page.list && turnTo(Math.max(0, page.first - rowsAtOnce())));
    at("on").addEventListener("click", () => page.list && turnTo(page.first + rowsAtOnce()));
    onSubmit("goto-form", () => askWith("goto-form", "goto-message", goTo));
    at("goto").addEventListener("input", () => say("goto-message", ""));
    at("save-list").addEventListener("click", () => onList("goto-message", saveList));
    onSubmit("check-form", () => askWith("check-form", "check-message", check));
    at("configuration").addEventListener("input", () => say("check-message", ""));
    at("take-chosen").addEventListener("click", takeChosen);
    for (const input of document.querySelectorAll("input[name=mode]")) {
      input.addEventListener("change", () => inTurn("mode-message", () => useMode(input.value)));
    }
  }

  function listenToMatrixAndLoops() {
    onSubmit("hamiltonian-form", () => askWith("hamiltonian-form", "hamiltonian-message", buildMatrix));
    at("heat").addEventListener("pointermove", pointAtEntry);
    at("heat").addEventListener("pointerdown", pointAtEntry);
    at("heat").addEventListener("keydown", stepEntries);
    matchMedia("(prefers-color-scheme: dark)").addEventListener("change", () => drawMatrix("heat"));
    addEventListener("beforeprint", () => drawMatrix("paper"));
    addEventListener("afterprint", () => drawMatrix("heat"));
    onSubmit("loops-form", () => askWith("loops-form", "loops-message", workOutLoops));
    at("loop").addEventListener("change", () => {
      if (at("loop").value !== "typed") at("path").value = at("loop").value;
      askWith("loops-form", "loops-message", workOutLoops);
    });
    at("path").addEventListener("input", () => (at("loop").value = "typed"));
    at("vector").addEventListener("change", showVectorFields);
    for (const form of Object.keys(ANSWERS)) at(form).addEventListener("input", () => showAnswer(form));
  }

  function releaseText(number) {
    return `Version ${Math.floor(number / 10000)}.${Math.floor(number / 100) % 100}.${number % 100}.`;
  }

  async function start() {
    const letters = atob(at("module-bytes").textContent.replace(/\s/g, ""));
    page.library = await Library.load(Uint8Array.from(letters, (letter) => letter.charCodeAt(0)), at("calls-text").textContent.trim());
    at("release").textContent = releaseText(Number(release(page.library)));
    listenToSheet();
    listenToDrops();
    listenToStates();
    listenToMatrixAndLoops();
    showVectorFields();
    if (location.hash.startsWith("#sheet=")) useAddress();
    else useExample(EXAMPLES[0]);
  }

  inTurn("sheet-message", start);
})();
