"use strict";
/*
 * The pictures of the page: the complex as SVG, a matrix on a canvas. They draw the lists they are given, and ask the library nothing.
 */
const Drawing = (() => {
  const SVG = "http://www.w3.org/2000/svg";
  /* Where an edge's label may stand, as a part of the way along the edge: the first of these that is far from all others. */
  const LABEL_PARTS = [0.5, 0.4, 0.6, 0.33, 0.67, 0.27, 0.73, 0.22];
  const LABEL_ROOM = 30;
  /* A label's box: its height, its width without letters, and the width of a letter. */
  const LABEL_HEIGHT = 18;
  const LABEL_WIDTH = 9;
  const LETTER_WIDTH = 7.4;
  /* No picture of a matrix has more squares than this in a row. */
  const SQUARES = 512;

  function shape(name, attributes, ...inside) {
    const made = document.createElementNS(SVG, name);
    for (const [key, value] of Object.entries(attributes)) made.setAttribute(key, value);
    made.append(...inside);
    return made;
  }

  /* The vertices on a circle, the first at the top, or at the top left where their number is even. Many stand by turns on two circles. */
  function circle(n) {
    const radii = n > 16 ? [Math.max(190, 6.5 * n), Math.max(190, 6.5 * n) - 75] : [n === 1 ? 0 : 140];
    const first = -Math.PI / 2 - (n % 2 === 0 ? Math.PI / n : 0);
    return Array.from({ length: n }, (_, vertex) => {
      const angle = first + (2 * Math.PI * vertex) / n;
      const radius = radii[vertex % radii.length];
      return { x: radius * Math.cos(angle), y: radius * Math.sin(angle) };
    });
  }

  const between = (from, to, part) => ({ x: from.x + part * (to.x - from.x), y: from.y + part * (to.y - from.y) });
  const distance = (one, other) => Math.hypot(one.x - other.x, one.y - other.y);

  /* How far a spot is from the nearest place of a line between two others. */
  function distanceToLine(spot, from, to) {
    const along = ((spot.x - from.x) * (to.x - from.x) + (spot.y - from.y) * (to.y - from.y)) / (distance(from, to) ** 2 || 1);
    return distance(spot, between(from, to, Math.min(1, Math.max(0, along))));
  }

  /* A place for each edge's label, away from the vertices, from the labels before it and from the other edges. */
  function labelSpots(edges, spots) {
    const taken = [...spots];
    return edges.map(([a, b], edge) => {
      const others = edges.filter((_, other) => other !== edge);
      let best = { room: -1 };
      for (const part of LABEL_PARTS) {
        const spot = between(spots[a], spots[b], part);
        // Labels are wide, so beside each other they need more room than one above the other.
        const fromLabels = taken.map((other) => Math.hypot(0.6 * (other.x - spot.x), other.y - spot.y));
        const fromEdges = others.map(([c, d]) => 1.5 * distanceToLine(spot, spots[c], spots[d]));
        const room = Math.min(LABEL_ROOM, ...fromLabels, ...fromEdges);
        if (room > best.room) best = { room, spot };
      }
      taken.push(best.spot);
      return best.spot;
    });
  }

  const corners = (points) => points.map(({ x, y }) => `${x.toFixed(1)},${y.toFixed(1)}`).join(" ");

  function line(from, to, attributes) {
    return shape("line", { x1: from.x.toFixed(1), y1: from.y.toFixed(1), x2: to.x.toFixed(1), y2: to.y.toFixed(1), ...attributes });
  }

  /* The head of an arrow on the way from one place to another, clear of the label. */
  function arrowHead(from, to, label, size, kind) {
    const length = distance(from, to) || 1;
    const along = { x: (to.x - from.x) / length, y: (to.y - from.y) / length };
    const part = distance(from, label) / length < 0.55 ? 0.76 : 0.3;
    const tip = between(from, to, part);
    const side = (turn) => ({ x: tip.x - size * along.x - turn * size * 0.55 * along.y, y: tip.y - size * along.y + turn * size * 0.55 * along.x });
    return shape("polygon", { points: corners([tip, side(1), side(-1)]), class: `head ${kind}` });
  }

  function label(spot, text, kind) {
    const width = LABEL_WIDTH + LETTER_WIDTH * text.length;
    const box = { x: (spot.x - width / 2).toFixed(1), y: (spot.y - LABEL_HEIGHT / 2).toFixed(1), width: width.toFixed(1), height: LABEL_HEIGHT,
      rx: 5 };
    return shape("g", { class: `label ${kind}` }, shape("rect", box), shape("text", { x: spot.x.toFixed(1), y: spot.y.toFixed(1) }, text));
  }

  /* The lines of the edges, with what a state puts on them: how thick, in which colour, and an arrow for the direction. */
  function edgeLines(picture, look) {
    return picture.edges.flatMap(([a, b], edge) => {
      const { kind, width, turn } = look(edge);
      const [from, to] = turn < 0 ? [picture.spots[b], picture.spots[a]] : [picture.spots[a], picture.spots[b]];
      const dash = picture.free.has(edge) ? "free" : "tree";
      const drawn = [line(from, to, { class: `edge ${dash} ${kind}`, "stroke-width": width })];
      if (turn) drawn.push(arrowHead(from, to, picture.labels[edge], 11 + 1.6 * width, kind));
      return drawn;
    });
  }

  /* Whether labels of edge numbers lie over each other, so that they cannot all be read. */
  function isCrowded(labels) {
    const width = labels.length > 10 ? LABEL_WIDTH + 2 * LETTER_WIDTH : LABEL_WIDTH + LETTER_WIDTH;
    const overlap = (one, other) => Math.abs(one.x - other.x) < 0.7 * width && Math.abs(one.y - other.y) < 0.7 * LABEL_HEIGHT;
    return labels.some((one, edge) => labels.slice(0, edge).some((other) => overlap(one, other)));
  }

  /* The labels; in a crowded picture that of the edge that is pointed at alone. */
  function showLabels(picture) {
    const { labels, pointed, look, text } = picture;
    const edges = picture.isCrowded ? [pointed].filter((edge) => edge !== null) : [...labels.keys()];
    picture.labelLayer.replaceChildren(...edges.map((edge) => label(labels[edge], text(edge), look(edge).kind)));
    picture.edgeLayer.querySelectorAll(".edge").forEach((drawn, edge) => drawn.classList.toggle("pointed", edge === pointed));
  }

  function redraw(picture, look, text) {
    Object.assign(picture, { look, text });
    picture.edgeLayer.replaceChildren(...edgeLines(picture, look));
    showLabels(picture);
  }

  /* Lines that are not seen, and wide enough to be pointed at. A finger that is lifted leaves its edge pointed at. */
  function pointerLines(picture) {
    const point = (edge) => {
      picture.pointed = edge;
      showLabels(picture);
    };
    return picture.edges.map(([a, b], edge) => {
      const drawn = line(picture.spots[a], picture.spots[b], { class: "pointer" });
      drawn.addEventListener("pointerenter", () => point(edge));
      drawn.addEventListener("pointerleave", (event) => event.pointerType === "mouse" && point(null));
      return drawn;
    });
  }

  function plain(picture) {
    redraw(picture, () => ({ kind: "plain", width: 2.5, turn: 0 }), (edge) => String(edge));
  }

  /* The values of a configuration: an arrow along an edge for a value above 0, against it for one below. */
  function values(picture, list, truncation) {
    const most = Math.max(1, truncation, ...list.map(Math.abs));
    const look = (edge) => {
      const value = list[edge];
      if (value === 0) return { kind: "none", width: 1.5, turn: 0 };
      return { kind: value > 0 ? "above" : "below", width: 2.5 + (4 * Math.abs(value)) / most, turn: Math.sign(value) };
    };
    // Where there are many labels, a value 0 is left off, so that they have room.
    const isLeftOff = (edge) => list[edge] === 0 && list.length > 20 && !picture.isCrowded;
    redraw(picture, look, (edge) => (isLeftOff(edge) ? String(edge) : `${edge}: ${list[edge]}`));
  }

  /* A set of edges. */
  function edgeSet(picture, chosen) {
    const look = (edge) => (chosen.has(edge) ? { kind: "inside", width: 6, turn: 0 } : { kind: "none", width: 1.5, turn: 0 });
    redraw(picture, look, (edge) => String(edge));
  }

  function markVertex(picture, marked) {
    picture.dots.forEach((dot, vertex) => dot.classList.toggle("marked", vertex === marked));
  }

  /* Draws a complex into an element. What comes back is handed to the functions that draw a state on it. */
  function complex(place, { nVertices, edges, triangles, free, title }) {
    const spots = circle(nVertices);
    const half = Math.max(110, ...spots.map(({ x, y }) => Math.max(Math.abs(x), Math.abs(y)))) + 26;
    const lowest = Math.max(60, ...spots.map(({ y }) => y)) + 26;
    const faces = triangles.map((corner) => shape("polygon", { points: corners(corner.map((vertex) => spots[vertex])), class: "face" }));
    const dots = spots.map(({ x, y }, vertex) =>
      shape("g", { class: "vertex" }, shape("circle", { cx: x.toFixed(1), cy: y.toFixed(1), r: 13 }),
        shape("text", { x: x.toFixed(1), y: y.toFixed(1) }, String(vertex))));
    const [edgeLayer, pointerLayer, labelLayer] = [shape("g", {}), shape("g", {}), shape("g", {})];
    const labels = labelSpots(edges, spots);
    const picture = { edges, spots, free: new Set(free), labels, isCrowded: isCrowded(labels), pointed: null, edgeLayer, labelLayer, dots };
    if (picture.isCrowded) pointerLayer.append(...pointerLines(picture));
    const box = `${-half} ${-half} ${2 * half} ${half + lowest}`;
    place.replaceChildren(shape("svg", { viewBox: box, role: "img", class: "complex" }, shape("title", {}, title),
      shape("g", {}, ...faces), edgeLayer, pointerLayer, shape("g", {}, ...dots), labelLayer));
    plain(picture);
    return picture;
  }

  /* Row lists gathered into squares: of all entries in a square, the value that is largest without its sign. */
  function squaresOf({ n, starts, columns, values: entries }) {
    const size = Math.ceil(n / SQUARES);
    const across = Math.ceil(n / size);
    const cells = new Float64Array(across * across);
    let largest = 0;
    for (let row = 0; row < n; row++) {
      const first = Math.floor(row / size) * across;
      for (let at = starts[row]; at < starts[row + 1]; at++) {
        const cell = first + Math.floor(columns[at] / size);
        const value = entries[at];
        if (Math.abs(value) > Math.abs(cells[cell])) cells[cell] = value;
        if (Math.abs(value) > largest) largest = Math.abs(value);
      }
    }
    return { n, size, across, cells, largest };
  }

  const mixed = (one, other, part) => one.map((shade, at) => Math.round(shade + part * (other[at] - shade)));

  /* The colour grows with the root of a value, so that small entries show beside large ones, and any value but 0 is tinted. */
  function colourOf(value, largest, { zero, above, below }) {
    if (value === 0 || largest === 0) return zero;
    return mixed(zero, value > 0 ? above : below, 0.12 + 0.88 * Math.sqrt(Math.abs(value) / largest));
  }

  function heatMap(canvas, squares, colours) {
    const { across, cells, largest } = squares;
    const scale = Math.max(1, Math.floor(SQUARES / across));
    const gap = scale >= 16 ? 1 : 0;
    canvas.width = canvas.height = across * scale;
    canvas.classList.toggle("few", gap > 0);
    const context = canvas.getContext("2d");
    context.fillStyle = `rgb(${gap ? colours.line : colours.zero})`;
    context.fillRect(0, 0, canvas.width, canvas.height);
    cells.forEach((value, cell) => {
      if (value === 0 && !gap) return;
      context.fillStyle = `rgb(${colourOf(value, largest, colours)})`;
      context.fillRect((cell % across) * scale, Math.floor(cell / across) * scale, scale - gap, scale - gap);
    });
  }

  return { complex, plain, values, edgeSet, markVertex, squaresOf, heatMap, colourOf };
})();
