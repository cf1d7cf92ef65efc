"use strict";
/*
 * What is typed on the page, read as numbers. What is not in form is told with the word that is wrong; the library is not asked then.
 */
const Words = (() => {
  /* What is typed is not in form: the library is not asked. */
  class Mistyped extends Error {}

  /* Commas, semicolons and brackets only part the words, and a minus may also be the sign U+2212 of a printed page. */
  const wordsOf = (text) => text.replaceAll("\u2212", "-").split(/[\s,;()[\]]+/).filter((word) => word !== "");
  const quoted = (word) => (word.length > 24 ? `"${word.slice(0, 24)}..."` : `"${word}"`);

  /* A whole number from low to high. `said` is the range as the page tells it, where the library judges a narrower one itself. */
  function whole(word, one, all, low, high, said = `${low} to ${high}`) {
    if (!/^-?\d+$/.test(word)) throw new Mistyped(`${quoted(word)} is not a whole number`);
    const number = Number(word);
    if (number < low || number > high) throw new Mistyped(`${word.slice(0, 24)} is not ${one}: ${all} ${said}`);
    return number + 0;
  }

  const vertexOf = (word) => whole(word, "a vertex", "vertices are", 0, 63);
  const edgeOf = (word) => whole(word, "an edge", "edges are", 0, 62);
  const valueOf = (word) => whole(word, "a value", "values are", -(2 ** 31), 2 ** 31 - 1);

  function floatOf(word) {
    if (!/^[+-]?(\d+\.?\d*|\.\d+)(e[+-]?\d+)?$/i.test(word)) throw new Mistyped(`${quoted(word)} is not a number`);
    const number = Number(word);
    if (number === 0 && /^[^e]*[1-9]/i.test(word)) throw new Mistyped(`${quoted(word)} is too small for a float`);
    return number;
  }

  function stepOf(word) {
    const found = /^(\d+)([+-])$/.exec(word);
    if (!found) throw new Mistyped(`${quoted(word)} is not a step: a step is an edge and a direction, as 0+ or 0-`);
    return { edge: edgeOf(found[1]), direction: found[2] === "+" ? 1 : -1 };
  }

  function oneWord(text, what) {
    const words = wordsOf(text);
    if (words.length !== 1) throw new Mistyped(`${what} must be one number`);
    return words[0];
  }

  /* A place may be typed with commas, as the page tells it: 784,896. */
  function placeOf(text, n) {
    const word = /^\s*\d{1,3}(,\d{3})+\s*$/.test(text) ? text.replaceAll(",", "").trim() : oneWord(text, "the place");
    return whole(word, "a place", "places are", 0, n - 1);
  }

  function couplingOf(text) {
    if (/\d,\d/.test(text)) throw new Mistyped("the coupling must be one number, with a point for its fraction, as 1.5");
    return floatOf(oneWord(text, "the coupling"));
  }

  /* Lines of vertices, so many for each edge or triangle; several of them may stand in one line. */
  function groupsOf(text, size, one, all) {
    const groups = [];
    text.split("\n").forEach((line, number) => {
      const words = wordsOf(line);
      const where = `${all}, line ${number + 1}: `;
      try {
        const vertices = words.map(vertexOf);
        if (words.length % size) throw new Mistyped(`${one} has ${size} vertices, and here are ${words.length} numbers`);
        while (vertices.length) groups.push(vertices.splice(0, size));
      } catch (error) {
        throw error instanceof Mistyped ? new Mistyped(where + error.message) : error;
      }
    });
    return groups;
  }

  /* Counts go to the library up to here, and it tells what is too large. */
  const countOf = (text, one, said) => whole(oneWord(text, one), `a ${one}`, "it is", 0, 2 ** 32, said);
  const verticesOf = (text) => countOf(text, "number of vertices", "1 to 64");
  const truncationOf = (text) => countOf(text, "truncation L", "0 to 1000");

  function sheetOf(library, typed) {
    const [vertices, truncation] = [verticesOf(typed.vertices), truncationOf(typed.truncation)];
    const edges = groupsOf(typed.edges, 2, "an edge", "edges");
    const triangles = groupsOf(typed.triangles, 3, "a triangle", "triangles");
    return Sheet.fromEdges(library, vertices, edges, triangles, truncation);
  }

  function sheetOfPentachora(library, typed, truncation) {
    const pentachora = groupsOf(typed.pentachora, 5, "a pentachoron", "pentachora");
    return Sheet.fromPentachora(library, verticesOf(typed["pentachora-vertices"]), pentachora, truncationOf(truncation));
  }

  return { Mistyped, wordsOf, edgeOf, valueOf, floatOf, stepOf, placeOf, couplingOf, sheetOf, sheetOfPentachora };
})();
