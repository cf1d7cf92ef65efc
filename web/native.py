#!/usr/bin/env python3
"""Makes inputs for every exported call from a seed, has the native library answer them, and writes both, a line of JSON for each call.

usage: native.py SEED SHEETS FILE

Three quarters of the sheets are good ones, the others are damaged. On each sheet every call is made, mostly with arguments that fit. A list
that is lent to be written to holds a pattern before the call, and the line has the checksum of all such lists after it. The first line has
the patterns: in that of the floats there are signalling NaNs.
"""
import array
import base64
import ctypes
import hashlib
import json
import os
import random
import re
import struct
import sys

ROOT = os.path.dirname(os.path.dirname(os.path.realpath(__file__)))
LIBRARY = f"{ROOT}/target/shared/libzibrotka.so"
CALLS = f"{ROOT}/bindings/python/zibrotka/calls.txt"
BYTES = {"u8": 1, "i8": 1, "i32": 4, "u32": 4, "u64": 8, "i64": 8, "f64": 8}
VALUES = {"u64": ctypes.c_uint64, "i32": ctypes.c_int32, "f64": ctypes.c_double, "bool": ctypes.c_bool}
PARAMETER = re.compile(r"(\w+): (?:(u64|i32|f64|bool)|&(mut )?(?:(\w+)|\[(\w+)(?:; (\d+))?\]))")
# What a wrong argument is chosen from.
BAD_WHOLE = [0, 1, 4, 64, 65, 255, 256, 1000, 1001, 2**31, 2**32, 2**53, 2**63, 2**64 - 1]
BAD_SHIFTS = [0, 1, -1, 2, -2, 1000, 2**31 - 1, -(2**31)]
BAD_FLOATS = [float("nan"), float("inf"), -float("inf"), 0.0, -0.0, -1.0, 5e-324, 2.0**-33, 2.0**33, 2.0**-32, 2.0**32]
# No vector or matrix of more states than this is lent whole.
MOST_ROWS = 150
MOST_STATES = 2500
MOST_ENTRIES = 40_000


class Call:
    """An exported call with its parameters: name, kind, whether it is a list, whether the list is written to, its length where it is fixed."""

    def __init__(self, line, library):
        self.name, inside = re.fullmatch(r"(\w+)\((.*)\) -> [iu]64", line).groups()
        self.parameters = []
        words = []
        for name, value, written, one, kind, length in PARAMETER.findall(inside):
            fixed = 1 if one else int(length) if length else None
            self.parameters.append((name, value or one or kind, not value, bool(written), fixed))
            words += [VALUES[value]] if value else [ctypes.c_void_p] if fixed else [ctypes.c_void_p, ctypes.c_size_t]
        self.function = getattr(library, f"zibrotka_{self.name}")
        self.function.argtypes, self.function.restype = words, ctypes.c_int64


def pattern_of(kind, rng):
    """Returns 4096 bytes. Every other float is a signalling NaN."""
    if kind != "f64":
        return rng.randbytes(4096)
    return b"".join(struct.pack("<Qd", 0x7FF0000000000001 + rng.getrandbits(32), rng.uniform(-9, 9)) for _ in range(256))


class Writer:
    """Makes calls and writes a line for each."""

    def __init__(self, file, rng):
        self.file = file
        library = ctypes.CDLL(LIBRARY)
        with open(CALLS, encoding="ascii") as lines:
            self.calls = {it.name: it for it in (Call(line.strip(), library) for line in lines)}
        self.patterns = {kind: pattern_of(kind, rng) for kind in BYTES}
        self.write({"patterns": {kind: base64.b64encode(it).decode() for kind, it in self.patterns.items()}})

    def write(self, line):
        self.file.write(json.dumps(line, separators=(",", ":")) + "\n")

    def filled(self, kind, length):
        pattern, size = self.patterns[kind], length * BYTES[kind]
        return bytearray((pattern * (size // len(pattern) + 1))[:size])

    def make(self, name, given):
        """Makes one call. A list to read is given as bytes, one to be written to as its length, or as anything where that is fixed."""
        call = self.calls[name]
        words, shown, lent = [], [], []
        for (_, kind, is_list, is_written, fixed), value in zip(call.parameters, given, strict=True):
            if not is_list:
                words.append(value)
                shown.append(shown_value(kind, value))
                continue
            length = (fixed or value) if is_written else len(value) // BYTES[kind]
            held = self.filled(kind, length) if is_written else value
            # one byte more, since there is no address of no bytes
            memory = bytearray(held) + b"\xa5" if is_written else value
            if is_written:
                lent.append((memory, len(held)))
            at = ctypes.addressof(ctypes.c_char.from_buffer(memory)) if is_written else memory
            words += [at] if fixed else [at, length]
            shown.append(length if is_written else base64.b64encode(value).decode())
        answer = call.function(*words)
        sum_of_lists = hashlib.md5()
        for memory, size in lent:
            assert memory[size] == 0xA5, name
            sum_of_lists.update(memoryview(memory)[:size])
        self.write({"call": name, "given": shown, "answer": answer, "sum": sum_of_lists.hexdigest()})
        return answer, [bytes(memory[:size]) for memory, size in lent]


def shown_value(kind, value):
    if kind == "f64":
        return struct.pack("<d", value).hex()
    return str(value) if kind == "u64" else value


def floats(values):
    return array.array("d", values).tobytes()


def integers(values):
    return array.array("i", values).tobytes()


class Sheet:
    """A random connected complex with a truncation that mostly leaves few candidates."""

    def __init__(self, rng):
        self.V = V = rng.choice([1, 2, 3, 3, 4, 4, 4, 5, 5, 5, 6, 6, 7, 8, 12])
        names = rng.sample(range(V), V)
        pairs = {tuple(sorted((names[at], names[rng.randrange(at)]))) for at in range(1, V)}
        left = [(a, b) for a in range(V) for b in range(a + 1, V) if (a, b) not in pairs]
        pairs.update(rng.sample(left, min(len(left), rng.choice([0, 1, 2, 3, 3, 4, 5, 6, 8]))))
        self.edges = rng.sample(sorted(pairs), len(pairs))
        whole = [(a, b, c) for a, b in pairs for c in range(b + 1, V) if (a, c) in pairs and (b, c) in pairs]
        self.triangles = rng.sample(sorted(whole), rng.randint(len(whole) // 2, len(whole)))
        self.E, self.T, self.F = len(self.edges), len(self.triangles), len(self.edges) - V + 1
        most = rng.choice([40, 300, MOST_STATES]) if rng.random() < 0.99 else 2_000_000
        fits = [it for it in (0, 1, 1, 2, 3, 5, 10, 25, 1000) if (2 * it + 1) ** self.F <= most]
        self.L = rng.choice([fits[-1], rng.choice(fits)])
        self.flat_edges = bytes(it for pair in self.edges for it in pair)
        self.flat_triangles = bytes(it for triple in self.triangles for it in triple)
        self.good = b"GLS\x01\x00" + struct.pack("<BBHH", V, self.E, self.T, self.L) + self.flat_edges + self.flat_triangles


def damaged(rng, sheet):
    """Returns a sheet's bytes with something wrong, if it is not right by chance."""
    found = bytearray(sheet)
    how = rng.randrange(6)
    if how == 0:
        return bytes(found[: rng.randrange(len(found))])
    if how == 1:
        return bytes(found) + rng.randbytes(rng.randint(1, 3))
    if how == 2:
        one, other = rng.randrange(11, len(found) + 1), rng.randrange(11, len(found) + 1)
        found[one - 1], found[other - 1] = found[other - 1], found[one - 1]
        return bytes(found)
    for _ in range(rng.randint(1, 3)):
        found[rng.randrange(len(found)) if how < 5 else rng.randrange(min(11, len(found)))] = rng.choice([0, 1, 2, 3, 63, 64, 65, rng.randrange(256)])
    return bytes(found)


def amplitudes(rng, n):
    found = [rng.uniform(-2, 2) for _ in range(min(n, MOST_STATES))]
    for _ in range(rng.randrange(3) if found else 0):
        found[rng.randrange(len(found))] = rng.choice([0.0, -0.0, 2.0**32, -(2.0**32), 5e-324, -2.5e-310])
    return floats(found)


class Inputs:
    """Arguments for each call on one sheet, sized by what the native library counts."""

    def __init__(self, rng, writer, it):
        self.rng, self.it, self.sheet = rng, it, it.good
        count = lambda name: max(writer.make(name, [it.good])[0], 0)
        self.n, self.n2 = count("count_states"), count("su2_count_states")
        self.entries, self.entries2 = count("count_entries"), count("su2_count_entries")
        self.vector, self.vector2 = amplitudes(rng, self.n), amplitudes(rng, self.n2)
        self.work, self.work2 = min(self.n, MOST_STATES) * it.E, min(self.n2, MOST_STATES)
        states = writer.make("enumerate_gauge_invariant", [it.good, self.work])
        at = rng.randrange(self.n) * it.E * 4 if states[0] > 0 else 0
        self.state = states[1][0][at:at + 4 * it.E] if states[0] > 0 else bytes(4 * it.E)

    def coupling(self, is_su2):
        rng, it = self.rng, self.it
        g = rng.choice([1.0, 2.0**-32, 2.0**32, rng.uniform(0.1, 4), rng.uniform(0.1, 4)])
        is_given = rng.random() < 0.6
        weights = floats(rng.choice([1.0, 0.0, -0.0, 2.0**-1071, rng.uniform(-3, 3)]) for _ in range(it.T))
        factors = (3 * g / 8, -0.5 / g) if is_su2 else (g / 2, -1 / g)
        return [g, *factors, is_given, weights if is_given or rng.random() < 0.5 else rng.randbytes(24)]

    def configuration(self):
        rng, it = self.rng, self.it
        if rng.random() < 0.6:
            return self.state
        most = rng.choice([it.L, it.L, it.L + 1, 2**31 - 1])
        return integers(rng.randint(-most, most) for _ in range(it.E))

    def lawful_outside(self):
        """Returns a configuration that obeys the law and mostly leaves the band: a multiple of a state."""
        return integers(min(max(3 * it, -(2**31)), 2**31 - 1) for it in array.array("i", self.state))

    def path(self):
        return bytes(self.rng.randrange(self.it.E) for _ in range(self.rng.choice([0, 1, 2, 3, 3, 4, 6]))) if self.it.E else b""

    def rows(self):
        """Returns row lists with a vector for `matvec`."""
        rng, n = self.rng, self.rng.randrange(9)
        lengths = [rng.randrange(5) for _ in range(n)]
        starts = array.array("I", [sum(lengths[:at]) for at in range(n + 1)])
        columns = array.array("I", [rng.randrange(n) for _ in range(sum(lengths))])
        values = floats(rng.choice([2.0**80, -(2.0**80), 5e-324, rng.uniform(-2, 2)]) for _ in columns)
        return [starts.tobytes(), columns.tobytes(), values, amplitudes(rng, n), n + rng.randrange(2)]

    def pentachora(self):
        rng, V = self.rng, self.rng.randint(5, 8)
        flat = [it for _ in range(rng.randint(1, 3)) for it in rng.sample(range(V), 5)]
        # mostly such that every vertex is in one of them
        V = max(flat) + 1 if rng.random() < 0.8 else V
        return [V, array.array("Q", flat).tobytes(), 126, 768, 1]

    def more(self):
        """Returns by how many entries a lent list is longer than it must be."""
        return self.rng.choice([0, 0, 0, 1, 3])

    def complex_arguments(self):
        """Returns the arguments that fit the calls on complexes and the law, by call. A list to be written to stands as its length."""
        rng, it, sheet, more = self.rng, self.it, self.sheet, self.more
        steps = rng.choice([3969, 3969, it.F * it.E])
        return {
            "make_sheet": [it.V, it.flat_edges, it.flat_triangles, it.L, len(it.good) + more()],
            "read_sheet": [sheet, 1, 1, 1, 1, 126, 768],
            "tri_edge_indices": [sheet, rng.randrange(max(it.T, 1)), 3],
            "from_pentachorons": self.pentachora(),
            "spanning_tree": [sheet, it.V - 1 + more(), it.F + more()],
            "fundamental_loops": [sheet, it.F + 1 + more(), steps, steps],
            "su2_fundamental_loops": [sheet, it.F + 1 + more(), steps],
            "check_gauss_law": [sheet, self.configuration()],
            "check_gauss_law_finding": [sheet, self.configuration(), 1, 1],
            "matvec": self.rows(),
            "refusal_text": [rng.randint(1, 17), 200],
            "release": [],
        }

    def place_arguments(self):
        """Returns those of the calls that list U(1) states or tell a place."""
        rng, it, sheet, more = self.rng, self.it, self.sheet, self.more
        configuration = self.configuration if rng.random() < 0.9 else self.lawful_outside
        edge, delta = rng.randrange(max(it.E, 1)), rng.choice([0, 0, 1, -1, 2])
        triangle, place = rng.randrange(max(it.T, 1)), rng.randrange(max(self.n, 1))
        return {
            "count_states": [sheet],
            "count_entries": [sheet],
            "enumerate_gauge_invariant": [sheet, self.work + more()],
            "config_to_index": [sheet, configuration(), self.work + more()],
            "config_to_index_finding": [sheet, configuration(), self.work + more(), 1, 1, 1],
            "apply_shift": [sheet, configuration(), edge, delta, self.work + more(), it.E + more()],
            "apply_shift_finding": [sheet, configuration(), edge, delta, self.work + more(), it.E + more(), 1, 1, 1],
            "apply_triangle_shift": [sheet, triangle, place, self.work + more()],
        }

    def u1_arguments(self):
        """Returns those of the calls that compute with floats in U(1)."""
        rng, it, sheet, more, vector = self.rng, self.it, self.sheet, self.more, self.vector
        rows, entries, path = min(self.n, MOST_ROWS), min(self.entries, MOST_ENTRIES), self.path()
        directions = bytes(rng.choice([1, 255]) for _ in path)
        return {
            "u1_params": [rng.uniform(0.01, 100), 3],
            "build_hamiltonian": [sheet, *self.coupling(False), self.work + more(), rows * rows + more()],
            "build_csr": [sheet, *self.coupling(False), self.work + more(), self.n + 1 + more(), entries + more(), entries + more()],
            "hamiltonian_matvec": [sheet, *self.coupling(False), vector, self.work + more(), len(vector) // 8 + more()],
            "electric_field_sq": [sheet, vector, self.work + more(), it.E + more()],
            "wilson_loop": [sheet, vector, path, directions, self.work + more(), 1],
        }

    def su2_arguments(self):
        """Returns those of the calls in Z2."""
        rng, sheet, more, vector, work = self.rng, self.sheet, self.more, self.vector2, self.work2
        rows, entries = min(self.n2, MOST_ROWS), min(self.entries2, MOST_ENTRIES)
        return {
            "su2_params": [rng.uniform(0.01, 100), 3],
            "su2_count_states": [sheet],
            "su2_count_entries": [sheet],
            "su2_basis": [sheet, work + more()],
            "build_su2_hamiltonian": [sheet, *self.coupling(True), work + more(), rows * rows + more()],
            "build_csr_su2": [sheet, *self.coupling(True), work + more(), self.n2 + 1 + more(), entries + more(), entries + more()],
            "su2_hamiltonian_matvec": [sheet, *self.coupling(True), vector, work + more(), len(vector) // 8 + more()],
            "su2_wilson_loop": [sheet, vector, self.path(), work + more(), 1],
            "su2_wilson_passes": [sheet, vector, self.path(), work + more(), 1],
        }

    def arguments(self):
        return {**self.complex_arguments(), **self.place_arguments(), **self.u1_arguments(), **self.su2_arguments()}


def spoiled(rng, call, given):
    """Returns the arguments with one of them changed to one that the call may refuse."""
    choices = [at for at, it in enumerate(call.parameters) if it[0] != "sheet" or it[3]]
    if not choices:
        return given
    at = rng.choice(choices)
    _, kind, is_list, is_written, fixed = call.parameters[at]
    value, size = given[at], BYTES.get(kind)
    if is_written:
        value = value if fixed else rng.choice([max(value - 1, 0), 0, value + 7, value // 2])
    elif not is_list:
        value = rng.choice({"u64": BAD_WHOLE, "i32": BAD_SHIFTS, "f64": BAD_FLOATS, "bool": [not value]}[kind])
    else:
        place = rng.randrange(len(value) // size + 1) * size
        other = struct.pack("<d", rng.choice(BAD_FLOATS)) if kind == "f64" else rng.randbytes(size)
        value = rng.choice([value[:-size], value + other, value[:place] + other + value[place + size:], b""])
    return given[:at] + [value] + given[at + 1:]


def main(seed, sheets, path):
    rng = random.Random(int(seed))
    with open(path, "w", encoding="ascii") as file:
        writer = Writer(file, rng)
        for _ in range(int(sheets)):
            inputs = Inputs(rng, writer, Sheet(rng))
            if rng.random() < 0.25:
                inputs.sheet = damaged(rng, inputs.sheet)
            arguments = inputs.arguments()
            for name, call in writer.calls.items():
                given = arguments[name]
                writer.make(name, spoiled(rng, call, given) if rng.random() < 0.25 else given)


if __name__ == "__main__":
    main(*sys.argv[1:])
