// Prints the vectors that crates/vectors judges, each with the answer of the engine that runs this:
//
//     node tools/vectors.mjs > crates/vectors/stdin
//
// The committed file was made with Node v20.20.2. Every run prints the same lines. The exit status
// is 1 where they cover less than they should (`shortfalls`).
//
// A line is `OPERATION OPERAND.. = EXPECTED`, its parts separated by one space. A part is
//
//     16 upper-case hex digits           a number, by its 64 bits; NaN is 7FF8000000000000
//     "..."                              a text, by its bytes: printable ASCII other than " and \
//                                        as itself, any other byte as \ and two upper-case hex digits
//     null  undefined  true  false
//     none                               as EXPECTED: the operation must not fold
//
// and an operation is
//
//     + - * / % ** | & ^ << >> >>> < <= > >= === !== == != in instanceof       two values
//     neg pos not bitnot typeof void                                           a value
//     inc dec ToInt32 ToUint32                                                 a number
//     ToBoolean                                                                a value
//     SameValue                                                                two values
//
// == and != have a third operand: the number of the text that is compared as a number, or none
// where no text is, or where its number is withheld.
//
// The answers are JavaScript's but for what is not to fold. `**`, `in`, `instanceof`, `pos`,
// `bitnot`, `typeof` and `void` never fold; `+` takes two numbers or two texts, `neg` a number, and
// every other operator but the four equalities two numbers; == and != give nothing where they need
// a number that is withheld.

const NONE = Symbol("none");

const ON_NUMBERS = {
  "+": (a, b) => a + b,
  "-": (a, b) => a - b,
  "*": (a, b) => a * b,
  "/": (a, b) => a / b,
  "%": (a, b) => a % b,
  "|": (a, b) => a | b,
  "&": (a, b) => a & b,
  "^": (a, b) => a ^ b,
  "<<": (a, b) => a << b,
  ">>": (a, b) => a >> b,
  ">>>": (a, b) => a >>> b,
  "<": (a, b) => a < b,
  "<=": (a, b) => a <= b,
  ">": (a, b) => a > b,
  ">=": (a, b) => a >= b,
};
const SHIFTS = ["<<", ">>", ">>>"];
const STRICT = {
  "===": (a, b) => a === b,
  "!==": (a, b) => a !== b,
};
const LOOSE = {
  "==": (a, b) => a == b,
  "!=": (a, b) => a != b,
};
const NEVER = ["**", "in", "instanceof"];
const UNARY = {
  neg: (a) => (typeof a === "number" ? -a : NONE),
  pos: () => NONE,
  not: (a) => !a,
  bitnot: () => NONE,
  typeof: () => NONE,
  void: () => NONE,
};
const ON_NUMBER = {
  inc: (a) => ++a,
  dec: (a) => --a,
  ToInt32: (a) => a | 0,
  ToUint32: (a) => a >>> 0,
};

// ---- values

const EXTREMES = [0, -0, 1, -1, NaN, Infinity, -Infinity, Number.MIN_VALUE, Number.MAX_VALUE];

const MIN_NORMAL = 2 ** -1022;
const MAGNITUDES = [
  0, Number.MIN_VALUE, MIN_NORMAL - Number.MIN_VALUE, MIN_NORMAL, Number.EPSILON,
  0.1, 0.5, 1 - 2 ** -53, 1, 1 + 2 ** -52, 1.5, 2, 2.5, 3, 10, 31, 32, 33, 64,
  2 ** 31 - 1, 2 ** 31 - 0.5, 2 ** 31, 2 ** 31 + 0.5, 2 ** 31 + 1, 2 ** 31 + 1.5,
  2 ** 32 - 1, 2 ** 32 - 0.5, 2 ** 32, 2 ** 32 + 1, 2 ** 32 + 5, 1e10,
  2 ** 51 + 0.5, 2 ** 52 - 0.5, 2 ** 52 + 1, 2 ** 53 - 1, 2 ** 53, 2 ** 53 + 2,
  2 ** 63, 2 ** 83 + 2 ** 31, 2 ** 84, 1e21, 1e300, Number.MAX_VALUE, Infinity,
];
const NUMBERS = [...MAGNITUDES, ...MAGNITUDES.map((x) => -x), NaN];

const SHIFTED = [1, -1, 5, -8.5, 123456789, 2 ** 31, -(2 ** 31), 2 ** 32 - 1, 2 ** 53 + 2];
const COUNTS = [0, 1, -1, 4.9, 31, 32, 33, 64, -31, -33, 2 ** 32 + 5, 1e10, -0.5, NaN];

const TEXTS = [
  "", " ", "0", "-0", "1", "1.0", "+1", "01", " 12\n", "1.5", ".5", "-7", "1e3", "1e999", "0x1F",
  "0b101", "-0x1", "1_000", "9007199254740993", "Infinity", "-Infinity", "infinity", "NaN",
  "null", "undefined", "true", "false", "a", "ab", "A", "say \"no\"", "back\\slash", "\0", "\x7F",
  "é", "e\u0301", "€", "\uFEFF1", "\u2028", "😀", "naïve 😀",
];

const VALUES = {
  null: [null],
  undefined: [undefined],
  boolean: [false, true],
  number: NUMBERS,
  string: TEXTS,
};
const KINDS = Object.keys(VALUES);
const ALL_VALUES = KINDS.flatMap((kind) => VALUES[kind]);

const kindOf = (value) => (value === null ? "null" : typeof value);

// A value of the kind that is loosely equal to `value`, where there is one.
const CONVERTED = {
  null: () => null,
  undefined: () => undefined,
  boolean: (value) => Number(value) === 1,
  number: Number,
  string: String,
};

// ---- a generator of pseudo-random values (xorshift, 32 bits)

let state = 0x2545f491;

function random(bound) {
  state ^= state << 13;
  state ^= state >>> 17;
  state ^= state << 5;
  return (state >>> 0) % bound;
}

const pick = (values) => values[random(values.length)];

const view = new DataView(new ArrayBuffer(8));

// A number with any sign and fraction, and an exponent field from `low` to `high`.
function randomNumber({ low, high }) {
  const exponent = low + random(high - low + 1);
  view.setUint16(0, (random(2) << 15) | (exponent << 4) | random(16));
  view.setUint16(2, random(0x10000));
  view.setUint32(4, random(0x100000000));
  return view.getFloat64(0);
}

const FINITE = { low: 0, high: 2046 };
// From 1/4 to beyond 2^85: where a number has low 32 bits, and its neighbours.
const INTEGRAL = { low: 1021, high: 1108 };
// Subnormal, or near it: a product or a quotient with what is near 1 may be rounded to a subnormal.
const TINY = { low: 0, high: 20 };
const NEAR_ONE = { low: 993, high: 1053 };

const times = (count, make) => Array.from({ length: count }, make);

// ---- lines

const lines = [];
const perOperation = new Map();
const perKinds = new Map();

const increment = (counts, key) => counts.set(key, (counts.get(key) ?? 0) + 1);

function shownNumber(x) {
  view.setFloat64(0, Number.isNaN(x) ? 0 : x);
  const bits = Number.isNaN(x) ? 0x7ff8n << 48n : view.getBigUint64(0);
  return bits.toString(16).toUpperCase().padStart(16, "0");
}

function shownByte(byte) {
  const char = String.fromCharCode(byte);
  if (char >= " " && char <= "~" && char !== '"' && char !== "\\") return char;
  return "\\" + byte.toString(16).toUpperCase().padStart(2, "0");
}

const shownBytes = (bytes) => `"${Array.from(bytes, shownByte).join("")}"`;

function shown(value) {
  if (value === NONE) return "none";
  if (typeof value === "number") return shownNumber(value);
  if (typeof value === "string") return shownBytes(new TextEncoder().encode(value));
  return String(value);
}

function line(operation, operands, expected) {
  lines.push([operation, ...operands.map(shown), "=", shown(expected)].join(" "));
  increment(perOperation, operation);
  if (operation in STRICT || operation in LOOSE) {
    increment(perKinds, [operation, ...operands.slice(0, 2).map(kindOf)].join(" "));
  }
}

function loose(operation, a, b) {
  const answer = LOOSE[operation](a, b);
  const kinds = [kindOf(a), kindOf(b)];
  const converts = kinds.includes("string") && (kinds.includes("number") || kinds.includes("boolean"));
  if (converts) {
    line(operation, [a, b, Number(typeof a === "string" ? a : b)], answer);
    line(operation, [a, b, NONE], NONE);
  } else {
    line(operation, [a, b, NONE], answer);
  }
}

function equality(operation, a, b) {
  if (operation in LOOSE) loose(operation, a, b);
  else line(operation, [a, b], STRICT[operation](a, b));
}

// ---- what is asked

const pairs = (lefts, rights) => lefts.flatMap((a) => rights.map((b) => [a, b]));
const randomNumbers = (count, exponents) => times(count, () => randomNumber(exponents));
const kindPairs = (count) => times(count, () => pairs(KINDS, KINDS)).flat();

function numberPairs() {
  return [
    ...pairs(EXTREMES, EXTREMES),
    ...NUMBERS.map((a) => [a, pick(NUMBERS)]),
    ...times(12, () => randomNumbers(2, FINITE)),
    ...times(16, () => randomNumbers(2, INTEGRAL)),
    ...times(8, () => [randomNumber(TINY), randomNumber(NEAR_ONE)]),
  ];
}

function folds(operation, a, b) {
  if (operation === "+" && typeof a === "string" && typeof b === "string") return true;
  return operation in ON_NUMBERS && typeof a === "number" && typeof b === "number";
}

function binary(operation, a, b) {
  line(operation, [a, b], folds(operation, a, b) ? ON_NUMBERS[operation](a, b) : NONE);
}

for (const operation in ON_NUMBERS) {
  for (const [a, b] of numberPairs()) binary(operation, a, b);
  for (const [left, right] of kindPairs(2)) binary(operation, pick(VALUES[left]), pick(VALUES[right]));
}
for (const operation of SHIFTS) {
  for (const [a, b] of pairs(SHIFTED, COUNTS)) binary(operation, a, b);
}
for (const a of TEXTS) binary("+", a, pick(TEXTS));

for (const operation of NEVER) {
  for (const [left, right] of kindPairs(3)) binary(operation, pick(VALUES[left]), pick(VALUES[right]));
}

// null and undefined have one value each, so some of these lines repeat.
for (const operation of [...Object.keys(STRICT), ...Object.keys(LOOSE)]) {
  for (const [left, right] of kindPairs(6)) {
    const a = pick(VALUES[left]);
    equality(operation, a, pick(VALUES[right]));
    equality(operation, a, CONVERTED[right](a));
  }
  for (const [a, b] of pairs(EXTREMES, EXTREMES)) equality(operation, a, b);
}

for (const operation in UNARY) {
  for (const a of ALL_VALUES) line(operation, [a], UNARY[operation](a));
}
for (const operation in ON_NUMBER) {
  const numbers = [...NUMBERS, ...randomNumbers(20, FINITE), ...randomNumbers(70, INTEGRAL)];
  for (const a of numbers) line(operation, [a], ON_NUMBER[operation](a));
}
for (const a of ALL_VALUES) line("ToBoolean", [a], !!a);

for (const [a, b] of pairs(EXTREMES, EXTREMES)) line("SameValue", [a, b], Object.is(a, b));
for (const [left, right] of kindPairs(3)) {
  const a = pick(VALUES[left]);
  for (const b of [pick(VALUES[right]), CONVERTED[right](a)]) line("SameValue", [a, b], Object.is(a, b));
}

// ---- coverage

function* shortfalls() {
  const operations = [ON_NUMBERS, STRICT, LOOSE, UNARY, ON_NUMBER].flatMap(Object.keys);
  for (const operation of [...operations, ...NEVER, "ToBoolean", "SameValue"]) {
    if ((perOperation.get(operation) ?? 0) < 60) yield `fewer than 60 lines of ${operation}`;
  }
  for (const operation of [STRICT, LOOSE].flatMap(Object.keys)) {
    for (const kinds of pairs(KINDS, KINDS)) {
      const key = [operation, ...kinds].join(" ");
      if ((perKinds.get(key) ?? 0) < 10) yield `fewer than 10 lines of ${key}`;
    }
  }
  if (lines.length < 3000) yield "fewer than 3000 lines";
}

console.log(lines.join("\n"));
for (const shortfall of shortfalls()) {
  console.error(shortfall);
  process.exitCode = 1;
}
