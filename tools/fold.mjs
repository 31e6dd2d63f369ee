// What the program `fold` is to print, worked by JavaScript itself:
//   node tools/fold.mjs > crates/fold/stdout
// The instructions are those of crates/fold/src/script.rt. `**` is never folded, nor is what needs its result.
const script = [
  ["floor length, m", 12.5],
  ["floor width, m", 8.4],
  ["floor area, m2", "#0 * #1"],
  ["room height, m", 2.4],
  ["volume, m3", "#2 * #3"],
  ["air changes an hour", 0.5],
  ["air flow, m3/h", "#4 * #5"],
  ["seconds in an hour", 3600],
  ["air flow, m3/s", "#6 / #7"],
  ["width of the main duct, m", 0.2],
  ["area of the main duct, m2", "#9 * #9"],
  ["velocity in the main duct, m/s", "#8 / #10"],
  ["width of the branch, m", 0.125],
  ["area of the branch, m2", "#12 * #12"],
  ["the main duct is the larger", "#10 > #13"],
  ["highest velocity, m/s", 3],
  ["the main duct is quiet", "#11 <= #15"],
  ["the main duct is loud", "!#16"],
  ["length of a duct piece, m", 1.5],
  ["length of the cut piece, m", "#0 % #18"],
  ["fan stage bits", 1437],
  ["mask of the stage", 7],
  ["stage", "#20 & #21"],
  ["bits past the stage", "#20 >> #15"],
  ["velocity in no duct", 0],
  ["flow in no duct", "#24 / #24"],
  ["it is itself", "#25 === #25"],
  ["change against the flow", "-#8"],
  ["pressure without flow", "#24 * #27"],
  ["resistance without flow", "#27 / #28"],
  ["power of a square", 2],
  ["square of the velocity", "#11 ** #30"],
  ["pressure loss", "#31 * #10"],
];

const shown = (value) => (Object.is(value, -0) ? "-0" : String(value));
const known = [];
let folded = 0;
script.forEach(([name, operation], number) => {
  let value = operation;
  if (typeof operation === "string") {
    const operands = [...operation.matchAll(/#(\d+)/g)].map(([, n]) => known[n]);
    const folds = !operation.includes("**") && operands.every((v) => v !== undefined);
    value = folds ? eval(operation.replace(/#(\d+)/g, "known[$1]")) : undefined;
  }
  known.push(value);
  folded += value !== undefined;
  console.log(`#${number} ${name}: ${shown(operation)} ${value === undefined ? "stays" : "=> " + shown(value)}`);
});
console.log(`instructions ${script.length} folded ${folded} left ${script.length - folded}`);
