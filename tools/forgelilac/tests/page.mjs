// node page.mjs PAGE: runs the script of a page of docs/run.stream on stand-ins for what a browser has, presses
// certificates and goes to rounds. What is expected is read off docs/run.svg.
import { readFileSync } from "node:fs";
import assert from "node:assert";

const page = readFileSync(process.argv[2], "utf8");
const script = page.split("<script>\n")[1].split("</script>")[0];

const elements = {};
function element(id) {
  assert(page.includes(`id="${id}"`), `no element ${id}`);
  elements[id] ??= {
    listeners: {}, attributes: {}, scrollLeft: 0, textContent: "", value: "1", max: "15",
    addEventListener(name, call) { this.listeners[name] = call; },
    setAttribute(name, value) { this.attributes[name] = value; },
    getBoundingClientRect() { return { left: 100, top: 200 }; },
  };
  return elements[id];
}
const run = new Function("document", `${script}\nreturn run;`)({ getElementById: element });

// A place's middle, by the page's own cell and 52 pixels for the heading of the grid.
function press(round, member) {
  const [wide, tall] = run.cell;
  elements.grid.listeners.click({
    clientX: 100 + (round - run.first + 0.5) * wide,
    clientY: 200 + 52 + (run.members.indexOf(member) + 0.5) * tall,
  });
  return elements.certificate.textContent;
}

const stream = readFileSync("docs/run.stream", "latin1").split("\r\n");
const accepted = stream.find((record) => record.startsWith("accept,1,1,0,"));
const endorsers = Number(accepted.split(",")[4]);
const names = [...Array(16).keys()].filter((member) => (endorsers >> member) & 1).join(" ");
assert(press(1, 1).startsWith(`Round 1, member 1: a certificate in block 1. It names nobody of the round before, and ${names} endorsed it.`));
assert.match(press(2, 1), /^Round 2, member 1: a certificate in block 1\./);
assert.equal(elements.chosen.attributes.width, run.cell[0] - 4);
// Above the first row there is no certificate.
const before = elements.certificate.textContent;
elements.grid.listeners.click({ clientX: 120, clientY: 210 });
assert.equal(elements.certificate.textContent, before);

elements.round = { ...element("round"), value: "7" };
elements.go.listeners.submit({ preventDefault() {} });
assert.equal(element("run").scrollLeft, 6 * run.cell[0]);
