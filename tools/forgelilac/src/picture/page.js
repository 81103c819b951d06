const byId = (id) => document.getElementById(id);
const within = (set) => [...Array(16).keys()].filter((member) => (set >> member) & 1).join(" ") || "nobody";

function tellOf(round, member) {
  const place = `${round}/${member}`;
  const held = run.held[place];
  if (!held) return `Round ${round}, member ${member}: no certificate is held.`;
  const [previous, endorsers, block, transactions] = held;
  const where = block ? `in block ${block}` : "in no block";
  return `Round ${round}, member ${member}: a certificate ${where}. It names ${within(previous)} of the round before, ` +
    `and ${within(endorsers)} endorsed it. Transactions: ${transactions || "none"}.`;
}

function choose(round, member) {
  const column = round - run.first;
  const row = run.members.indexOf(member);
  const chosen = byId("chosen");
  const place = { x: run.left + column * run.cell[0] + 2, y: run.top + row * run.cell[1] + 2,
    width: run.cell[0] - 4, height: run.cell[1] - 4 };
  for (const [name, value] of Object.entries(place)) chosen.setAttribute(name, value);
  byId("certificate").textContent = tellOf(round, member);
}

function goTo(round) {
  byId("run").scrollLeft = (round - run.first) * run.cell[0];
}

byId("grid").addEventListener("click", (event) => {
  const frame = byId("grid").getBoundingClientRect();
  const column = Math.floor((event.clientX - frame.left) / run.cell[0]);
  const row = Math.floor((event.clientY - frame.top - 52) / run.cell[1]);
  if (row >= 0 && row < run.members.length) choose(run.first + column, run.members[row]);
});
byId("go").addEventListener("submit", (event) => {
  event.preventDefault();
  goTo(Number(byId("round").value));
});
byId("last").addEventListener("click", () => {
  goTo(Number(byId("round").max));
});
