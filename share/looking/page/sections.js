// Numbers under the pointer, the matrix whose cells mark flows, and the flows that are folded or left out.
function decimal(text) {
  const digits = text.replace(/^0x/, "");
  return /^[0-9a-f]{1,16}$/.test(digits) ? `${digits} hexadecimal is ${BigInt(`0x${digits}`)} decimal` : "";
}

// hexadecimal numbers tell what they are in decimal: those that stand alone, and those in what is told of turns
document.addEventListener("mouseover", event => {
  const cell = event.target.closest && event.target.closest(".number, #told .mono:not(.input), #around td, #pointed");
  if (!cell) return;
  const text = cell.textContent.trim();
  const values = cell.classList.contains("number") ? [text] : [...text.matchAll(HEXADECIMAL)].map(match => match[1]).filter(digits => parseInt(digits, 16) > 9);
  cell.title = [...new Set(values)].map(decimal).join("; ");
});

function bindMatrix() {
  const rows = [...document.querySelectorAll("#steps tbody tr")], note = byId("marked");
  for (const cell of document.querySelectorAll("#matrix rect[data-thing]")) {
    cell.setAttribute("tabindex", "0");
    cell.setAttribute("role", "button");
    const mark = () => {
      document.querySelectorAll(".chosen").forEach(one => one.classList.remove("chosen"));
      cell.classList.add("chosen");
      const { thing, subject } = cell.dataset;
      const found = rows.filter(row => row.dataset.thing === thing && [row.dataset.source, row.dataset.target].includes(subject));
      rows.forEach(row => row.classList.toggle("marked", found.includes(row)));
      const arrows = found.map(row => `${row.dataset.source}->${row.dataset.target}`);
      for (const edge of document.querySelectorAll("#flows g.edge")) {
        const title = edge.querySelector("title").textContent, back = title.split("->").reverse().join("->");
        if (found.some(row => edge.classList.contains(row.dataset.kind)) && (arrows.includes(title) || arrows.includes(back))) edge.classList.add("chosen");
      }
      note.textContent = found.length ? `${thing}, seen by ${subject}: ${found.map(row => row.textContent.trim().replace(/\s+/g, " ")).join("; ")}`
        : `${thing}, seen by ${subject}: no flow to or from another subject`;
    };
    cell.addEventListener("click", mark);
    cell.addEventListener("keydown", event => { if (event.key === "Enter" || event.key === " ") { event.preventDefault(); mark(); } });
  }
}

function bindFlows() {
  const left = () => new Set([...document.querySelectorAll("#leave input:not(:checked)")].map(box => box.value));
  const show = () => {
    const out = left(), folded = byId("fold").checked;
    document.querySelectorAll("#flows .whole, #flows .folded").forEach(one => {
      one.hidden = one.classList.contains("folded") !== folded;
    });
    document.querySelectorAll("#flows .whole g.node").forEach(node => node.classList.toggle("gone", out.has(node.querySelector("title").textContent)));
    document.querySelectorAll("#flows .whole g.edge").forEach(edge => {
      edge.classList.toggle("gone", edge.querySelector("title").textContent.split("->").some(end => out.has(end)));
    });
    document.querySelectorAll("#steps tbody tr").forEach(row => row.classList.toggle("gone", out.has(row.dataset.source) || out.has(row.dataset.target)));
  };
  byId("leave").addEventListener("change", show);
  byId("fold").addEventListener("change", show);
  byId("none").addEventListener("click", () => { document.querySelectorAll("#leave input").forEach(box => { box.checked = false; }); show(); });
  byId("all").addEventListener("click", () => { document.querySelectorAll("#leave input").forEach(box => { box.checked = true; }); show(); });
  show();
}

async function unpacked(text) {
  const bytes = Uint8Array.from(atob(text), letter => letter.charCodeAt(0));
  const stream = new Blob([bytes]).stream().pipeThrough(new DecompressionStream("deflate"));
  return JSON.parse(await new Response(stream).text());
}

async function begin() {
  bindMatrix();
  bindFlows();
  const data = byId("data");
  if (data) {
    const run = new Run(await unpacked(data.textContent));
    window.stepper = new Stepper(run, new Timeline(run, byId("lanes")));
  }
  document.documentElement.dataset.drawn = Math.round(performance.now());
}

begin();
