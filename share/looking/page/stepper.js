// What is done with the timeline: keys, the pointer, the search, and all that is told of the turn that is chosen.
const byId = id => document.getElementById(id);

function element(tag, text = "", look = {}) {
  const made = document.createElement(tag);
  made.textContent = text;
  for (const [name, value] of Object.entries(look)) made.setAttribute(name, value);
  return made;
}

class Stepper {
  constructor(run, timeline) {
    this.run = run;
    this.timeline = timeline;
    this.drawKey();
    this.bindPointer();
    this.bindTools();
    document.addEventListener("keydown", event => this.key(event));
    window.addEventListener("resize", () => this.refresh());
    for (const media of ["(prefers-color-scheme: dark)", "print"]) window.matchMedia(media).addEventListener("change", () => this.refresh());
    if (run.count) this.choose(0);
    timeline.draw();
  }

  refresh() {
    const whole = this.timeline.scale < this.timeline.least() * 1.01;
    this.timeline.fit();
    this.timeline.scale = whole ? this.timeline.least() : Math.max(this.timeline.scale, this.timeline.least());
    this.timeline.draw();
  }

  drawKey() {
    const dots = window.devicePixelRatio || 1, { pen } = this.timeline;
    const used = new Set(this.run.kind);
    this.run.kinds.forEach(([kind, letter], number) => {
      if (!used.has(number)) return;
      const mark = element("canvas"), item = element("span");
      mark.width = 16 * dots;
      mark.height = 14 * dots;
      this.timeline.pen = mark.getContext("2d");
      this.timeline.pen.scale(dots, dots);
      this.timeline.fill(number, 0, 0, letter ? LETTER_CELL - .1 : 16, 14);
      item.append(mark, letter ? `${kind} (${letter})` : kind);
      byId("key").append(item);
    });
    this.timeline.pen = pen;
  }

  // ---- the pointer

  bindPointer() {
    const { canvas } = this.timeline;
    let held = null;
    canvas.addEventListener("wheel", event => {
      event.preventDefault();
      if (event.shiftKey || Math.abs(event.deltaX) > Math.abs(event.deltaY)) this.timeline.scroll((event.deltaX || event.deltaY) / this.timeline.scale);
      else this.timeline.zoom(event.deltaY < 0 ? 1.25 : .8, this.place(event).tick);
    }, { passive: false });
    canvas.addEventListener("pointerdown", event => { held = { x: event.clientX, first: this.timeline.first, moved: false }; });
    canvas.addEventListener("pointermove", event => {
      if (held && event.buttons) {
        held.moved ||= Math.abs(event.clientX - held.x) > 3;
        if (held.moved) {
          this.timeline.first = held.first - (event.clientX - held.x) / this.timeline.scale;
          this.timeline.draw();
        }
      }
      this.point(event);
    });
    canvas.addEventListener("click", event => {
      const moved = held && held.moved;
      held = null;
      const turn = this.turnAt(event);
      if (!moved && turn >= 0) this.choose(turn);
    });
  }

  place(event) {
    const box = this.timeline.canvas.getBoundingClientRect(), x = event.clientX - box.left, y = event.clientY - box.top;
    return { tick: this.timeline.first + (x - this.timeline.left) / this.timeline.scale, lane: Math.floor((y - INPUTS) / this.timeline.lane), x, y };
  }

  // the turn under the pointer; where turns are summed up, the first one from there on
  turnAt(event) {
    const { tick, lane, x } = this.place(event), who = this.run.lanes[lane];
    if (who === undefined || x < this.timeline.left) return -1;
    if (this.timeline.scale >= LEAST_CELL) return this.run.at(Math.floor(tick), who);
    const own = this.run.own[who], at = firstFrom(own, tick, turn => this.run.tick[turn]);
    return own.length ? own[Math.min(at, own.length - 1)] : -1;
  }

  point(event) {
    const { tick, y } = this.place(event), turn = this.turnAt(event), near = 5 / this.timeline.scale;
    const inputs = y > INPUTS ? [] : this.run.inputs.filter(one => Math.abs(one[0] + .5 - tick) < Math.max(near, .6));
    byId("pointed").textContent = turn >= 0 ? this.run.line(turn)
      : inputs.length ? inputs.slice(0, 4).map(one => `${one[0]} ${one[2]} ${one[3]}`).join("; ") : `tick ${Math.max(0, Math.floor(tick))}`;
  }

  // ---- the tools

  bindTools() {
    const at = { before: () => this.step(-1), after: () => this.step(1), own_before: () => this.step(-1, true), own_after: () => this.step(1, true),
      closer: () => this.timeline.zoom(1.6), further: () => this.timeline.zoom(1 / 1.6), whole: () => this.timeline.zoom(0),
      earlier: () => this.find(-1), later: () => this.find(1) };
    for (const [id, done] of Object.entries(at)) byId(id).addEventListener("click", done);
    byId("search").addEventListener("input", event => this.search(event.target.value));
    byId("search").addEventListener("keydown", event => { if (event.key === "Enter") this.find(event.shiftKey ? -1 : 1); });
    byId("tick").addEventListener("change", event => this.goTo(Number(event.target.value)));
  }

  key(event) {
    if (event.ctrlKey || event.metaKey || event.altKey || /^(INPUT|SELECT|TEXTAREA)$/.test(event.target.tagName)) {
      if (event.key === "Escape") event.target.blur();
      return;
    }
    const page = (this.timeline.end - this.timeline.first) * .8;
    const done = { ArrowRight: () => this.step(1, event.shiftKey), ArrowLeft: () => this.step(-1, event.shiftKey), "+": () => this.zoomTo(1.6),
      "=": () => this.zoomTo(1.6), "-": () => this.zoomTo(1 / 1.6), "0": () => this.timeline.zoom(0), "<": () => this.timeline.scroll(-page),
      ">": () => this.timeline.scroll(page), "/": () => byId("search").focus(), n: () => this.find(1), N: () => this.find(-1), g: () => byId("tick").focus(),
      c: () => this.follow(this.run.to, 0), e: () => this.follow(this.run.from, 1) }[event.key];
    if (!done) return;
    event.preventDefault();
    done();
  }

  zoomTo(factor) {
    const tick = this.chosen >= 0 ? this.run.tick[this.chosen] : undefined;
    const seen = tick >= this.timeline.first && tick <= this.timeline.end;
    this.timeline.zoom(factor, seen ? tick : undefined);
  }

  step(by, own = false) {
    if (this.chosen < 0) return;
    const list = this.run.own[this.run.who[this.chosen]], next = own ? list[this.run.rank[this.chosen] + by] : this.chosen + by;
    if (next >= 0 && next < this.run.count) this.choose(next);
  }

  follow(arrows, end) {
    const found = arrows.get(this.chosen);
    if (found) this.choose(found[0][end]);
  }

  goTo(tick) {
    if (!this.run.count || !Number.isFinite(tick)) return;
    this.choose(Math.min(firstFrom(this.run.tick, tick, one => one), this.run.count - 1));
  }

  search(words) {
    this.timeline.found = this.run.search(words);
    this.timeline.draw();
    this.count();
  }

  count() {
    const { found } = this.timeline, at = found.indexOf(this.chosen);
    byId("count").textContent = byId("search").value.trim() ? `${at >= 0 ? `${at + 1} of ` : ""}${found.length} turns` : "";
  }

  find(by) {
    const { found } = this.timeline;
    if (!found.length) return;
    const at = firstFrom(found, by > 0 ? this.chosen + 1 : this.chosen, turn => turn);
    this.choose(found[(by > 0 ? at % found.length : (at - 1 + found.length) % found.length)]);
    this.count();
  }

  // ---- the turn that is chosen

  get chosen() { return this.timeline.chosen; }

  choose(turn) {
    this.timeline.chosen = turn;
    this.timeline.show(turn);
    this.timeline.draw();
    this.tell(turn);
    this.tellAround(turn);
    this.count();
  }

  tell(turn) {
    const { run } = this, subject = run.subjects[run.who[turn]], told = byId("told");
    told.replaceChildren(element("h3", `Tick ${run.tick[turn]}, CPU ${subject.cpu}, ${subject.name}`));
    const facts = element("table", "", { class: "facts" });
    const row = (name, content) => {
      const line = facts.insertRow();
      line.insertCell().textContent = name;
      line.insertCell().append(content);
    };
    const place = run.text("place", turn), pc = run.text("pc", turn);
    row("at", element("span", place === pc ? pc : `${place} (${pc})`, { class: "mono" }));
    row("instruction", element("span", run.text("code", turn) || run.kinds[run.kind[turn]][0], { class: "mono", id: "code" }));
    if (run.text("source", turn)) row("source", element("span", run.text("source", turn), { class: "mono", id: "source" }));
    row("what happened", element("span", run.text("what", turn) || run.kinds[run.kind[turn]][0], { class: "mono", id: "what" }));
    for (const number of this.inputsOf(turn)) {
      const [, , , text, decimals] = run.inputs[number];
      row("input", element("span", text, { class: "mono input", title: decimals }));
      for (const reader of run.readers.get(number) || []) row("read by", this.way(reader));
    }
    for (const number of run.sources.get(turn) || []) row("from, dma", this.wayTo(number));
    for (const arrow of run.to.get(turn) || []) row(`from, ${run.arrow_kinds[arrow[2]][0]}`, this.way(arrow[0]));
    for (const arrow of run.from.get(turn) || []) row(`to, ${run.arrow_kinds[arrow[2]][0]}`, this.way(arrow[1]));
    told.append(facts, this.registers(turn));
  }

  // the numbers of the inputs of the turn's tick
  inputsOf(turn) {
    const tick = this.run.tick[turn], { inputs } = this.run, at = firstFrom(inputs, tick, one => one[0]);
    return [...Array(Math.min(firstFrom(inputs, tick + 1, one => one[0]) - at, 8)).keys()].map(one => at + one);
  }

  wayTo(number) {
    const [tick, , device, text, decimals] = this.run.inputs[number];
    const way = element("button", `${tick} ${device} ${text}`, { class: "way input", type: "button", title: decimals });
    way.addEventListener("click", () => this.goTo(tick));
    return way;
  }

  way(turn) {
    const way = element("button", this.run.line(turn), { class: "way", type: "button" });
    way.addEventListener("click", () => this.choose(turn));
    return way;
  }

  registers(turn) {
    const { before, after } = this.run.registers(turn), table = element("table", "", { id: "registers" });
    const head = table.insertRow();
    for (const text of ["register", "before", "after"]) head.append(element("th", text));
    const zeros = [];
    for (const name of ["pc", ...this.run.fields]) {
      if (before[name] === "0" && after[name] === "0") { zeros.push(name); continue; }
      const line = table.insertRow();
      line.append(element("td", name), element("td", before[name], { class: "number" }));
      line.append(element("td", after[name], { class: before[name] === after[name] ? "number" : "number marked" }));
    }
    if (zeros.length) {
      const line = table.insertRow();
      line.append(element("td", `zero: ${zeros.join(" ")}`, { colspan: 3, class: "quiet" }));
    }
    return table;
  }

  tellAround(turn) {
    const { run } = this, body = byId("around").tBodies[0], begin = Math.max(0, Math.min(turn - 8, run.count - 17));
    body.replaceChildren();
    for (let one = begin; one < Math.min(begin + 17, run.count); one++) {
      const line = body.insertRow(), subject = run.subjects[run.who[one]];
      const cells = [run.tick[one], subject.cpu, subject.name, run.text("place", one), run.text("code", one), run.text("what", one)];
      for (const cell of cells) line.insertCell().textContent = cell;
      if (one === turn) line.setAttribute("aria-current", "true");
      line.addEventListener("click", () => this.choose(one));
    }
  }
}
