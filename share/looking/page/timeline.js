// The timeline: turns by tick and subject, drawn as far as they are seen; and the turn that is chosen.
const GUTTER = 14, INPUTS = 26, AXIS = 24, LEAST_CELL = 3, LETTER_CELL = 9, MOST_ARROWS = 500, MANY = 12;

// the first place of a sorted list whose value isn't below this
function firstFrom(list, value, of) {
  let low = 0, high = list.length;
  while (low < high) {
    const middle = (low + high) >> 1;
    if (of(list[middle]) < value) low = middle + 1; else high = middle;
  }
  return low;
}

// of each key that pairs have the list of their values
function gathered(pairs, key, value) {
  const found = new Map();
  for (const pair of pairs) {
    if (!found.has(pair[key])) found.set(pair[key], []);
    found.get(pair[key]).push(value === undefined ? pair : pair[value]);
  }
  return found;
}

class Run {
  constructor(data) {
    Object.assign(this, data);
    this.count = data.turns.tick.length;
    let at = 0;
    this.tick = Int32Array.from(data.turns.tick, step => at += step);
    this.who = Uint8Array.from(data.turns.who);
    this.kind = Uint8Array.from(data.turns.kind);
    this.own = data.subjects.map(() => []);
    this.rank = new Int32Array(this.count);
    this.known = [];
    for (let turn = 0; turn < this.count; turn++) {
      this.rank[turn] = this.own[this.who[turn]].length;
      this.own[this.who[turn]].push(turn);
    }
    this.lanes = data.subjects.map((_, who) => who).sort((one, other) => data.subjects[one].cpu - data.subjects[other].cpu || one - other);
    this.laneOf = [];
    this.lanes.forEach((who, lane) => { this.laneOf[who] = lane; });
    this.from = gathered(data.arrows, 0);
    this.to = gathered(data.arrows, 1);
    // the turns that read an input first, and the inputs that a turn reads
    this.readers = gathered(data.reads, 0, 1);
    this.sources = gathered(data.reads, 1, 0);
  }

  text(column, turn) { return this.texts[this.turns[column][turn]]; }

  // the turn of a subject in a tick, or -1
  at(tick, who) {
    const own = this.own[who], place = firstFrom(own, tick, turn => this.tick[turn]);
    return place < own.length && this.tick[own[place]] === tick ? own[place] : -1;
  }

  line(turn) {
    const subject = this.subjects[this.who[turn]];
    return `${this.tick[turn]} ${subject.cpu} ${subject.name} ${this.text("place", turn)} ${this.text("code", turn)} ${this.text("what", turn)}`;
  }

  // registers before and after a turn, by the changes that the text tells
  registers(turn) {
    const who = this.who[turn], own = this.own[who], before = {}, left = new Set(this.fields);
    const meet = changes => {
      for (const [name, value] of changes) if (left.delete(name)) before[name] = value;
    };
    meet(this.changes(turn)[0]);
    for (let rank = this.rank[turn] - 1; rank >= 0 && left.size; rank--) {
      const [early, late] = this.changes(own[rank]);
      meet(late);
      meet(early);
    }
    this.fields.forEach((name, at) => { if (left.has(name)) before[name] = this.subjects[who].start[at]; });
    before.pc = this.text("pc", turn);
    const after = { ...before, pc: (BigInt("0x" + before.pc) + 8n).toString(16) };
    for (const [name, value] of this.changes(turn)[1]) after[name] = value;
    return { before, after };
  }

  // what has changed before a turn, by others, and what it changes, each as names with values
  changes(turn) {
    const number = this.turns.change[turn];
    this.known[number] ||= this.texts[number].split("|").map(part => part.split(" ").filter(Boolean).map(word => word.split("=")));
    return this.known[number];
  }

  // all turns that have each of these words in their line, their kind or their address
  search(words) {
    const wanted = words.toLowerCase().split(/\s+/).filter(Boolean);
    if (!wanted.length) return [];
    this.low ||= this.texts.map(text => text.toLowerCase());
    const tests = wanted.map(word => {
      const texts = this.low.map(text => text.includes(word));
      const names = this.subjects.map(subject => subject.name.toLowerCase().includes(word));
      const kinds = this.kinds.map(([kind]) => kind.includes(word));
      const { pc, place, code, what, source } = this.turns, bare = word.replace(/^0x/, "");
      const address = this.texts.map(text => text === bare);
      return turn => names[this.who[turn]] || kinds[this.kind[turn]] || texts[place[turn]] || texts[code[turn]] || texts[what[turn]]
        || texts[source[turn]] || address[pc[turn]] || String(this.tick[turn]) === word;
    });
    const found = [];
    for (let turn = 0; turn < this.count; turn++) if (tests.every(test => test(turn))) found.push(turn);
    return found;
  }
}

class Timeline {
  constructor(run, canvas) {
    this.run = run;
    this.canvas = canvas;
    this.chosen = run.count ? 0 : -1;
    this.found = [];
    this.scale = 8;
    this.first = 0;
    this.fit();
    // so many ticks that letters have room
    this.scale = Math.max(Math.min(this.room / 150, 40), LETTER_CELL + .5, this.least());
  }

  fit() {
    const names = this.run.subjects.map(subject => subject.name.length);
    this.left = Math.round(GUTTER + 46 + Math.min(Math.max(...names, 7) * 7.4, 190));
    [this.lane, this.bar, this.column] = this.run.lanes.length > MANY ? [22, 14, 6] : [30, 18, 4];
    this.wide = Math.max(this.canvas.clientWidth, 300);
    this.room = this.wide - this.left - GUTTER;
    this.high = INPUTS + this.run.lanes.length * this.lane + AXIS;
    const dots = window.devicePixelRatio || 1;
    this.canvas.width = Math.round(this.wide * dots);
    this.canvas.height = Math.round(this.high * dots);
    this.canvas.style.height = `${this.high}px`;
    this.pen = this.canvas.getContext("2d");
    this.pen.setTransform(dots, 0, 0, dots, 0, 0);
    const style = getComputedStyle(document.documentElement);
    this.colour = name => style.getPropertyValue(`--${name}`).trim();
  }

  least() { return this.room / Math.max(this.run.ticks, 1); }
  x(tick) { return this.left + (tick - this.first) * this.scale; }
  y(who) { return INPUTS + this.run.laneOf[who] * this.lane + this.lane - this.bar - 3; }
  get end() { return this.first + this.room / this.scale; }

  // so that `tick` stays where it is
  zoom(factor, tick = (this.first + this.end) / 2) {
    const before = this.scale;
    this.scale = Math.min(Math.max(before * factor, this.least()), 40);
    this.first = tick - (tick - this.first) * before / this.scale;
    this.draw();
  }

  scroll(ticks) {
    this.first += ticks;
    this.draw();
  }

  show(turn) {
    const tick = this.run.tick[turn], margin = Math.min(40 / this.scale, (this.end - this.first) / 4);
    if (tick < this.first + margin || tick > this.end - margin - 1) this.first = tick - (this.end - this.first) / 2;
  }

  draw() {
    this.first = Math.max(0, Math.min(this.first, this.run.ticks - this.room / this.scale));
    const pen = this.pen;
    pen.clearRect(0, 0, this.wide, this.high);
    pen.font = '11px "DejaVu Sans", Verdana, Arial, sans-serif';
    pen.save();
    pen.beginPath();
    pen.rect(this.left, 0, this.room, this.high);
    pen.clip();
    this.drawSlots();
    this.drawFrames();
    if (this.scale >= LEAST_CELL) {
      this.drawCells();
      this.drawArrows();
    } else this.drawSums();
    this.drawFound();
    this.drawInputs();
    pen.restore();
    this.drawTicks();
    this.drawNames();
    this.canvas.dataset.shown = `${Math.floor(this.first)} ${Math.ceil(this.end)}`;
  }

  drawNames() {
    const pen = this.pen, { run } = this;
    let cpu = -1;
    pen.textBaseline = "middle";
    pen.fillStyle = this.colour("quiet");
    pen.textAlign = "right";
    pen.fillText("inputs", this.left - 8, INPUTS / 2);
    for (const who of run.lanes) {
      const subject = run.subjects[who], y = this.y(who) + this.bar / 2;
      if (subject.cpu !== cpu) {
        pen.fillStyle = this.colour("quiet");
        pen.textAlign = "left";
        pen.fillText(`CPU ${subject.cpu}`, 2, y);
        pen.fillStyle = this.colour("line");
        pen.fillRect(0, INPUTS + this.run.laneOf[who] * this.lane - .5, this.wide, 1);
        cpu = subject.cpu;
      }
      pen.fillStyle = this.colour("text");
      pen.textAlign = "right";
      pen.fillText(subject.name, this.left - 8, y, this.left - 58);
    }
    pen.textAlign = "left";
    pen.textBaseline = "alphabetic";
  }

  drawSlots() {
    this.pen.fillStyle = this.colour("slot");
    this.run.subjects.forEach((subject, who) => {
      // those that are less than two pixels apart are one
      let left = 0, right = -9;
      const fill = () => { if (right > left) this.pen.fillRect(left, this.y(who) - 2, right - left, this.bar + 4); };
      for (let at = firstFrom(subject.slots, this.first, slot => slot[1]); at < subject.slots.length && subject.slots[at][0] < this.end; at++) {
        const begin = this.x(subject.slots[at][0]), end = this.x(subject.slots[at][1]);
        if (begin > right + 2) {
          fill();
          left = begin;
        }
        right = end;
      }
      fill();
    });
  }

  drawFrames() {
    const { frames } = this.run, pen = this.pen;
    let free = 0;
    for (let at = firstFrom(frames, this.first, frame => frame[0]); at < frames.length && frames[at][0] < this.end; at++) {
      const x = this.x(frames[at][0]);
      if (x < free) continue;
      pen.fillStyle = this.colour("line");
      pen.fillRect(x, INPUTS, 1, this.high - INPUTS - AXIS);
      pen.fillStyle = this.colour("quiet");
      pen.fillText(`frame ${frames[at][1]}`, x + 2, this.high - AXIS - 1);
      free = x + 60;
    }
  }

  fill(kind, x, y, wide, high) {
    const pen = this.pen, [, letter, colour, hatched] = this.run.kinds[kind];
    pen.fillStyle = colour;
    pen.fillRect(x, y, wide, high);
    if (hatched && (wide < LETTER_CELL || high < 12)) this.hatch(letter, x, y, wide, high);
    pen.strokeStyle = this.colour("edge");
    pen.lineWidth = .5;
    if (wide > 2) pen.strokeRect(x + .25, y + .25, wide - .5, high - .5);
    return letter;
  }

  hatch(letter, x, y, wide, high) {
    const lean = letter === "O" ? 3 : 2;
    this.pen.fillStyle = "#fff";
    for (let line = y + 1; line < y + high - .5; line += lean + 1) this.pen.fillRect(x, line, wide, lean - 1.2);
  }

  // the first turn that is seen, and the one behind the last
  seen() {
    const { tick } = this.run;
    return [firstFrom(tick, Math.floor(this.first), one => one), firstFrom(tick, this.end, one => one)];
  }

  drawCells() {
    const [begin, end] = this.seen(), { run, pen } = this, free = [];
    pen.textAlign = "center";
    for (let turn = begin; turn < end; turn++) {
      const x = this.x(run.tick[turn]), y = this.y(run.who[turn]), kind = run.kind[turn];
      const letter = this.fill(kind, x, y, this.scale - .6, this.bar);
      if (letter && this.scale >= LETTER_CELL) {
        pen.fillStyle = ["S", "H"].includes(letter) ? "#000" : "#fff";
        pen.font = "bold 10px \"DejaVu Sans\", Verdana, Arial, sans-serif";
        pen.fillText(letter, x + this.scale / 2 - .3, y + this.bar / 2 + 3.7);
      }
      if (turn === this.chosen) {
        pen.strokeStyle = this.colour("bad");
        pen.lineWidth = 2.5;
        pen.strokeRect(x - 1, y - 2, this.scale + 1.4, this.bar + 4);
      }
    }
    pen.textAlign = "left";
    pen.font = '9px "DejaVu Sans", Verdana, Arial, sans-serif';
    pen.fillStyle = this.colour("bad");
    for (let turn = begin; turn < end; turn++) {
      const above = run.text("above", turn), x = this.x(run.tick[turn]), who = run.who[turn];
      if (above && x >= (free[who] || 0)) {
        pen.fillText(above, x, this.y(who) - 2.5);
        free[who] = x + pen.measureText(above).width + 2;
      }
    }
    pen.font = '11px "DejaVu Sans", Verdana, Arial, sans-serif';
  }

  drawSums() {
    const [begin, end] = this.seen(), { run } = this, columns = Math.ceil(this.room / this.column) + 1, kinds = run.kinds.length;
    const step = this.column / this.scale, counts = new Uint32Array(columns * run.lanes.length * kinds);
    const scale = this.scale / this.column, first = this.first;
    for (let turn = begin; turn < end; turn++) {
      const column = Math.max(0, ((run.tick[turn] - first) * scale) | 0);
      counts[(run.who[turn] * columns + column) * kinds + run.kind[turn]]++;
    }
    const pen = this.pen, chosen = this.chosen >= 0 ? run.tick[this.chosen] : -1, bars = run.kinds.map(() => []);
    for (let place = 0; place < columns * run.lanes.length; place++) {
      const who = Math.floor(place / columns), x = this.left + (place % columns) * this.column;
      let below = 0;
      for (let kind = 0; kind < kinds; kind++) {
        const count = counts[place * kinds + kind];
        if (!count) continue;
        // one turn among many is seen, too
        const high = Math.min(Math.max(Math.round(this.bar * count / step), 2), this.bar - below);
        below += high;
        if (high > 0) bars[kind].push([x, this.y(who) + this.bar - below, high]);
      }
    }
    bars.forEach((list, kind) => {
      const [, letter, colour, hatched] = run.kinds[kind];
      pen.fillStyle = colour;
      for (const [x, y, high] of list) pen.fillRect(x, y, this.column, high);
      if (hatched) for (const [x, y, high] of list) this.hatch(letter, x, y, this.column, high);
    });
    if (chosen >= 0) {
      pen.fillStyle = this.colour("bad");
      pen.fillRect(this.x(chosen), this.y(run.who[this.chosen]) - 4, 2, this.bar + 8);
    }
  }

  drawArrows() {
    const { run } = this;
    this.drawEach(run.arrows, arrow => run.tick[arrow[0]], arrow => this.arrow(...arrow));
    this.drawEach(run.reads, read => run.inputs[read[0]][0], read => this.readArrow(...read));
  }

  // of arrows, which are sorted by the turn that they lead to, those that are seen
  drawEach(arrows, tickOf, done) {
    const begin = firstFrom(arrows, this.seen()[0], arrow => arrow[1]);
    for (let at = begin; at < Math.min(arrows.length, begin + MOST_ARROWS) && tickOf(arrows[at]) < this.end; at++) done(arrows[at]);
  }

  arrow(source, target, kind) {
    const { run } = this, [name, , dashes] = run.arrow_kinds[kind];
    let top = this.y(run.who[source]), bottom = this.y(run.who[target]);
    if (top < bottom) top += this.bar; else if (top > bottom) bottom += this.bar;
    this.curve([run.tick[source], top], [run.tick[target], bottom], name, dashes, [source, target].includes(this.chosen));
  }

  // from a device's input to the turn of a subject that reads first what it wrote
  readArrow(number, turn) {
    const { run } = this, begin = [run.inputs[number][0], INPUTS - 2], end = [run.tick[turn], this.y(run.who[turn])];
    this.curve(begin, end, "accent", "7 2 1.5 2", turn === this.chosen);
  }

  // from a tick and a height to others
  curve([tick, top], [later, bottom], name, dashes, chosen) {
    const { pen } = this, half = this.scale / 2, start = Math.max(this.x(tick) + half, this.left), end = this.x(later) + half;
    const bend = top === bottom ? top - 12 : (top + bottom) / 2, tip = top > bottom ? 1 : -1;
    pen.strokeStyle = pen.fillStyle = this.colour(name);
    pen.lineWidth = chosen ? 2.6 : 1.1;
    pen.setLineDash(dashes ? dashes.split(" ").map(Number) : []);
    pen.beginPath();
    pen.moveTo(start, top);
    pen.bezierCurveTo(start, bend, end, bend, end, bottom);
    pen.stroke();
    pen.setLineDash([]);
    pen.beginPath();
    pen.moveTo(end, bottom);
    pen.lineTo(end - 3, bottom + 6 * tip);
    pen.lineTo(end + 3, bottom + 6 * tip);
    pen.fill();
  }

  drawFound() {
    this.pen.fillStyle = this.colour("bad");
    let before = -9;
    for (let at = firstFrom(this.found, this.first, turn => this.run.tick[turn]); at < this.found.length; at++) {
      const tick = this.run.tick[this.found[at]], x = this.x(tick);
      if (tick > this.end) break;
      if (x < before + 1) continue;
      this.pen.fillRect(x, INPUTS - 3, Math.max(2, this.scale - 1), 3);
      before = x;
    }
  }

  drawInputs() {
    const { run, pen } = this, letters = { dma: "D", irq: "I", port: "P", mem: "M", order: "o" };
    let free = 0;
    pen.textAlign = "center";
    for (let at = firstFrom(run.inputs, this.first, one => one[0]); at < run.inputs.length && run.inputs[at][0] < this.end;) {
      const tick = run.inputs[at][0], x = this.x(tick) + this.scale / 2;
      let text = "", dropped = false;
      for (; at < run.inputs.length && run.inputs[at][0] === tick; at++) {
        text += letters[run.inputs[at][1]];
        dropped ||= run.inputs[at][3].includes("dropped");
      }
      if (x < free) continue;
      pen.fillStyle = this.colour(dropped ? "bad" : "accent");
      pen.beginPath();
      pen.moveTo(x - 4, INPUTS - 8);
      pen.lineTo(x + 4, INPUTS - 8);
      pen.lineTo(x, INPUTS - 2);
      pen.fill();
      text = dropped ? `${text}!` : text;
      pen.fillText(text, x, INPUTS - 10);
      free = x + pen.measureText(text).width + 3;
    }
    pen.textAlign = "left";
  }

  drawTicks() {
    const pen = this.pen, most = this.room / 70, y = this.high - AXIS;
    let step = 1;
    while ((this.end - this.first) / step > most) step *= String(step)[0] === "2" ? 2.5 : 2;
    pen.fillStyle = this.colour("quiet");
    pen.textAlign = "center";
    for (let tick = Math.ceil(this.first / step) * step; tick <= this.end; tick += step) {
      pen.fillRect(this.x(tick), y + 2, 1, 5);
      pen.fillText(String(tick), this.x(tick), y + 18);
    }
    pen.textAlign = "left";
  }
}
