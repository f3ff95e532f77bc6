/* The ring at one time, on a canvas: cubs with their disks, slots between the disks, and what leaves. */

const MARKS = {d: "D", r: "R", x: "P"};

class Ring {
  constructor(canvas, run) {
    this.canvas = canvas;
    this.run = run;
    this.spots = [];
    const style = getComputedStyle(document.documentElement);
    const names = ["ink", "grey", "pale", "hatch", "fault", "font", "missing-dead", "missing-read", "missing-piece"];
    this.look = Object.fromEntries(names.map((name) => [name, style.getPropertyValue(`--${name}`).trim()]));
    this.red = {d: this.look["missing-dead"], r: this.look["missing-read"], x: this.look["missing-piece"]};
    this.resize();
  }

  /* Takes the size that the canvas has on the page. */
  resize() {
    const side = this.canvas.clientWidth || 600, share = window.devicePixelRatio || 1, {run} = this;
    this.canvas.width = this.canvas.height = Math.round(side * share);
    this.paper = this.canvas.getContext("2d");
    this.paper.setTransform(share, 0, 0, share, 0, 0);
    Object.assign(this, {side, middle: side / 2, radius: 0.345 * side});
    this.cubSize = Math.min(17, 0.42 * 2 * Math.PI * this.radius / run.cubs);
    this.apart = Math.min(0.22 * this.radius, 0.58 * this.radius / run.disks);
    this.between = 2 * Math.PI * (this.lane(run.allDisks - 1) - 0.45 * this.apart) * run.disks / run.slots;
    this.isCrowd = this.between < 20 || this.apart < 34;
    this.outside = this.radius + this.cubSize + (this.isCrowd ? 7 : 15); /* where what leaves begins its way */
    this.flight = this.middle - this.outside - (this.isCrowd ? 6 : 12);
    this.diskSize = this.isCrowd ? Math.min(6, 0.5 * this.apart) : 11;
    this.hatch = this.hatched();
    this.layWays();
  }

  /* Lays the ways on which what leaves goes out: one for each disk of a cub, in columns if much leaves it. */
  layWays() {
    const {run} = this, room = 0.86 * 2 * Math.PI * this.outside / run.cubs / run.disks;
    const between = this.flight * run.allDisks / run.slots; /* from a block of a disk to the next one */
    this.columns = this.isCrowd ? Math.max(1, Math.min(Math.ceil(4 / between), Math.floor(room / 4.5))) : 1;
    this.way = Math.min(room, Math.max(13, 4.5 * this.columns + 3));
    this.partSize = this.isCrowd ? Math.max(1.8, Math.min(3.5, 0.45 * between, 0.4 * this.way)) : 10;
  }

  /* How far from its cub's middle something goes out, across. */
  asideOf(part) {
    const disk = Math.floor(part.disk / this.run.cubs) - (this.run.disks - 1) / 2;
    return this.way * disk + 4.5 * (part.viewer.slot % this.columns - (this.columns - 1) / 2);
  }

  /* The pattern of a dead cub. */
  hatched() {
    const tile = document.createElement("canvas"), size = 8;
    tile.width = tile.height = size;
    const paper = tile.getContext("2d");
    paper.fillStyle = this.look.pale;
    paper.fillRect(0, 0, size, size);
    paper.strokeStyle = this.look.hatch;
    paper.lineWidth = 1.5;
    paper.beginPath();
    for (const at of [-size, 0, size]) {
      paper.moveTo(at, size);
      paper.lineTo(at + size, 0);
    }
    paper.stroke();
    return this.paper.createPattern(tile, "repeat");
  }

  /* Where something lies that is so many cubs from cub 0, as its two coordinates. */
  place(turns, radius) {
    const angle = 2 * Math.PI * turns / this.run.cubs;
    return [this.middle + radius * Math.sin(angle), this.middle - radius * Math.cos(angle)];
  }

  /* The radius on which the disk of this number lies: the second disks of all cubs lie within the first ones. */
  lane(turns) {
    return this.radius - this.cubSize - 14 - this.apart * this.lapOf(turns);
  }

  /* Which of its cub's disks the disk of this number is. */
  lapOf(turns) {
    return modulo(Math.floor(turns / this.run.cubs), this.run.disks);
  }

  /* Draws the ring at a time, and marks what is chosen. */
  draw(now, chosen) {
    this.spots = [];
    this.paper.clearRect(0, 0, this.side, this.side);
    const holders = this.run.holders(now);
    this.drawTracks();
    this.drawDisks(now);
    this.drawSlots(now, holders, chosen);
    const parts = this.run.recent(now);
    parts.filter((part) => !isMissing(part.kind)).forEach((part) => this.drawPart(part, now, chosen));
    this.drawCubs(now, chosen);
    this.drawMissing(parts.filter((part) => isMissing(part.kind)), chosen);
    this.drawMiddle(now, holders.length);
    this.canvas.setAttribute("aria-label", `The ring. ${this.run.told(now)}`);
  }

  /* Draws the circle of cubs, and those on which the slots go. */
  drawTracks() {
    const {paper, run} = this;
    paper.strokeStyle = this.look.pale;
    paper.lineWidth = 2;
    const inside = Array.from({length: run.disks}, (_, lap) => this.lane(lap * run.cubs) - 0.45 * this.apart);
    for (const radius of [this.radius, ...inside]) {
      paper.beginPath();
      paper.arc(this.middle, this.middle, radius, 0, 2 * Math.PI);
      paper.stroke();
    }
  }

  /* Draws the disks; one that cannot be read is larger, and has a cross. */
  drawDisks(now) {
    const failing = this.run.unreadable(now);
    for (let disk = 0; disk < this.run.allDisks; disk += 1) {
      const [x, y] = this.place(disk, this.lane(disk)), isFault = failing.has(disk);
      const half = (isFault ? Math.max(9, this.diskSize) : this.diskSize) / 2;
      this.box(x, y, half, half, isFault ? this.look.fault : "#fff", isFault ? this.look.ink : this.look.grey, 1);
      if (isFault) this.cross(x, y, half - 2);
      this.spots.push({x, y, size: half + 1, means: {cub: disk % this.run.cubs},
        says: `disk ${disk} of cub ${disk % this.run.cubs}${isFault ? " cannot be read" : ""}`});
    }
  }

  /* Draws a box round a place. */
  box(x, y, halfWide, halfTall, fill, stroke, line) {
    const {paper} = this;
    paper.fillStyle = fill;
    paper.fillRect(x - halfWide, y - halfTall, 2 * halfWide, 2 * halfTall);
    if (stroke) {
      paper.strokeStyle = stroke;
      paper.lineWidth = line;
      paper.strokeRect(x - halfWide, y - halfTall, 2 * halfWide, 2 * halfTall);
    }
  }

  /* Draws a disk round a place. */
  dot(x, y, size, fill, stroke, line) {
    const {paper} = this;
    paper.beginPath();
    paper.arc(x, y, size, 0, 2 * Math.PI);
    paper.fillStyle = fill;
    paper.fill();
    if (stroke) {
      paper.strokeStyle = stroke;
      paper.lineWidth = line;
      paper.stroke();
    }
  }

  /* Draws a cross. */
  cross(x, y, half) {
    const {paper} = this;
    paper.beginPath();
    [[-1, -1, 1, 1], [1, -1, -1, 1]].forEach(([a, b, c, d]) => {
      paper.moveTo(x + a * half, y + b * half);
      paper.lineTo(x + c * half, y + d * half);
    });
    paper.strokeStyle = this.look.ink;
    paper.lineWidth = 1.4;
    paper.stroke();
  }

  /* Writes words round a place. */
  write(words, x, y, size, fill, weight = "bold") {
    const {paper} = this;
    paper.font = `${weight} ${size}px ${this.look.font}`;
    paper.textAlign = "center";
    paper.textBaseline = "middle";
    paper.fillStyle = fill;
    paper.fillText(words, x, y + 0.06 * size);
  }

  /* Draws the slots: those with a viewer in its colour, and the free ones if there is room for them. */
  drawSlots(now, holders, chosen) {
    const taken = new Set(holders.map((viewer) => viewer.slot));
    const free = this.showsFree() ? [...this.run.zero.keys()].filter((slot) => !taken.has(slot)) : [];
    free.forEach((slot) => this.dot(...this.placeOf(slot, now), 2.5, "#fff", this.look.grey, 1));
    const size = this.isCrowd ? Math.max(2.2, Math.min(5, 0.45 * this.between)) : 9;
    for (const viewer of holders) {
      const [x, y] = this.placeOf(viewer.slot, now);
      this.dot(x, y, size, this.isCrowd ? viewer.strong : viewer.light);
      if (!this.isCrowd) this.write(String(viewer.number), x, y, 10, this.look.ink);
      this.spots.push({x, y, size, means: {viewer: viewer.number}, says: this.saysOf(viewer)});
    }
    holders.filter((viewer) => viewer.number === chosen.viewer)
      .forEach((viewer) => this.halo(...this.placeOf(viewer.slot, now), size + 3));
  }

  /* Whether there is room for free slots. */
  showsFree() {
    return this.between >= 10;
  }

  /* Where a slot is at a time. */
  placeOf(slot, now) {
    const turns = this.run.turns(slot, now);
    return this.place(turns, this.lane(turns) - 0.45 * this.apart);
  }

  /* What is said of a viewer under the pointer. */
  saysOf(viewer) {
    return `viewer ${viewer.number} in slot ${viewer.slot} plays ${this.run.files[viewer.file]}`;
  }

  /* Draws a dark circle on white, round what is chosen. */
  halo(x, y, size) {
    const {paper} = this;
    for (const [colour, line] of [["#fff", 5], [this.look.ink, 2.5]]) {
      paper.beginPath();
      paper.arc(x, y, size, 0, 2 * Math.PI);
      paper.strokeStyle = colour;
      paper.lineWidth = line;
      paper.stroke();
    }
  }

  /* Draws the cubs with their numbers: one that lives is round, and a dead one square and hatched. */
  drawCubs(now, chosen) {
    const {run, cubSize} = this, size = Math.max(9, Math.min(13, 0.85 * cubSize));
    for (let cub = 0; cub < run.cubs; cub += 1) {
      const [x, y] = this.place(cub, this.radius), isDead = run.isDead(cub, now);
      if (isDead) {
        this.box(x, y, 0.95 * cubSize, 0.95 * cubSize, this.hatch, this.look.grey, 1.5);
        this.dot(x, y, 0.72 * cubSize, "rgba(255,255,255,.88)");
      } else {
        this.dot(x, y, cubSize, "#fff", this.look.ink, 1.5);
      }
      this.write(String(cub), x, y, size, isDead ? this.look.grey : this.look.ink);
      if (cub === chosen.cub) this.halo(x, y, cubSize + 4);
      this.spots.push({x, y, size: cubSize, means: {cub}, says: `cub ${cub}${isDead ? " is dead" : ""}`});
    }
  }

  /* Draws a block or a piece on its way out, the farther the longer ago it left. */
  drawPart(part, now, chosen) {
    const {run, paper} = this, share = (now - part.time) / run.play;
    const radius = this.outside + share * this.flight;
    const aside = this.asideOf(part) * run.cubs / (2 * Math.PI * radius), half = this.partSize;
    const [x, y] = this.place(part.cub + aside, radius), isChosen = part.viewer.number === chosen.viewer;
    paper.globalAlpha = isChosen ? 1 : 1 - 0.65 * share * share;
    const tall = part.piece ? 0.45 * half : this.isCrowd ? half : 0.75 * half;
    this.box(x, y, half, tall, this.isCrowd ? part.viewer.strong : part.viewer.light,
      isChosen ? this.look.ink : null, this.isCrowd ? 1 : 2);
    if (part.piece && !this.isCrowd) this.stripe(x, y, half, tall);
    if (!this.isCrowd && !part.piece) this.write(String(part.viewer.number), x, y, 10, this.look.ink);
    paper.globalAlpha = 1;
    const what = `${part.piece ? `piece ${part.piece} of ` : ""}block ${part.block.number}`;
    this.spots.push({x, y, size: half, means: {viewer: part.viewer.number},
      says: `viewer ${part.viewer.number}: ${what} left cub ${part.cub} at ${run.seconds(part.time)}`});
  }

  /* Draws the stripes of a piece. */
  stripe(x, y, half, tall) {
    const {paper} = this;
    paper.beginPath();
    [-0.6, 0, 0.6].forEach((at) => {
      paper.moveTo(x + at * half - tall, y + tall);
      paper.lineTo(x + at * half + tall, y - tall);
    });
    paper.strokeStyle = "rgba(255,255,255,.8)";
    paper.lineWidth = 2;
    paper.stroke();
  }

  /* Draws the missing blocks outside their cub, one beside the other, each with the letter of its reason. */
  drawMissing(parts, chosen) {
    const beside = new Map(), half = this.isCrowd ? 6 : 8;
    const room = (cub) => 1 + Math.floor(this.flight / this.stepOf(cub, half));
    for (const part of parts) {
      const at = beside.get(part.cub) || 0;
      beside.set(part.cub, at + 1);
      if (at < room(part.cub)) this.drawMark(part, half, at, chosen);
    }
    beside.forEach((count, cub) => count > room(cub) && this.drawRest(cub, half, room(cub) - 1, count));
  }

  /* How far apart the marks of a cub are, so that their sides do not overlap. */
  stepOf(cub, half) {
    const [x, y] = this.place(cub, 1).map((side) => Math.abs(side - this.middle));
    return (2 * half + 2) / Math.max(x, y);
  }

  /* Where a mark lies that has so many others between it and its cub. */
  placeOfMark(cub, half, at) {
    return this.place(cub, this.outside + at * this.stepOf(cub, half));
  }

  /* Draws in the last mark's place how many blocks have no mark of their own. */
  drawRest(cub, half, at, count) {
    const [x, y] = this.placeOfMark(cub, half, at);
    this.box(x, y, half + 3, half, "#fff", this.look.grey, 1);
    this.write(`+${count - at}`, x, y, 9, this.look.ink);
  }

  /* Draws the mark of a missing block, so many marks outside its cub. */
  drawMark(part, half, at, chosen) {
    const {run} = this, [x, y] = this.placeOfMark(part.cub, half, at);
    this.box(x, y, half, half, this.red[part.kind], part.viewer.number === chosen.viewer ? this.look.ink : "#fff", 1.5);
    this.write(MARKS[part.kind], x, y, 1.5 * half, part.kind === "x" ? this.look.ink : "#fff");
    this.spots.push({x, y, size: half, means: {viewer: part.viewer.number},
      says: `viewer ${part.viewer.number}: block ${part.block.number} is missing, ${run.why[part.kind]}`});
  }

  /* Writes the time into the middle. */
  drawMiddle(now, holders) {
    const {middle} = this;
    this.write(this.run.seconds(this.run.atBeat(now)), middle, middle - 9, 19, this.look.ink);
    this.write(`${counted(holders, "viewer")} in slots`, middle, middle + 11, 12, this.look.grey, "normal");
    this.write("slots go clockwise", middle, middle + 27, 11, this.look.grey, "normal");
  }

  /* What lies at a place of the canvas: the nearest of what was drawn there, or nothing. */
  at(x, y) {
    const near = this.spots.map((spot) => [Math.hypot(spot.x - x, spot.y - y) - spot.size, spot])
      .filter(([far]) => far <= 4);
    return near.length ? near.reduce((one, other) => (other[0] <= one[0] ? other : one))[1] : null;
  }
}
