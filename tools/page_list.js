/* The list beside the ring: the blocks of a viewer or of a cub, or all that goes wrong. */

const MOST_ROWS = 300;

/* An element with a class and a text. */
function element(name, className, text) {
  const made = document.createElement(name);
  if (className) made.className = className;
  if (text !== undefined) made.textContent = text;
  return made;
}

/* The heading, the words and the rows of the list for what is chosen. */
function listOf(run, chosen) {
  if (chosen.viewer !== null) return viewerList(run, run.viewers[chosen.viewer]);
  return chosen.cub !== null ? cubList(run, chosen.cub) : wholeList(run);
}

/* How many blocks came in which way, in words. */
function sumsOf(parts) {
  const number = (test) => parts.filter((part) => test(part.kind)).length;
  const [whole, pieces] = [WHOLE, PIECES].map((kind) => number((it) => it === kind));
  return `${whole} whole, ${pieces} in pieces, ${number(isMissing)} missing`;
}

/* The list of a viewer's blocks. */
function viewerList(run, viewer) {
  const began = `It plays ${run.files[viewer.file]}, and was started at ${run.seconds(viewer.asked * run.beat)}.`;
  const stop = viewer.stop === null ? "" : ` It was stopped at ${run.seconds(viewer.stop * run.beat)}.`;
  const head = {heading: `Viewer ${viewer.number}`, when: "Due", which: "Block"};
  if (viewer.slot === null) return {...head, about: `${began} It got no slot.${stop}`, rows: []};
  const rows = viewer.blocks.map((block) => ({time: block.due, kind: block.kind, colour: viewer.light,
    which: String(block.number), what: toldOf(run, viewer, block), show: null}));
  const open = viewer.open === null ? ""
    : ` Blocks due from ${run.seconds(viewer.open)} on are too near to the end or to its stop to be in the report.`;
  const slot = ` It has slot ${viewer.slot} from visit ${viewer.first} on.`;
  return {...head, about: `${began}${slot}${stop} Blocks: ${sumsOf(viewer.blocks)}.${open}`, rows};
}

/* How a viewer's block came, in words. */
function toldOf(run, viewer, block) {
  const parts = run.partsOf(viewer, block);
  if (isMissing(block.kind)) return missingWords(run, block);
  const left = parts.map((part) => `cub ${part.cub} at ${run.seconds(part.time)}`);
  if (block.kind === WHOLE) return `whole, left ${left[0]}`;
  return `in ${counted(parts.length, "piece")}, left ${left.join(", ")}`;
}

/* Why a block is missing, in words. */
function missingWords(run, block) {
  const excuse = run.excuse(block);
  return `missing: ${run.why[block.kind]}${excuse ? ` (${excuse})` : ""}`;
}

/* The list of what a cub sent, and of what it did not. */
function cubList(run, cub) {
  const parts = run.partsOfCub(cub), home = parts.filter((part) => !part.piece);
  const pieces = counted(parts.length - home.length, "piece");
  const rows = parts.map((part) => ({time: part.time, kind: part.kind, colour: part.viewer.light,
    which: `viewer ${part.viewer.number}, block ${part.block.number}`, what: sharedWords(run, part),
    show: {viewer: part.viewer.number, cub: null}}));
  const disks = run.faults.filter(([disk]) => disk % run.cubs === cub).map(([disk, begin, until]) =>
    ` Disk ${disk} cannot be read from ${run.seconds(begin * run.beat)} to ${run.seconds(until * run.beat)}.`);
  const time = run.deathOf.has(cub) ? run.seconds(run.deathOf.get(cub)) : "", cut = run.cutWords(cub);
  const back = run.backOf.has(cub) ? ` It is back at ${run.seconds(run.backOf.get(cub))}.` : "";
  const death = !time ? "" : cut ? ` It dies at ${time}${cut}.${back}` : ` It is dead ${run.deadWords(cub)}.`;
  const about = `Blocks due here: ${sumsOf(home)}. It sent ${pieces} of blocks of the cubs before it.${death}`;
  return {heading: `Cub ${cub}`, about: about + disks.slice(0, 3).join("") + (disks.length > 3
    ? ` It has ${disks.length - 3} more such times.` : ""), when: "Time", which: "Block", rows};
}

/* What a cub did for a block in which it has a share, in words. */
function sharedWords(run, part) {
  if (isMissing(part.kind)) return missingWords(run, part.block);
  if (part.isHome) return `due here, came in pieces from the ${counted(part.block.sent.length, "cub")} behind`;
  return part.piece ? `piece ${part.piece} of ${part.block.sent.length} left` : "whole, left";
}

/* The list of all that goes wrong in the run. */
function wholeList(run) {
  const missing = run.missing().map((part) => ({time: part.time, kind: part.kind, colour: part.viewer.light,
    which: `viewer ${part.viewer.number}, block ${part.block.number}`, what: `missing: ${run.why[part.kind]}`,
    show: {viewer: part.viewer.number, cub: null}}));
  const deaths = run.deaths.map(([cub, beat]) => ({time: beat * run.beat, kind: "dead", which: `cub ${cub}`,
    what: `it dies${run.cutWords(cub)}`, show: {viewer: null, cub}}));
  const backs = [...run.backOf].map(([cub, time]) => ({time, kind: "back", which: `cub ${cub}`, what: "it comes back",
    show: {viewer: null, cub}}));
  const faults = run.faults.map(([disk, begin, until]) => ({time: begin * run.beat, kind: "fault",
    which: `disk ${disk} of cub ${disk % run.cubs}`, what: `it cannot be read until ${run.seconds(until * run.beat)}`,
    show: {viewer: null, cub: disk % run.cubs}}));
  const rows = [...deaths, ...backs, ...faults, ...missing].sort((one, other) => one.time - other.time);
  const sums = [counted(deaths.length, "death"), ...(backs.length ? [counted(backs.length, "return")] : []),
    counted(faults.length, "read fault"), counted(missing.length, "missing block")].join(", ");
  const help = "A click on a slot, a block, a cub or a row of the timeline, or a choice above, shows its blocks.";
  return {heading: "What goes wrong", when: "Time", which: "Where", rows, about: `${sums}. ${help}`};
}

class List {
  constructor(run, go, choose) {
    Object.assign(this, {run, go, choose, first: 0, at: null});
    const of = (id) => document.getElementById(id);
    const named = ["heading", "about", "when", "which", "rows", "scroll", "left"];
    named.forEach((id) => { this[id] = of(id); });
    this.rows.addEventListener("click", (event) => this.clicked(event));
    this.rows.addEventListener("keydown", (event) => this.pressed(event));
  }

  /* Shows the list of what is chosen. */
  show(chosen, now) {
    this.list = listOf(this.run, chosen);
    this.heading.textContent = this.list.heading;
    this.about.textContent = this.list.about;
    this.when.textContent = this.list.when;
    this.which.textContent = this.list.which;
    this.fill(this.placeOf(now));
    this.scroll.scrollTop = 0;
    this.follow(now);
  }

  /* The last row up to a time. */
  placeOf(now) {
    return firstAt(this.list.rows.length, (at) => this.list.rows[at].time > now) - 1;
  }

  /* Puts the rows round one into the table. */
  fill(at) {
    const {rows} = this.list;
    this.first = Math.max(0, Math.min(at - MOST_ROWS / 2, rows.length - MOST_ROWS));
    this.at = null;
    const shown = rows.slice(this.first, this.first + MOST_ROWS);
    this.rows.replaceChildren(...shown.map((row, index) => this.rowOf(row, this.first + index)));
    this.left.textContent = rows.length <= MOST_ROWS ? ""
      : `Rows ${this.first + 1} to ${this.first + shown.length} of ${rows.length}; they follow the time.`;
  }

  /* The row of the table for a row of the list. */
  rowOf(row, at) {
    const made = element("tr"), [time, which, what] = ["td", "td", "td"].map((name) => element(name));
    const button = element("button", "", this.run.seconds(row.time));
    button.type = "button";
    button.tabIndex = -1;
    button.setAttribute("aria-label", `Go to ${this.run.seconds(row.time)}`);
    time.append(button);
    which.append(...(row.show ? [element("a", "", row.which)] : [row.which]));
    if (row.show) which.firstChild.href = "#";
    if (row.show) which.firstChild.tabIndex = -1;
    what.append(this.mark(row), row.what);
    made.append(time, which, what);
    made.dataset.at = at;
    return made;
  }

  /* The mark of a row: the block's colour or shape, or the letter of its reason. */
  mark(row) {
    const made = element("b", `mark ${row.kind}`, MARKS[row.kind] || "");
    made.setAttribute("aria-hidden", "true");
    if (row.colour && !isMissing(row.kind)) made.style.backgroundColor = row.colour;
    return made;
  }

  /* Marks the row of a time, and has it in sight. */
  follow(now) {
    const at = this.placeOf(now), {rows} = this.list;
    if (at === this.at) return;
    const isOutside = Math.max(0, at) < this.first || at >= this.first + MOST_ROWS;
    if (rows.length > MOST_ROWS && isOutside) this.fill(at);
    const before = this.rows.querySelector("[aria-current]");
    if (before) before.removeAttribute("aria-current");
    this.rows.querySelectorAll("[tabindex='0']").forEach((part) => { part.tabIndex = -1; });
    this.at = at;
    const row = this.rows.children[Math.max(0, at - this.first)];
    if (!row) return;
    row.querySelectorAll("button, a").forEach((part) => { part.tabIndex = 0; });
    if (at >= 0) row.setAttribute("aria-current", "true");
    const {top, bottom} = this.scroll.getBoundingClientRect(), place = row.getBoundingClientRect();
    if (place.top < top + 30 || place.bottom > bottom) this.scroll.scrollTop += place.top - top - 0.4 * (bottom - top);
  }

  /* Goes to the time of a row that was clicked, and shows what it names. */
  clicked(event) {
    const line = event.target.closest("tr");
    if (!line) return;
    const row = this.list.rows[line.dataset.at];
    this.go(row.time);
    if (event.target.tagName === "A") {
      event.preventDefault();
      this.choose(row.show);
    }
  }

  /* Goes from row to row by the keys. */
  pressed(event) {
    const step = {ArrowUp: -1, ArrowDown: 1}[event.key], line = event.target.closest("tr");
    if (!step || !line) return;
    event.preventDefault();
    const at = Number(line.dataset.at) + step;
    if (at < 0 || at >= this.list.rows.length) return;
    this.go(this.list.rows[at].time);
    if (!this.rows.children[at - this.first]) this.fill(at);
    this.rows.children[at - this.first].querySelector("button").focus();
  }
}
