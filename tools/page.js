/* The page: the time that is shown, what is chosen, and the controls of both. */

const SPEEDS = [0.1, 0.25, 0.5, 1, 2, 5, 10, 25, 100];
const LONGEST = 90; /* seconds that a run takes to play at the speed that is set first */

class Page {
  constructor(run) {
    Object.assign(this, {run, now: 0, chosen: {viewer: null, cub: null}, isPlaying: false, drawn: ""});
    const of = (id) => document.getElementById(id);
    const named = ["play", "time", "speed", "before", "behind", "cursor", "lane", "tip", "status"];
    named.forEach((id) => { this[id] = of(id); });
    Object.assign(this, {picker: of("chosen"), told: of("now"), picture: of("timeline")});
    this.ring = new Ring(of("ring"), run);
    this.list = new List(run, (time) => this.go(time), (chosen) => this.choose(chosen));
    this.missing = run.missing();
    this.fillControls();
    this.fillLegend();
    this.fitCursor();
    this.listen();
    this.choose(this.chosen);
    this.go(run.atBeat(run.end / 2));
  }

  /* Fills the controls with what the run has. */
  fillControls() {
    const {run} = this, usual = SPEEDS.find((speed) => speed >= 1 && run.end / 1e6 / speed <= LONGEST) || 100;
    this.time.max = run.beats;
    this.speed.append(...SPEEDS.map((speed) => new Option(`\u00d7 ${speed}`, speed, false, speed === usual)));
    const groups = [["Cubs", run.cubs, (cub) => new Option(`cub ${cub}`, `cub ${cub}`)],
      ["Viewers", run.viewers.length, (viewer) => this.viewerOption(run.viewers[viewer])]];
    this.picker.append(new Option("what goes wrong", ""), ...groups.map(([label, length, option]) => {
      const group = document.createElement("optgroup");
      group.label = label;
      group.append(...Array.from({length}, (_, at) => option(at)));
      return group;
    }));
    this.before.disabled = this.behind.disabled = this.missing.length === 0;
  }

  /* The choice of a viewer, with how many of its blocks are missing. */
  viewerOption(viewer) {
    const missing = viewer.blocks.filter((block) => isMissing(block.kind)).length;
    const words = viewer.slot === null ? " (no slot)" : missing ? ` (${missing} missing)` : "";
    return new Option(`viewer ${viewer.number}${words}`, `viewer ${viewer.number}`);
  }

  /* Leaves in the legend what the run has. */
  fillLegend() {
    const {run} = this, kinds = new Set(run.placed.flatMap((viewer) => viewer.blocks.map((block) => block.kind)));
    const has = {viewers: run.placed.length, free: this.ring.showsFree(), whole: kinds.has(WHOLE),
      pieces: kinds.has(PIECES), dead: kinds.has("d"), read: kinds.has("r"), piece: kinds.has("x"),
      deaths: run.deaths.length, faults: run.faults.length};
    document.querySelectorAll("[data-has]").forEach((entry) => { entry.hidden = !has[entry.dataset.has]; });
  }

  /* Listens to all controls. */
  listen() {
    const {ring, picture} = this;
    this.time.addEventListener("input", () => this.go(Number(this.time.value) * this.run.beat));
    this.play.addEventListener("click", () => this.playOrPause());
    this.before.addEventListener("click", () => this.goToMissing(-1));
    this.behind.addEventListener("click", () => this.goToMissing(1));
    this.picker.addEventListener("change", () => this.choose(this.chosenBy(this.picker.value)));
    document.addEventListener("keydown", (event) => this.pressed(event));
    window.addEventListener("resize", () => this.resized());
    ring.canvas.addEventListener("click", (event) => this.clickedRing(event));
    ring.canvas.addEventListener("pointermove", (event) => this.pointed(event));
    ring.canvas.addEventListener("pointerleave", () => { this.tip.hidden = true; });
    picture.addEventListener("pointerdown", (event) => this.clickedTimeline(event));
    picture.addEventListener("pointermove", (event) => event.buttons & 1 && this.go(this.timeAt(event)));
  }

  /* What the choice of these words is. */
  chosenBy(words) {
    const [kind, number] = words.split(" ");
    return {viewer: kind === "viewer" ? Number(number) : null, cub: kind === "cub" ? Number(number) : null};
  }

  /* Chooses a viewer, a cub, or neither. */
  choose(chosen) {
    this.chosen = chosen;
    const kind = ["viewer", "cub"].find((it) => chosen[it] !== null);
    this.picker.value = kind ? `${kind} ${chosen[kind]}` : "";
    this.list.show(chosen, this.now);
    this.markLane();
    this.draw();
  }

  /* Shows the time that is nearest to one within the run. */
  go(time) {
    this.now = Math.max(0, Math.min(this.run.end, time));
    this.draw();
  }

  /* Draws all that depends on the time. */
  draw() {
    const {run, now} = this, {left, right, wide} = run.timeline, shown = run.seconds(run.atBeat(now));
    this.time.value = Math.floor(now / run.beat);
    this.time.setAttribute("aria-valuetext", shown);
    this.told.textContent = shown;
    this.cursor.style.left = `${100 * (left + (right - left) * now / run.end) / wide}%`;
    this.ring.draw(now, this.chosen);
    this.list.follow(now);
    this.status.setAttribute("aria-live", this.isPlaying ? "off" : "polite");
    this.status.textContent = run.told(now);
  }

  /* Has the cursor of the timeline be as high as its rows. */
  fitCursor() {
    const {begin, end} = this.run.timeline, high = this.picture.firstElementChild.viewBox.baseVal.height;
    this.cursor.style.top = `${100 * begin / high}%`;
    this.cursor.style.height = `${100 * (end - begin) / high}%`;
  }

  /* Marks the row of what is chosen in the timeline. */
  markLane() {
    const {wide, bars, top, tall} = this.run.timeline, high = this.picture.firstElementChild.viewBox.baseVal.height;
    const {viewer, cub} = this.chosen, place = cub === null ? bars[viewer] : [top + cub * tall, tall];
    this.lane.hidden = !place;
    if (!place) return;
    this.lane.style.top = `${100 * (place[0] - 1.5) / high}%`;
    this.lane.style.height = `${100 * (place[1] + 3) / high}%`;
    const span = viewer === null ? [0, this.run.end] : this.spanOf(this.run.viewers[viewer]);
    const [begin, end] = span.map((time) => this.placeOf(time));
    this.lane.style.left = `${100 * (begin - 2) / wide}%`;
    this.lane.style.width = `${100 * (end - begin + 4) / wide}%`;
  }

  /* Where a time lies across the timeline. */
  placeOf(time) {
    const {left, right} = this.run.timeline;
    return left + (right - left) * Math.min(1, time / this.run.end);
  }

  /* From when to when a viewer has a bar in the timeline. */
  spanOf(viewer) {
    const {blocks} = viewer, last = blocks.length ? blocks[blocks.length - 1].due + this.run.play : viewer.begin;
    return [this.run.dueOf(viewer.slot, viewer.first), Math.max(last, viewer.open === null ? 0 : viewer.end)];
  }

  /* Where an event lies in the timeline, in its own coordinates. */
  pointOf(event) {
    const box = this.picture.firstElementChild.getBoundingClientRect(), share = this.run.timeline.wide / box.width;
    return [(event.clientX - box.left) * share, (event.clientY - box.top) * share];
  }

  /* The time at which an event lies in the timeline, at the beginning of a beat. */
  timeAt(event) {
    const {left, right} = this.run.timeline;
    return this.run.atBeat(this.run.end * Math.max(0, Math.min(1, (this.pointOf(event)[0] - left) / (right - left))));
  }

  /* The cub whose row, or whose band of bytes, is at a height of the timeline. */
  cubAt(y) {
    const {top, tall, bands} = this.run.timeline, rows = bands ? [[top, tall], bands] : [[top, tall]];
    const found = rows.map(([first, high]) => Math.floor((y - first) / high));
    return found.find((cub) => cub >= 0 && cub < this.run.cubs);
  }

  /* Goes to the time that was clicked in the timeline, and shows the viewer or the cub of the row. */
  clickedTimeline(event) {
    if (event.button !== 0) return;
    const {bars} = this.run.timeline, y = this.pointOf(event)[1], time = this.timeAt(event), cub = this.cubAt(y);
    const far = ({number}) => Math.max(0, bars[number][0] - y, y - bars[number][0] - bars[number][1]);
    const found = this.run.placed.filter((viewer) => bars[viewer.number] && far(viewer) <= 2)
      .filter((viewer) => this.spanOf(viewer)[0] <= time && time < this.spanOf(viewer)[1])
      .sort((one, other) => far(one) - far(other));
    this.go(time);
    if (cub !== undefined) this.choose({viewer: null, cub});
    else if (found.length) this.choose({viewer: found[0].number, cub: null});
  }

  /* Shows what was clicked in the ring. */
  clickedRing(event) {
    const found = this.ring.at(event.offsetX, event.offsetY);
    if (found) this.choose({viewer: null, cub: null, ...found.means});
  }

  /* Says what is under the pointer. */
  pointed(event) {
    const found = this.ring.at(event.offsetX, event.offsetY), {canvas} = this.ring;
    this.tip.hidden = !found;
    canvas.style.cursor = found ? "pointer" : "";
    if (!found) return;
    this.tip.textContent = found.says;
    const room = document.documentElement.clientWidth - this.tip.offsetWidth - 8;
    this.tip.style.left = `${Math.min(room, event.clientX + 14)}px`;
    this.tip.style.top = `${event.clientY + 16}px`;
  }

  /* Goes to the next missing block, or to the one before: of what is chosen, or of all. */
  goToMissing(step) {
    const {viewer, cub} = this.chosen, beat = (part) => this.run.atBeat(part.time + this.run.beat - 1);
    const times = this.missing.filter((part) => (viewer === null || part.viewer.number === viewer)
      && (cub === null || part.cub === cub)).map(beat);
    const found = step > 0 ? times.find((time) => time > this.now) : times.reverse().find((time) => time < this.now);
    if (found !== undefined) this.go(found);
    else this.status.textContent = `There is no missing block ${step > 0 ? "behind" : "before"} this time.`;
  }

  /* Has the time go on, or stop. */
  playOrPause() {
    this.isPlaying = !this.isPlaying;
    this.play.textContent = this.isPlaying ? "Pause" : "Play";
    if (this.isPlaying && this.now >= this.run.end) this.go(0);
    this.last = null;
    if (this.isPlaying) requestAnimationFrame((at) => this.step(at));
    else this.go(this.run.atBeat(this.now));
  }

  /* Goes on by the time since the last picture. */
  step(at) {
    if (!this.isPlaying) return;
    const passed = this.last === null ? 0 : Math.min(250, at - this.last);
    this.last = at;
    this.go(this.now + 1000 * passed * Number(this.speed.value));
    if (this.now >= this.run.end) this.playOrPause();
    else requestAnimationFrame((next) => this.step(next));
  }

  /* Moves the time by the keys. Those by which a page is scrolled do so on the slider alone. */
  pressed(event) {
    const {run} = this, small = event.shiftKey ? run.beat : Math.max(run.beat, run.atBeat(run.play / 10));
    if (event.ctrlKey || event.metaKey || event.altKey || event.defaultPrevented || event.target === this.picker
      || event.target === this.speed) return;
    const onSlider = {PageUp: this.now - run.play, PageDown: this.now + run.play, Home: 0, End: run.end};
    const to = {ArrowLeft: this.now - small, ArrowRight: this.now + small,
      ...(event.target === this.time ? onSlider : {})}[event.key];
    if (event.key === " " && event.target === this.time) this.playOrPause();
    else if (event.key === "Escape") this.choose({viewer: null, cub: null});
    else if (to !== undefined) this.go(run.atBeat(to));
    else return;
    event.preventDefault();
  }

  /* Takes the size that the page has now. */
  resized() {
    this.ring.resize();
    this.draw();
  }
}

window.page = new Page(new Run(JSON.parse(document.getElementById("data").textContent)));
