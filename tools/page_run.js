/* The run that a page shows: what its report tells of each viewer and block, and what is so at a time. Times are in
   microseconds. */

const WORD = /^(?:\+(\d+))?([wpdrx])(-?\d+(?:,-?\d+)*)?(?::(\d+))?(?:\*(\d+))?$/;
const WHOLE = "w", PIECES = "p";

/* What the word of some blocks says, as tools/pages.py writes it. */
function readWord(word, block) {
  const [, gap, kind, late, bytes, count] = WORD.exec(word);
  return {
    gap: Number(gap || 0), kind, late: late ? late.split(",").map(Number) : [],
    bytes: isMissing(kind) ? 0 : Number(bytes || block), count: Number(count || 1),
  };
}

/* Whether a block of this kind did not come. */
function isMissing(kind) {
  return kind !== WHOLE && kind !== PIECES;
}

/* The remainder of a division that is never negative. */
function modulo(number, by) {
  return ((number % by) + by) % by;
}

/* A number with its word. */
function counted(count, word, words) {
  return `${count} ${count === 1 ? word : words || word + "s"}`;
}

/* The index of the first element of which a test holds that holds of all behind it too. */
function firstAt(length, test) {
  let low = 0, high = length;
  while (low < high) {
    const middle = (low + high) >> 1;
    if (test(middle)) high = middle;
    else low = middle + 1;
  }
  return low;
}

class Run {
  constructor(data) {
    Object.assign(this, data);
    this.end = this.beats * this.beat;
    this.allDisks = this.cubs * this.disks;
    this.deathOf = new Map(this.deaths.map(([cub, beat]) => [cub, beat * this.beat]));
    this.cutOf = new Map(this.deaths.filter(([, , after]) => after !== null).map(([cub, , after]) => [cub, after]));
    this.backOf = new Map(this.deaths.filter(([, , , back]) => back !== null)
      .map(([cub, , , back]) => [cub, back * this.beat]));
    this.words = new Map();
    this.viewers = data.viewers.map((row, number) => this.viewerOf(row, number));
    this.placed = this.viewers.filter((viewer) => viewer.slot !== null);
    this.digits = Math.max(1, ...[1, 2, 3, 4, 5, 6].filter((it) => this.beat % 10 ** (7 - it)));
  }

  /* A viewer of the data, with its blocks. */
  viewerOf(row, number) {
    const viewer = Object.fromEntries(this.fields.map((field, at) => [field, row[at]]));
    const [light, strong] = [this.light, this.strong].map((all) => "#" + all.slice(6 * number, 6 * number + 6));
    Object.assign(viewer, {number, light, strong});
    viewer.blocks = this.blocksOf(viewer, viewer.blocks);
    return viewer;
  }

  /* The blocks that some words tell of. */
  blocksOf(viewer, text) {
    const blocks = [];
    for (const word of text ? text.split(" ") : []) {
      if (!this.words.has(word)) this.words.set(word, readWord(word, this.block));
      this.addBlocks(blocks, viewer, this.words.get(word));
    }
    return blocks;
  }

  /* Adds the blocks of one word behind those that are there. */
  addBlocks(blocks, viewer, word) {
    const first = (blocks.length ? blocks[blocks.length - 1].number + 1 : 0) + word.gap, {late} = word;
    for (let at = 0; at < word.count; at += 1) {
      const number = first + at, visit = viewer.first + number, due = this.dueOf(viewer.slot, visit);
      const sent = late.map((it, piece) => Math.ceil(this.leaving(due, piece, late.length) / this.beat) + it);
      blocks.push({number, visit, due, kind: word.kind, bytes: word.bytes, sent});
    }
  }

  /* When a visit of a slot is due. */
  dueOf(slot, visit) {
    return this.zero[slot] + visit * this.play;
  }

  /* When a piece of a block that is due at a time is to leave, of so many pieces. */
  leaving(due, piece, pieces) {
    return due + Math.floor(piece * this.play / pieces);
  }

  /* How many disks a slot has passed over since its first visit was due, with the part of the way to the next. */
  turns(slot, now) {
    return (now - this.zero[slot]) / this.play;
  }

  /* The viewers that surely have a slot at a time. */
  holders(now) {
    return this.placed.filter((viewer) => viewer.begin <= now && now < viewer.end);
  }

  /* Whether a cub is dead at a time. */
  isDead(cub, now) {
    return this.deathOf.has(cub) && this.deathOf.get(cub) <= now && !(this.backOf.get(cub) <= now);
  }

  /* The disks of which every read fails at a time. */
  unreadable(now) {
    const beat = Math.floor(now / this.beat);
    return new Set(this.faults.filter(([, begin, until]) => begin <= beat && beat < until).map(([disk]) => disk));
  }

  /* A viewer's block of this number, if the report tells of it. */
  blockOf(viewer, number) {
    const {blocks} = viewer;
    const at = firstAt(blocks.length, (it) => blocks[it].number >= number);
    return at < blocks.length && blocks[at].number === number ? blocks[at] : null;
  }

  /* What left or should have left within a block play time up to a time: blocks, pieces and missing blocks. */
  recent(now) {
    return this.placed.filter((viewer) => viewer.begin <= now && now < viewer.end + 3 * this.play)
      .flatMap((viewer) => this.recentOf(viewer, now));
  }

  /* The same of one viewer. */
  recentOf(viewer, now) {
    const last = Math.floor(this.turns(viewer.slot, now)) - viewer.first;
    return [last - 1, last, last + 1].map((number) => this.blockOf(viewer, number)).filter(Boolean)
      .flatMap((block) => this.partsOf(viewer, block))
      .filter((part) => part.time <= now && now < part.time + this.play);
  }

  /* The parts in which a block came, or the one that is missing: when, from where, and which piece it is. */
  partsOf(viewer, block) {
    if (isMissing(block.kind)) return [this.part(viewer, block, block.due, 0)];
    return block.sent.map((beat, at) => this.part(viewer, block, beat * this.beat, block.kind === PIECES ? at + 1 : 0));
  }

  /* One such part. Piece k lies on the disk k behind the block's. */
  part(viewer, block, time, piece) {
    return {viewer, block, time, piece, kind: block.kind, cub: (block.visit + piece) % this.cubs,
      disk: (block.visit + piece) % this.allDisks};
  }

  /* All parts in which a cub has a share: what it sent, and what was due from it and did not come whole. */
  partsOfCub(cub) {
    return this.placed.flatMap((viewer) => viewer.blocks.flatMap((block) => this.sharesOf(viewer, block, cub)))
      .sort((one, other) => one.time - other.time || one.viewer.number - other.viewer.number);
  }

  /* The parts of a block in which a cub has a share. */
  sharesOf(viewer, block, cub) {
    const behind = modulo(cub - block.visit, this.cubs);
    if (behind > block.sent.length) return [];
    if (behind === 0 && block.kind === PIECES) return [{...this.part(viewer, block, block.due, 0), isHome: true}];
    return this.partsOf(viewer, block).filter((part) => part.cub === cub);
  }

  /* All blocks that are missing, in the order of their times. */
  missing() {
    return this.placed.flatMap((viewer) => viewer.blocks.filter((block) => isMissing(block.kind))
      .map((block) => this.part(viewer, block, block.due, 0))).sort((one, other) => one.time - other.time);
  }

  /* What the scenario says of why a block is missing, in words. */
  excuse(block) {
    const [cub, disk] = [block.visit % this.cubs, block.visit % this.allDisks];
    if (block.kind === "d") return this.excuseOfCub(cub, block.due + this.end);
    if (block.kind === "r") return this.excuseOfDisk(disk, block.due);
    const pieces = Array.from({length: this.pieces}, (_, at) => at + 1);
    const found = pieces.flatMap((piece) => {
      const time = this.leaving(block.due, piece - 1, this.pieces), of = (disk + piece) % this.allDisks;
      return [this.excuseOfCub((cub + piece) % this.cubs, time), this.excuseOfDisk(of, time)];
    });
    return [...new Set(found.filter(Boolean))].join("; ");
  }

  /* How a cub dies that does so in the middle of a beat; nothing if it dies before the beat. */
  cutWords(cub) {
    return this.cutOf.has(cub) ? ` in the middle of a beat, after ${counted(this.cutOf.get(cub), "message")}` : "";
  }

  /* When a cub that dies is dead, in words. */
  deadWords(cub) {
    const from = `from ${this.seconds(this.deathOf.get(cub))}`;
    return this.backOf.has(cub) ? `${from} to ${this.seconds(this.backOf.get(cub))}` : `${from} on`;
  }

  /* The death of a cub up to a time, in words, whether or not it came back since; nothing if there was none. */
  excuseOfCub(cub, time) {
    const died = this.deathOf.has(cub) && this.deathOf.get(cub) <= time;
    return died ? `cub ${cub} is dead ${this.deadWords(cub)}` : "";
  }

  /* The faults of a disk in the time in which it was to be read for something that leaves at a time, in words. */
  excuseOfDisk(disk, time) {
    return this.faults.filter(([it, begin, until]) => it === disk && begin * this.beat <= time
      && time - 2 * this.readLead - this.beat <= until * this.beat)
      .map(([, begin, until]) => `disk ${disk} cannot be read from ${this.seconds(begin * this.beat)} to `
        + this.seconds(until * this.beat)).join(", ");
  }

  /* A time in seconds, with as many digits as a beat needs. */
  seconds(time) {
    return `${(time / 1e6).toFixed(this.digits)} s`;
  }

  /* The beginning of the beat in which a time is. */
  atBeat(time) {
    return Math.floor(time / this.beat) * this.beat;
  }

  /* What there is at a time, in a sentence. */
  told(now) {
    const holders = this.holders(now).length, dead = [...this.deathOf.keys()].filter((cub) => this.isDead(cub, now));
    const failing = [...this.unreadable(now)];
    const parts = [counted(holders, "viewer has a slot", "viewers have a slot"), dead.length === 0 ? "no cub is dead"
      : dead.length === 1 ? `cub ${dead[0]} is dead` : `${dead.length} cubs are dead`];
    if (failing.length === 1) parts.push(`disk ${failing[0]} cannot be read`);
    if (failing.length > 1) parts.push(`${failing.length} disks cannot be read`);
    return `At ${this.seconds(this.atBeat(now))}, ${parts.slice(0, -1).join(", ")}, and ${parts[parts.length - 1]}.`;
  }
}
