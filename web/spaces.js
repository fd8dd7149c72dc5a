// Address spaces: what observations tell of regions and of the charge. A region is a rectangle: its
// pages by the lines for which it stands so.
// One entry: readSpaces(data). Without observations the pages that have keys or places stand for
// the regions, and nothing is known of their protection.
const [COMMITTED, RESERVED] = [0x1000, 0x2000]; // states, by Windows' numbers
const [PRIVATE, MAPPED] = [0x20000, 0x40000]; // types
const [GUARD, COPY] = [0x100, 0x88]; // bits of protections: what is copied on write

class Space {
  constructor(pid) {
    // each as {from, to, since, until, stand}; the open ones stand still, in order of addresses
    Object.assign(this, { pid, rects: [], open: [], cut: null, lives: new Map() });
  }
  // Lays a stand over what is there; a free stretch is none.
  lay(line, from, to, stand) {
    const first = firstAt(this.open, (rect) => rect.to > from);
    const last = firstAt(this.open, (rect) => rect.from >= to);
    const kept = stand ? [{ from, to, since: line, until: Infinity, stand }] : [];
    for (const old of this.open.slice(first, last)) {
      const { from: low, to: high } = old;
      if (low < from) kept.unshift({ ...old, to: from });
      if (high > to) kept.push({ ...old, from: to });
      Object.assign(old, { from: Math.max(low, from), to: Math.min(high, to), until: line });
      if (old.since < line) this.rects.push(old);
    }
    this.open.splice(first, last - first, ...kept);
  }
  // The addresses cut where a rectangle begins or ends: {from, to, rects}, in order.
  end() {
    const rects = this.rects.concat(this.open).sort((a, b) => a.since - b.since);
    const edges = [...new Set(rects.flatMap(({ from, to }) => [from, to]))].sort((a, b) => a - b);
    this.cut = edges.map((from, at) => ({ from, to: edges[at + 1] ?? from, rects: [] }));
    for (const rect of rects) {
      let at = firstAt(this.cut, ({ from }) => from >= rect.from);
      for (; this.cut[at].from < rect.to; at++) this.cut[at].rects.push(rect);
    }
    this.cut = this.cut.filter((part) => part.rects.length);
  }
  rectsAt(page) {
    const part = this.cut[firstAt(this.cut, ({ to }) => to > page)];
    return part && part.from <= page ? part.rects : [];
  }
  standAt(page, line) {
    return standIn(this.rectsAt(page), line);
  }
  // The regions after a line; neighbours that stand alike are one.
  after(line) {
    const regions = [];
    for (const { from, to, rects } of this.cut) {
      const stand = standIn(rects, line);
      const last = regions.at(-1);
      if (stand && last?.stand === stand && last.to === from) last.to = to;
      else if (stand) regions.push({ from, to, stand });
    }
    return regions;
  }
}
const standIn = (rects, line) =>
  rects.find(({ since, until }) => since <= line && line < until)?.stand;

// Reads the packed observations, as README.md has them: calls charge(line, charged, limit), and
// region(line, pid, from, to, numbers), whose numbers are none where it is free.
function readObservations(reader, charge, region) {
  const KINDS_OF_REGIONS = {
    f: [],
    r: [RESERVED, PRIVATE],
    R: [RESERVED, MAPPED],
    c: [COMMITTED, PRIVATE],
    C: [COMMITTED, MAPPED],
  };
  let [line, end] = [0, 0];
  function readRegion(kind) {
    const [pid, step, pages] = reader.numbers(3);
    const from = end + (step % 2 ? -(step + 1) / 2 : step / 2);
    end = from + pages;
    const [state, type] = kind;
    if (!state) return region(line, pid, from, end, null);
    const [below, first] = reader.numbers(2);
    const protection = state === COMMITTED ? reader.number() : 0;
    return region(line, pid, from, end, { state, type, protection, base: from - below, first });
  }
  while (reader.hasMore) {
    const letter = reader.letter();
    if (letter === 'q') charge(line, ...reader.numbers(2));
    else if (letter !== '\n') readRegion(KINDS_OF_REGIONS[letter]);
    else if (reader.hasMore) line += reader.number();
  }
}

function readSpaces(data) {
  const { processes, count, moves } = data;
  const spaces = processes.map(({ pid }) => new Space(pid));
  const stands = new Map(); // each kind of region once
  const charges = []; // {line, charged, limit}
  let isObserved = false;
  let isStrange = false; // a row of a process or a line that the log does not have

  function standOf(numbers) {
    const name = Object.values(numbers).join();
    if (!stands.has(name)) stands.set(name, { id: stands.size, ...numbers });
    return stands.get(name);
  }
  function region(line, pid, from, to, numbers) {
    if (!(processes[pid]?.line <= line && line <= count)) {
      isStrange = true;
      return;
    }
    spaces[pid].lay(line, from, to, numbers && standOf(numbers));
    isObserved = true;
  }
  readObservations(
    new Reader(textOf('observations')),
    (line, charged, limit) => charges.push({ line, charged, limit }),
    region,
  );
  // Without observations: a page from its `add` or first `map` on to its `drop`.
  function layByMoves() {
    const stand = standOf({ state: COMMITTED, type: PRIVATE, protection: 0, base: 0, first: 0 });
    const used = new Set();
    for (const { class: { word }, line, page, place } of moves) {
      const thing = word === 'map' ? place : /^(add|drop)$/.test(word) && page.pid ? page : null;
      if (!thing) continue;
      const id = idOf(thing.pid, thing.page);
      if (word === 'drop') spaces[thing.pid].lay(line, thing.page, thing.page + 1, null);
      else if (!used.has(id)) spaces[thing.pid].lay(line, thing.page, thing.page + 1, stand);
      if (word === 'drop') used.delete(id);
      else used.add(id);
    }
  }
  if (!isObserved) layByMoves();
  for (const space of spaces) space?.end();

  // the charge and the limit after each line, or none
  function column(name) {
    const values = new Int32Array(count + 1);
    charges.forEach((one, at) => values.fill(one[name], one.line, charges[at + 1]?.line));
    return charges.length ? values : null;
  }
  const [charge, limit] = [column('charged'), column('limit')];
  return { spaces, isObserved, isStrange, charge, limit, stands };
}

// The numbers of the processes that are shown: the one that was chosen, or those that do most.
const MOST_STRIPS = 6;
function chooseProcesses({ data: { processes }, view, space: { spaces } }) {
  const activity = ({ pid, cut }) => cut.length + processes[pid].sizes.at(-1);
  const busiest = spaces
    .map((one) => ({ pid: one.pid, activity: activity(one) }))
    .sort((a, b) => b.activity - a.activity || a.pid - b.pid)
    .slice(0, MOST_STRIPS)
    .map(({ pid }) => pid)
    .sort((a, b) => a - b);
  const all = processes.length > MOST_STRIPS + 3 ? busiest : Object.keys(processes).map(Number);
  return () => (view.space ? [view.space] : all);
}
