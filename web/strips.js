// The chart of address spaces over the lines: a strip for each process, a row for each page. Free
// stretches are left out, and runs of pages with which nothing happens are folded.
// One entry: makeStripChart(page).
const STRIP_BUDGET = 620; // pixels, of all strips
const MOST_SAMPLES = 12; // pages that a pixel's colour is taken from
const FOLDED = 3; // rows that a folded run takes at most
// how high a row is where there are so many at most
const ROW_HEIGHTS = [
  [24, 15],
  [48, 12],
  [80, 8],
  [140, 4],
];

const PAGE_PAINTS = {
  pages: {
    tints: '--back --reserved --state-5 --untouched --state-2 --state-4'.split(' '),
    words: ['', 'Reserved', 'On disk: hard fault', 'Not touched: demand-zero'].concat([
      'In memory: soft fault',
      'Valid',
    ]),
    of: ({ kind }) => kind,
  },
  protection: {
    tints: '--back --reserved --grey --state-2 --state-4 --yellow --blue --state-6'.split(' '),
    words: ',Reserved,No access,Read,Read/write,Write copy,Execute,Execute and write'.split(','),
    of({ kind, stand: { protection } }) {
      if (kind === IS_RESERVED) return 1;
      const at = [1, 2, 4, 8, 0x10, 0x20, 0x40, 0x80].indexOf(protection & 0xff);
      return [2, 3, 4, 5, 6, 6, 7, 5][at] ?? 0;
    },
  },
};

function makeStripChart({ view, space: { spaces }, sections, pages, shown }) {
  const nameAt = (pid, base, line) => nameOfUse(sections.useOf(pid, base, line));
  let [pen, axis, strips] = [null, null, []];
  let seen = new Set(); // what is drawn: by its place among the words, or by a word of its own

  // ---- the rows of a process: {from, to, top, high, isFirst}, from the top on
  // How a page's row is folded: not, as nothing but reserved, or as never touched.
  function rowsIn(space) {
    const runs = [];
    const isSeen = ({ since, until }) => since <= axis.last && until > axis.first;
    function add(from, to, fold, part) {
      const last = runs.at(-1);
      const isNext = last?.to === from;
      if (fold && isNext && last.fold === fold && last.part === part) last.to = to;
      else runs.push({ from, to, fold, part, isFirst: !isNext });
    }
    for (const { from, to, rects } of space.cut) {
      const seen = rects.filter(isSeen);
      if (!seen.length) continue;
      if (seen.every(({ stand }) => stand.state === RESERVED)) add(from, to, 'reserved', from);
      else {
        for (let page = from; page < to; page++) {
          add(page, page + 1, pages.isTouched(space.pid, page) ? '' : 'untouched', from);
        }
      }
    }
    return runs.flatMap(unfolded);
  }
  // A short run is not folded.
  function unfolded(run) {
    const many = run.to - run.from;
    if (many > FOLDED + 1) return [run];
    return Array.from({ length: many }, (_, at) => {
      const from = run.from + at;
      return { ...run, from, to: from + 1, isFirst: run.isFirst && !at };
    });
  }
  function heightsOf(rows, budget) {
    const units = rows.reduce((sum, { from, to }) => sum + Math.min(FOLDED, to - from), 0);
    const gaps = rows.filter(({ isFirst }) => isFirst).length;
    const roomy = ROW_HEIGHTS.find(([most]) => units <= most)?.[1] ?? 0;
    const unit = roomy * units <= budget ? roomy : 0;
    const gap = unit ? (unit >= 8 ? 6 : 3) : Math.min(3, (0.2 * budget) / gaps);
    return { gap, unit: unit || Math.max(0.02, (budget - gap * gaps) / units) };
  }
  // The strips of the processes that do most, or of the one that was chosen, with their heights.
  function layOut(given) {
    axis = given;
    seen = new Set();
    const pids = shown();
    strips = pids.flatMap((pid) => {
      const space = spaces[pid];
      const rows = rowsIn(space);
      if (!rows.length) return [];
      const { gap, unit } = heightsOf(rows, STRIP_BUDGET / pids.length);
      let high = 0;
      for (const row of rows) {
        high += row.isFirst && high ? gap : 0;
        row.top = high;
        high += row.high = unit * Math.min(FOLDED, row.to - row.from);
      }
      return [{ pid, space, rows, unit, high: Math.max(18, high), top: 0 }];
    });
    return strips;
  }

  function draw(strip, given, top) {
    pen = given;
    strip.top = top;
    if (strip.unit >= 3 && axis.column >= 1) {
      strip.rows.forEach((row, at) => drawRow(strip, row, strip.rows[at - 1]));
    } else drawStrip(strip);
    if (!axis.isNarrow) drawAddresses(strip);
  }
  // The addresses at the left, as many as there is room for; what begins there at the right.
  function drawAddresses({ space, rows, top, unit, high }) {
    let free = -Infinity;
    for (const { from, to, isFirst, top: above, high: tall } of rows) {
      const level = top + Math.max(5, above + Math.min(tall / 2, 7));
      const isFar = level >= free && (isFirst || unit >= 11);
      if (!isFar || level > top + Math.max(high - 2, 6)) continue;
      free = level + 12.5;
      const tint = isFirst ? '--ink' : '--soft';
      pen.text(addressOf(from), axis.left - 8, level, { tint, align: 'right', font: MONO });
      const rect = space.rectsAt(from).findLast(({ since }) => since <= axis.last);
      const name = isFirst && rect ? nameAt(space.pid, rect.stand.base, axis.last) : '';
      const text = name || (to - from > FOLDED ? sizeOf(to - from) : '');
      pen.text(text.slice(0, 12), axis.right + 6, level, { tint: '--soft', font: SMALL });
    }
  }

  // ---- a row each
  // What a row shows, as {kind, isCopied, stand, tint, from, to}; what looks alike is one.
  function stretchesOf(space, page) {
    const { tints, of } = PAGE_PAINTS[view.tint];
    const stretches = [];
    pages.eachStretch(space, page, axis, (code, from, to) => {
      const found = pages.decode(code);
      const tint = tints[of(found)];
      seen.add(of(found));
      const last = stretches.at(-1);
      const isAlike = last?.to === from && last.tint === tint && last.stand === found.stand;
      if (isAlike && last.isCopied === found.isCopied) last.to = to;
      else stretches.push({ ...found, tint, from, to });
    });
    return stretches;
  }
  function drawRow({ space, top: start, unit }, row, above) {
    const [top, high] = [start + row.top, unit > 6 ? row.high - 1 : row.high];
    for (const stretch of stretchesOf(space, row.from)) {
      const { kind, isCopied, stand, tint, from, to } = stretch;
      const left = axis.x(from);
      const box = { left, top, wide: axis.x(to) - left - (axis.column > 6 ? 1 : 0), high };
      pen.box(tint, left, top, box.wide, high);
      if (kind === IS_RESERVED && high > 4) dotted(box, 1 / 2, '--soft', [1, 4]);
      if (stand.protection & GUARD) pen.hatch(left, top, box.wide, high, true, '--guard');
      if (stand.protection & GUARD) seen.add('guard');
      if (isCopied) pen.box(inkOn(tint), left, top + high - 2, box.wide, 2, 0.75);
      if (isCopied) seen.add('copied');
      if (row.to - row.from > 1 && kind !== IS_RESERVED) {
        for (const part of [1 / 3, 2 / 3]) dotted(box, part, '--back', DOTTED);
      }
      if (high >= 10 && isNewsIn(space, row, stretch, above)) {
        drawWords(wordsOf(space, row, stretch, above), tint, box);
      }
    }
  }
  function dotted({ left, top, wide, high }, part, tint, dash) {
    const level = top + high * part;
    pen.path(tint, [left, level, left + wide, level], 1, dash);
  }
  // Whether a row stands otherwise than the page above, or than in the lines before.
  function isNewsIn({ pid }, { from: page }, { stand, isCopied, from }, above) {
    const isSame = (other) => other?.stand === stand && other.isCopied === isCopied;
    if (from > axis.first && isSame(pages.after(pid, page, from - 1))) return false;
    return isCopied || above?.to !== page || !isSame(pages.after(pid, page - 1, from));
  }
  // The words of a stretch, those first that are left out last; the name is left out first.
  function wordsOf({ pid }, row, { stand, isCopied, kind, from }, above) {
    const address = axis.isNarrow && above?.to !== row.from ? addressOf(row.from) : '';
    const name = row.from === stand.base ? nameAt(pid, stand.base, from) : '';
    const size = row.to - row.from > 1 ? sizeOf(row.to - row.from) : '';
    const word = kind === IS_RESERVED ? 'reserved' : protectionIn(stand.protection, true);
    return [isCopied ? '\u25c6' : '', address, name, word, size];
  }
  function drawWords(all, tint, { left, top, wide, high }) {
    const textOf = (words) => words.filter(Boolean).join(' ');
    const [sign, address, name, word] = all;
    const choices = [all, all.slice(0, 4), [sign, name, word], [sign, word], [word], [sign]];
    const text = choices.map(textOf).find((one) => one.length * LETTER + 6 <= wide);
    if (!text) return;
    pen.box(tint, left + 2, top + 1, text.length * LETTER + 3, high - (sign ? 4 : 2), 0.85);
    pen.text(text, left + 4, top + high / 2, { tint: inkOn(tint), font: MONO });
  }

  // ---- pooled
  function drawStrip({ space, rows, top, high }) {
    const { tints, of } = PAGE_PAINTS[view.tint];
    const tall = Math.max(1, Math.round(high * devicePixelRatio));
    // at most so many pages of those in a row of pixels
    function rowsAt(y) {
      const [above, below] = [(y * high) / tall, ((y + 1) * high) / tall];
      const first = firstAt(rows, (row) => row.top + row.high > above);
      const here = rows.slice(first, firstAt(rows, (row) => row.top >= below));
      const step = Math.ceil(here.length / MOST_SAMPLES);
      return here.filter((_, at) => at % step === 0);
    }
    const drawn = drawPooled(pen, axis, {
      ...{ name: `${space.pid} ${view.tint}`, tints, top, high, tall, rowsAt },
      eachStretch: ({ from: page }, weigh) =>
        pages.eachStretch(space, page, axis, (code, from, to) =>
          weigh(of(pages.decode(code)), from, to),
        ),
    });
    drawn.forEach((at) => seen.add(at));
  }

  // The process and page whose row is at a height of all charts, if one is.
  function pageAt(y) {
    const strip = strips.find(({ top, high }) => y >= top && y < top + high);
    const from = y - strip?.top;
    const row = strip?.rows.find(({ top, high }) => from >= top && from < top + high);
    return row ? { pid: strip.pid, page: row.from, to: row.to } : null;
  }
  // The rows of the page whose history is shown.
  function mark(above) {
    if (view.followed?.kind !== 'page') return;
    const isKey = (pid, page) => pages.after(pid, page, view.line)?.key === view.followed.thing;
    for (const { pid, rows, top, unit } of strips) {
      for (const row of unit >= 3 ? rows.filter(({ from }) => isKey(pid, from)) : []) {
        const wide = axis.right - axis.left;
        above.frame('--ink', axis.left, top + row.top, wide, unit > 6 ? row.high - 1 : row.high, 2);
      }
    }
  }
  function legend() {
    if (!strips.length) return '';
    const { tints, words } = PAGE_PAINTS[view.tint];
    const item = (text, at) =>
      text && seen.has(at) ? `<li><i style="background: var(${tints[at]})"></i>${text}` : '';
    const guard = seen.has('guard') ? '<li><i class="guard"></i>Guard page' : '';
    const copied = seen.has('copied') ? '<li><i class="underline"></i>\u25c6 Copied page' : '';
    return words.map(item).join('') + guard + copied;
  }
  return { layOut, draw, pageAt, mark, legend, titleOf: ({ pid }) => `Process ${pid}` };
}
