// Tracks: how each chart over the lines is drawn, one function a kind.
// One entry: makeTracks(page, sheet), where the sheet has the pen and the axis, writes labels, and
// keeps for later what hangs on the chosen line.
const STACKED = [ACTIVE, MODIFIED, STANDBY, READING, FREE, ZEROED];
const CHARGED = [
  ['--blue', 'private'],
  ['--state-2', 'sections'],
  ['--yellow', 'copies'],
];
const RATE_UNITS = [1, 10, 100, 1000, 10000];
const AGE_ALPHAS = [0.8, 0.5, 0.3, 0.14]; // the youngest first
const LEAST_WINDOW = 7; // pixels of a window of lines

function makeTracks(page, sheet) {
  const { data, survey, view, space, charge, shown } = page;
  const { count, frames, processes, machine } = data;
  const { numbers, charges } = survey;

  // ---- the lines of the script where there is room, else their numbers
  function texts(top, high) {
    const { axis, pen } = sheet;
    const [turn, size, shift] = axis.column < 20 ? [1.2, 10.5, 3] : [0.72, 12, 6];
    // as much as there is room for, up to the left and the top
    function shortOf({ number, text, answer, isOk }) {
      const all = isOk ? text : `${text} \u2192 ${answer}`;
      const room = Math.min(axis.middle(number) / Math.cos(turn), (high - 12) / Math.sin(turn));
      const most = Math.floor(room / (size * 0.6)) - 5;
      return `${all.length > most ? all.slice(0, most - 1) + '\u2026' : all}   ${number}`;
    }
    function write(line, on, isChosen) {
      const text = shortOf(line);
      const tint = isChosen ? '--accent' : line.isOk ? '--ink' : '--alarm';
      const font = `${isChosen ? 'bold ' : ''}${size}px ${FONT}`;
      const place = [axis.middle(line.number) + shift, top + high - 5];
      on.text(text, ...place, { tint, align: 'right', font, turn, isAlone: isChosen });
    }
    for (const line of data.lines.slice(axis.first, axis.last + 1)) write(line, pen, false);
    sheet.later((above) => axis.has(view.line) && write(data.lines[view.line], above, true));
  }
  function lineNumbers(top, high) {
    const { axis, pen } = sheet;
    const level = top + high - 9;
    const number = (line, tint, on) =>
      on.text(spelled(line), axis.middle(line), level, { tint, align: 'center' });
    const least = 56 / axis.column;
    const unit = 10 ** Math.floor(Math.log10(least));
    const step = [1, 2, 5, 10].map((some) => some * unit).find((some) => some >= least);
    sheet.label(level, 'Line, of ' + spelled(count));
    for (let line = Math.ceil(axis.first / step) * step; line <= axis.last; line += step) {
      if (axis.middle(line) > axis.left + 26) number(line, '--soft', pen);
    }
    sheet.later((above) => {
      if (!axis.has(view.line)) return;
      const wide = 10 + 7.7 * spelled(view.line).length;
      above.box('--accent', axis.middle(view.line) - wide / 2, top + 3, wide, high - 5);
      number(view.line, '--back', above);
    });
  }

  // ---- events: a sign in a line's column, or bars whose height is the number
  function events({ group, title, sign, tint }, top, high) {
    const { axis, pen } = sheet;
    const sum = numbers[group];
    const columns = axis.columns();
    const counts = columns.map(({ first, last }) => sum[last] - sum[first - 1]);
    const unit = (high - 3) / mostOf(counts);
    sheet.label(top + high / 2, title, spelled(sum[count]));
    sheet.rule(top + high - 1);
    columns.forEach(({ from, to }, at) => {
      const times = counts[at];
      if (times && axis.column >= 9) {
        const text = sign + (times > 1 && axis.column >= 24 ? ' ' + times : '');
        pen.text(text, (from + to) / 2, top + high / 2, { tint, align: 'center', font: BOLD });
      } else if (times) {
        const tall = Math.max(2, unit * times);
        const gap = to - from > 4 ? 1 : 0;
        pen.box(tint, from, top + high - 1 - tall, Math.max(1, to - from - gap), tall);
      }
    });
  }

  // ---- faults in windows of lines, by process, one above the other; hard faults as a line
  function windows(axis) {
    const least = (LEAST_WINDOW * axis.count) / (axis.right - axis.left);
    const unit = 10 ** Math.ceil(Math.log10(Math.max(1, least)) - 1e-9);
    const size = [unit / 5, unit / 2, unit].find((some) => some >= Math.max(1, least));
    const first = axis.first - ((axis.first - 1) % size);
    const many = Math.ceil((axis.last + 1 - first) / size);
    return { size, starts: Array.from({ length: many }, (_, at) => first + at * size) };
  }
  const countIn = (lines, from, to) =>
    firstAt(lines, (line) => line >= to) - firstAt(lines, (line) => line >= from);
  // What is stacked: the processes that are shown and the others together, as {word, tint, all}.
  function faultLayers() {
    const some = processes.filter(({ faults }) => faults.length);
    const isShown = ({ pid }) => shown().includes(pid);
    const rest = some.filter((one) => !isShown(one)).flatMap(({ faults }) => faults);
    const layers = some.filter(isShown).map(({ pid, faults }) => {
      return { word: 'process ' + pid, tint: tintOfProcess(pid), all: faults };
    });
    rest.sort((a, b) => a - b);
    return rest.length ? [...layers, { word: 'others', tint: '--grey', all: rest }] : layers;
  }
  function ratesNow() {
    const layers = faultLayers();
    const height = Math.max(76, 50 + 14 * layers.length);
    return layers.length ? [[height, (...place) => rates(layers, ...place)]] : [];
  }
  function rates(layers, top, high) {
    const { axis, pen } = sheet;
    const { size, starts } = windows(axis);
    const countsIn = (lines) => starts.map((from) => countIn(lines, from, from + size));
    const hard = countsIn(processes.flatMap((one) => one.hard).sort((a, b) => a - b));
    const counts = layers.map(({ all }) => countsIn(all));
    const most = mostOf(starts.map((_, at) => counts.reduce((sum, some) => sum + some[at], 0)));
    const [bottom, unit] = [top + high - 2, (high - 12) / Math.max(1, most)];
    const edge = [];
    starts.forEach((from, at) => {
      const [left, right] = [axis.x(from), axis.x(from + size)].map(axis.inside);
      let level = bottom;
      layers.forEach(({ tint }, which) => {
        const tall = counts[which][at] * unit;
        level -= tall;
        pen.box(tint, left, level, Math.max(1, right - left - 1), tall, 0.75);
      });
      edge.push(left, bottom - hard[at] * unit, right, bottom - hard[at] * unit);
    });
    sheet.rule(bottom);
    sheet.rule(bottom - most * unit, '--rule', DOTTED);
    pen.path('--state-5', edge, 2);
    rateLabels(layers, most, size, top, bottom);
  }
  function rateLabels(layers, most, size, top, bottom) {
    const per = RATE_UNITS.findLast((one) => one <= size);
    const rate = spelled(Math.round((10 * most * per) / size) / 10);
    sheet.label(top + 13, `Faults ${per === 1 ? 'a line' : `in ${spelled(per)} lines`}`, rate);
    if (sheet.axis.isNarrow) return;
    sheet.label(bottom - 5, '', 0);
    const keys = [{ word: 'of them hard', tint: '--state-5' }, ...layers];
    keys.forEach(({ word, tint }, at) => sheet.key(top + 29 + 14 * at, word, tint));
  }

  // ---- the lengths of the lists, one above the other
  function stack(axis, pen, top, high) {
    for (const { from, to, last } of axis.columns()) {
      const [left, right] = [Math.round(from), Math.round(to)];
      let bottom = top + high;
      for (const state of STACKED) {
        const tall = (high * numbers[COUNTS[state]][last]) / frames.length;
        bottom -= tall;
        pen.box('--state-' + state, left, bottom, right - left, tall + 0.3);
      }
    }
  }
  function lists(top, high) {
    stack(sheet.axis, sheet.pen, top, high);
    sheet.label(top + 9, 'Page frames by list', spelled(frames.length));
    if (!sheet.axis.isNarrow) sheet.label(top + high - 8, '', 0);
  }

  // ---- the commit charge: what it is made of, one above the other, and the calls it refused
  function chargeTrack(top, high) {
    const { axis, pen } = sheet;
    const bottom = top + high - 2;
    const used = mostOf(space.charge.subarray(axis.first, axis.last + 1));
    const most = mostOf(space.limit.subarray(axis.first, axis.last + 1));
    // a limit far above is not drawn
    const isLimited = most <= 4 * used;
    const scale = Math.max(1, isLimited ? most : 1.25 * used);
    const level = (number) => bottom - ((high - 16) * number) / scale;
    const [edge, limits] = [[], []];
    for (const { from, to, first, last } of axis.columns()) {
      const sum = chargeColumn(peakOf(first, last), Math.round(from), Math.round(to), level);
      edge.push(from, level(sum), to, level(sum));
      limits.push(from, level(space.limit[last]), to, level(space.limit[last]));
    }
    sheet.rule(bottom);
    pen.path('--ink', edge, 1.2);
    if (isLimited) pen.path('--alarm', limits, 1.5, DASHED);
    refusals(level, top);
    sheet.label(top + 13, 'Commit charge', () => ofMost(space.charge, (line) => space.limit[line]));
    if (axis.isNarrow) return;
    CHARGED.forEach(([tint, word], at) => {
      const value = () => spelled(charge.partsAfter(view.line)[at]);
      sheet.key(top + 32 + 16 * at, word, tint, value);
    });
  }
  const ofMost = (values, most) => `${spelled(values[view.line])} of ${spelled(most(view.line))}`;
  function peakOf(first, last) {
    let peak = last;
    for (let line = first; line < last; line++) {
      if (space.charge[line] > space.charge[peak]) peak = line;
    }
    return peak;
  }
  function chargeColumn(line, left, right, level) {
    let sum = 0;
    charge.partsAfter(line).forEach((part, at) => {
      const tall = level(sum) - level(sum + part);
      sheet.pen.box(CHARGED[at][0], left, level(sum + part), right - left, tall + 0.2);
      sum += part;
    });
    return sum;
  }
  function refusals(level, top) {
    const { axis, pen } = sheet;
    const seen = charge.refusals.filter(({ line }) => axis.has(line));
    seen.forEach(({ line, charged, asked, most }, at) => {
      const left = axis.middle(line);
      const [before, next] = [at - 1, at + 1].map((one) => axis.middle(seen[one]?.line ?? NaN));
      // where they are dense a tick each, with no sum
      if (left - before < 9 || next - left < 9) pen.box('--alarm', left - 0.5, top + 1, 1.5, 10);
      else pen.text('\u2717', left, top + 6, { tint: '--alarm', align: 'center', font: BOLD });
      const text = `${spelled(charged)} + ${asked} > ${spelled(most)}`;
      const need = text.length * 6.6 + 10;
      if (left + need <= Math.min(axis.right, next || Infinity)) {
        pen.text(text, left + 8, top + 6, { tint: '--alarm' });
      } else if (at === 0 && left - need > axis.left) {
        pen.text(text, left - 8, top + 6, { tint: '--alarm', align: 'right' });
      }
    });
  }

  // ---- numbers over the lines, each against its limits
  // What is charted: the title, the colour, the values, the value at the top, the most after a
  // line; of some the least, dots, and ages.
  function setNumber({ pid, min, max, sizes }, largest) {
    const limits = { top: clamp(max, largest, 2 * largest), most: () => max, least: min };
    return { title: 'Working set ' + pid, tint: '--state-4', values: sizes, ...limits };
  }
  function otherNumbers() {
    const { allSlots, slots, requests, committed } = numbers;
    const inUse = allSlots.map((all, line) => all - slots[line]);
    // twice the depth and two page frames are never committed
    const limit = (line) => machine.frames + allSlots[line] - 2 * machine.depth - 2;
    const { depth } = machine;
    const top = Math.max(1, limit(count));
    const keys = ['Keys, not the charge', '--accent', committed, top, limit, charges];
    return [
      ['Paging-file slots', '--state-2', inUse, allSlots[count], (line) => allSlots[line]],
      ['Requests in flight', '--state-5', requests, depth, () => depth],
      ...(space.charge ? [] : [keys]),
    ]
      .map(([title, tint, values, top, most, dots]) => ({ title, tint, values, top, most, dots }))
      .filter(({ top }) => top);
  }
  function numberTrack({ title, tint, values, top: scale, most, least, dots, ages }, top, high) {
    const { axis, pen } = sheet;
    const bottom = top + high - 2;
    const level = (number) => bottom - 1 - ((high - 8) * Math.min(scale, number)) / scale;
    const edge = axis.columns().flatMap(({ from, to, first, last }) => {
      const at = level(mostOf(values.subarray(first, last + 1)));
      if (ages) ageColumn(ages, last, Math.round(from), Math.round(to), level);
      else pen.box(tint, from, at, to - from + 0.4, bottom - at, 0.3);
      return [from, at, to, at];
    });
    sheet.rule(bottom);
    if (least !== undefined) sheet.rule(level(least), '--soft', DOTTED);
    if (most(count) <= scale) sheet.rule(level(most(count)), '--soft', DASHED);
    pen.path(tint, edge, 2);
    for (const [line, pages] of dots ?? []) {
      if (axis.has(line)) pen.text('\u25cf', axis.middle(line), level(pages), { align: 'center' });
    }
    sheet.label(top + high / 2, title, () => ofMost(values, most));
  }
  // The pages of a working set by age, the youngest at the bottom.
  function ageColumn(ages, line, from, to, level) {
    let sum = 0;
    ages.forEach((pages, at) => {
      const tall = level(sum) - level(sum + pages[line]);
      sum += pages[line];
      sheet.pen.box('--state-4', from, level(sum), to - from, tall, AGE_ALPHAS[at]);
    });
  }

  // ---- the numbers that are charted now
  const largest = mostOf([1, ...processes.map(({ sizes }) => mostOf(sizes)).filter(Boolean)]);
  const others = otherNumbers();
  const ages = new Map();
  function numbersNow() {
    const sets = shown().map((pid) => {
      const process = processes[pid];
      if (data.hasAges && !ages.has(pid)) ages.set(pid, agesOf(data, process));
      return { ...setNumber(process, largest), ages: ages.get(pid) };
    });
    return [...sets, ...others];
  }
  const kinds = { texts, lineNumbers, events, lists, stack, chargeTrack, numberTrack };
  return { ...kinds, ratesNow, numbersNow };
}
