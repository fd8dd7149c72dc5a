// A second machine beside the first: the same script with other numbers of page frames and slots,
// and other bounds of working sets; where the two part; faults gained and lost; a sweep over page
// frames.
const KINDS = { hard: 'Hard faults', soft: 'Soft faults', zero: 'Demand-zero faults' };
const SWEEP_POINTS = 40;
const SWEEP_AT_ONCE = 3000; // lines; a longer script is swept on request
const MOST_FRAMES = 262144;
const MOST_SET = 65536;
const SHOWN_LINES = 200;

function makeSecond({ runs, section, current, choose, parted }) {
  let first = null; // the machine that the script describes, and the largest working set
  let second = {};
  let sweep = [];
  let sweeping = 0;
  let said = null;
  let isAsked = false;
  let isWanted = false;

  element('kind').append(...Object.entries(KINDS).map(([kind, words]) => new Option(words, kind)));
  const isKept = () => element('kept').checked;
  element('kept').onchange = () => (showSlots(), ask(), sweepAgain());
  element('kind').onchange = () => (drawLines(), drawSweep());
  element('sweep').onclick = () => (sweeping ? stopSweep() : startSweep());

  // ---- the sliders
  function describe(plain) {
    const [, frames, slots, depth] = /^machine (\d+) (\d+) (\d+)/.exec(plain).map(Number);
    const lines = [...plain.matchAll(/^process (\d+) (\d+)$/gm)];
    const sets = lines.map(([, min, max]) => [Number(min), Number(max)]);
    const least = Math.max(0, ...sets.map(([min]) => min));
    const most = Math.max(1, ...sets.map(([, max]) => max));
    const fewest = 2 * depth + 4;
    return { frames, slots, least, most, fewest };
  }
  const SLIDERS = {
    frames: ['Page frames', () => first.fewest, () => rangeOfSweep()[1], MOST_FRAMES],
    slots: ['Paging-file slots', () => 0, () => Math.max(2 * first.slots, 16), MOST_FRAMES],
    least: ['Minimum of working sets', () => 0, () => Math.max(2 * first.most, 16), MOST_SET],
    most: ['Maximum of working sets', () => 1, () => Math.max(2 * first.most, 16), MOST_SET],
  };
  // What is kept is the commit limit: a page frame less is a slot more, until slots are moved.
  function slotsFor(frames) {
    if (second.slots !== undefined) return second.slots;
    return isKept() ? clamp(first.slots + first.frames - frames, 0, MOST_FRAMES) : first.slots;
  }
  function valueOf(name) {
    return name === 'slots' ? slotsFor(valueOf('frames')) : second[name] ?? first[name];
  }
  function putSliders() {
    const rows = Object.entries(SLIDERS).map(([name, [words, from, to, top]]) => {
      const [min, max] = [from(), Math.min(to(), top)];
      const value = clamp(valueOf(name), min, top);
      const common = { min, value, 'data-name': name, 'aria-label': words };
      const range = make('input', { type: 'range', max: Math.max(max, value), ...common });
      const number = make('input', { type: 'number', max: top, ...common });
      const varies = name === 'least' || name === 'most' ? ' (as each process says)' : '';
      const told = `first: ${spelled(first[name])}${second[name] === undefined ? varies : ''}`;
      const was = make('span', { class: 'quiet' }, told);
      return make('div', { class: 'slider' }, make('label', {}, words), range, number, was);
    });
    const again = make('button', { onclick: () => (reset(), update()) }, 'As the first');
    element('sliders').replaceChildren(...rows, again);
    element('kept').disabled = second.slots !== undefined;
  }
  function showSlots() {
    const value = slotsFor(valueOf('frames'));
    for (const input of element('sliders').querySelectorAll('[data-name=slots]')) put(input, value);
    element('kept').disabled = second.slots !== undefined;
  }
  function put(input, value) {
    if (input.type === 'range') input.max = Math.max(Number(input.max), value);
    if (Number(input.value) !== value) input.value = value;
  }
  element('sliders').addEventListener('input', ({ target }) => {
    const { name } = target.dataset;
    const value = Number(target.value);
    if (!name || !(value >= Number(target.min))) return;
    setTo(name, Math.min(value, SLIDERS[name][3]));
  });
  function setTo(name, value) {
    second[name] = value;
    const inputs = element('sliders').querySelectorAll(`[data-name=${name}]`);
    inputs.forEach((input) => put(input, value));
    showSlots();
    ask();
    if (name === 'frames') drawSweep();
    else sweepAgain();
  }
  function reset() {
    second = {};
    putSliders();
  }
  function machine(frames = valueOf('frames')) {
    return { frames, slots: slotsFor(frames), least: second.least, most: second.most };
  }

  // ---- the comparison
  async function ask() {
    isWanted = true;
    if (isAsked || section.hidden || !first) return;
    isAsked = true;
    while (isWanted) {
      isWanted = false;
      try {
        said = await runs.ask('compare', { machine: machine() });
        said.answers = linesOf(said.answers);
        if (section.hidden) break;
        showParting();
        drawLines();
        showGained();
      } catch {
        said = null;
      }
    }
    isAsked = false;
  }
  function differing() {
    const { answers } = current();
    const count = Math.max(answers.length, said.answers.length);
    const lines = [...Array(count).keys()].filter((i) => i && answers[i] !== said.answers[i]);
    return lines.map((i) => i + 1);
  }
  function lineButton(line, before = 'line ') {
    const written = current().written[line];
    return make('button', { class: 'link', onclick: () => choose(written) }, before + written);
  }
  function showParting() {
    const lines = differing();
    parted(lines.map((line) => current().written[line]));
    const answers = said.answers;
    const parts = [];
    const isSame = Object.keys(SLIDERS).every((name) => valueOf(name) === first[name]);
    const ended = `The second run ended with status ${said.status}.`;
    if (said.status) parts.push(make('p', { class: 'bad' }, ended));
    if (isSame) parts.push(make('p', {}, 'Both are the same machine: move a slider.'));
    else if (!lines.length) parts.push(make('p', {}, 'All answers are the same. '));
    else {
      const [at] = lines;
      const [mine, other] = [current().answers, answers].map((list) => list[at - 1] ?? 'no answer');
      const told = `: ${mine} on the first, ${other} on the second.`;
      const more = ` ${plural(lines.length, 'answer differs', 'answers differ')} in all.`;
      parts.push(make('p', {}, 'The answers part at ', lineButton(at), told + more));
    }
    if (!isSame) parts.push(make('p', {}, ...movesPart()));
    element('parting').replaceChildren(...parts);
  }
  function movesPart() {
    if (said.moved <= 0) return ['Each page frame moves as on the first machine.'];
    return ['The page frames move otherwise from ', lineButton(said.moved), ' on.'];
  }
  const sumOf = (list) => list.reduce((all, count) => all + count, 0);
  function showGained() {
    const rows = Object.entries(KINDS).map(([kind, words]) => {
      const [mine, other] = [sumOf(said.mine[kind]), sumOf(said.other[kind])];
      const more = other - mine;
      const sign = more > 0 ? '+' : '';
      const style = more > 0 ? 'gained' : more < 0 ? 'lost' : 'quiet';
      const head = make('th', { scope: 'row' }, words);
      const cells = [mine, other].map((sum) => make('td', {}, spelled(sum)));
      return make('tr', {}, head, cells, make('td', { class: style }, sign + spelled(more)));
    });
    const names = ['', 'First', 'Second', 'Gained or lost'];
    const heads = names.map((name) => make('th', { scope: 'col' }, name));
    const head = make('thead', {}, make('tr', {}, heads));
    const whole = make('table', { class: 'sums' }, head, make('tbody', {}, rows));
    element('gained').replaceChildren(whole, ...changedLines());
  }
  function changedLines() {
    const { hard: mine } = said.mine;
    const { hard: other } = said.other;
    const count = Math.max(mine.length, other.length);
    const lines = [...Array(count).keys()].filter((i) => (mine[i] ?? 0) !== (other[i] ?? 0));
    if (!lines.length) return [];
    const items = lines.slice(0, SHOWN_LINES).map((line) => {
      const more = (other[line] ?? 0) - (mine[line] ?? 0);
      const sign = more > 0 ? ' +' : ' ';
      return make('li', { class: more > 0 ? 'gained' : 'lost' }, lineButton(line, ''), sign + more);
    });
    const left = lines.length - SHOWN_LINES;
    if (left > 0) items.push(make('li', { class: 'quiet' }, `and ${spelled(left)} more`));
    const heading = make('h3', {}, 'Lines with more or fewer hard faults');
    return [heading, make('ul', { class: 'lines' }, items)];
  }

  // ---- curves
  function upTo(list) {
    let sum = 0;
    return list.map((count, line) => [line, (sum += count)]);
  }
  function drawLines() {
    if (!said) return;
    const kind = element('kind').value;
    const to = Math.max(said.mine[kind].length, said.other[kind].length) - 1;
    const one = (name, list) => ({ name, kind: name, points: upTo(list), isStepped: true });
    const series = [one('first', said.mine[kind]), one('second', said.other[kind])];
    const picked = (line) => choose(current().written[line]);
    const unit = 'lines of the plain script';
    drawCurves(element('over-lines'), { from: 0, to, series, unit, picked });
  }
  function drawSweep() {
    if (!first) return;
    const kind = element('kind').value;
    const sorted = [...sweep].sort((a, b) => a.frames - b.frames);
    const points = sorted.map((it) => [it.frames, it[kind]]);
    const refused = sorted.map((it) => [it.frames, it.refused]);
    const series = [{ name: KINDS[kind].toLowerCase(), kind: 'second', points, isDotted: true }];
    if (refused.some(([, count]) => count))
      series.push({ name: 'answers other than ok', kind: 'refused', points: refused });
    const mark = (name, x) => ({ name, kind: name, x });
    const marks = [mark('first', first.frames), mark('second', valueOf('frames'))];
    const [from, to] = rangeOfSweep();
    const picked = (frames) => setTo('frames', frames);
    const unit = 'page frames';
    drawCurves(element('over-frames'), { from, to, series, marks, unit, picked });
  }
  function rangeOfSweep() {
    return [first.fewest, Math.max(2 * first.frames, first.fewest + 24)];
  }

  // ---- the sweep: one machine after the other, so that it can be stopped, and is seen to grow
  async function startSweep() {
    const mine = ++sweepNumber;
    sweeping = mine;
    sweep = [];
    element('sweep').textContent = 'Stop';
    const [from, to] = rangeOfSweep();
    const count = Math.min(SWEEP_POINTS, to - from + 1);
    const step = (to - from) / (count - 1);
    const wanted = [...Array(count).keys()].map((i) => Math.round(from + step * i));
    for (const frames of halving([...new Set(wanted)])) {
      const point = await runs.ask('sums', { machine: machine(frames) }).catch(() => null);
      if (sweeping !== mine) return;
      if (point && !point.status) sweep.push({ frames, ...point });
      drawSweep();
    }
    stopSweep();
  }
  // A sweep of other bounds is another curve.
  function sweepAgain() {
    if (current().answers.length <= SWEEP_AT_ONCE) return void startSweep();
    stopSweep();
    sweep = [];
    drawSweep();
  }
  let sweepNumber = 0;
  function stopSweep() {
    sweeping = 0;
    element('sweep').textContent = 'Sweep';
  }

  async function update() {
    if (!current()) return;
    const { plain } = await runs.ask('files').catch(() => ({}));
    if (!plain) return;
    const before = JSON.stringify(first);
    first = describe(plain);
    if (before !== JSON.stringify(first)) reset();
    await ask();
    drawSweep();
    sweepAgain();
  }
  return { update, machine, close: () => (stopSweep(), parted([])) };
}
// The ends first, then what lies between: a curve is seen early.
function halving(list) {
  const order = [];
  const seen = new Set();
  const add = (i) => !seen.has(i) && seen.add(i) && order.push(list[i]);
  add(0);
  add(list.length - 1);
  for (let step = list.length; step >= 1; step = Math.floor(step / 2))
    for (let i = 0; i < list.length; i += step) add(i);
  return order;
}
