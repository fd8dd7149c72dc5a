// The chart of page frames over the lines: a row each, or pooled where there are too many.
// One entry: makeFrameChart(page).
const MOST_ROWS = 130;
const MOST_CHOSEN_ROWS = 64;
const MOST_LINES_TO_CHOOSE = 2000;
const MOST_IDLE = 4; // page frames that no line uses, and that are drawn all the same
const NOTE_HEIGHT = 18;

// What colours mean: the names of the colours, their words, and which a page frame has.
const tintOf = (state) => '--state-' + state;
const OWNER_TINTS = [6, 4, 5, 2, 3].map(tintOf);
const tintOfProcess = (pid) => ['--blue', ...OWNER_TINTS][(pid - 1) % 6];
function makePaints(processes) {
  const owners = processes.flatMap(({ pid }) => {
    const others = processes[pid + 6] ? `, ${pid + 6} ..` : '';
    return pid > 6 ? [] : [`Private to process ${pid}${others}`];
  });
  function ownerOf({ owner }) {
    if (!owner) return 0;
    if (owner.pid) return 3 + ((owner.pid - 1) % 6);
    return owner.isFile ? 1 : 2;
  }
  const changeOf = ({ owner, isChanged }) => (!owner ? 0 : isChanged ? 2 : 1);
  const states = STATES.map((name, state) => (state < READING ? name : 'transition: ' + name));
  const ownerTints = ['--state-0', '--yellow', '--grey', '--blue', ...OWNER_TINTS];
  const changes = ['No page', 'Same as on the device', 'Changed'];
  const paint = (tints, words, of) => ({ tints, words, of });
  return {
    state: paint([...STATES.keys()].map(tintOf), states.map(capital), ({ state }) => state),
    owner: paint(ownerTints, ['No page', 'Mapped file', 'Page-file section', ...owners], ownerOf),
    changed: paint([0, 2, 6].map(tintOf), changes, changeOf),
  };
}

function makeFrameChart({ data, view }) {
  // those that no line uses would be a grey wall
  const used = data.frames.filter(({ moves }) => moves.length);
  const isWall = data.frames.length - used.length > MOST_IDLE;
  const all = isWall ? (used.length ? used : data.frames.slice(0, 1)) : data.frames;
  const unused = data.frames.length - all.length;
  const note = unused ? NOTE_HEIGHT : 0;
  const paints = makePaints(data.processes);
  let [pen, axis, rows, place] = [null, null, [], { top: 0, high: 0 }];
  let seen = new Set(); // what is drawn: by its place among the words, or by a word of its own

  function legend() {
    const { tints, words } = paints[view.paint];
    const item = (look, text, style = '') =>
      `<li><i class="${look}" style="background-color: ${style}"></i>${text}`;
    const states = words.map((text, at) =>
      seen.has(at) ? item(`${view.paint}-${at}`, text, `var(${tints[at]})`) : '',
    );
    const isHatched = seen.has('hatched') && view.paint !== 'state';
    if (seen.has('underlined')) states.push(item('underline', 'Underlined: changed'));
    if (isHatched) states.push(item('state-5', 'Hatched: a request holds it'));
    return states.join('');
  }

  // ---- the rows: all page frames, or those that change in the lines that are seen
  const isFollowed = (frame) => view.followed?.thing === frame;
  const changesHere = (frame) => isFollowed(frame) || frame.after(axis.last).line > axis.first;
  // Chooses the rows; gives their height.
  function layOut(seen) {
    axis = seen;
    rows = all;
    if (all.length > MOST_ROWS && axis.count <= MOST_LINES_TO_CHOOSE) {
      const chosen = rows.filter(changesHere);
      if (chosen.length && chosen.length <= MOST_CHOSEN_ROWS) rows = chosen;
    }
    return note + heightOf(rows.length);
  }
  function heightOf(many) {
    if (many <= 24) return many * 19;
    if (many <= MOST_CHOSEN_ROWS) return many * (axis.column >= 10 ? 14 : axis.column >= 1 ? 8 : 4);
    return many <= MOST_ROWS ? many * 4 : 320;
  }
  function draw(given, top, whole) {
    pen = given;
    const high = whole - note;
    const row = high / rows.length;
    place = { top, high };
    seen = new Set();
    if (axis.column >= 1 && row >= 3) {
      rows.forEach((frame, at) => drawRow(frame, top + at * row, row > 6 ? row - 1 : row));
    } else drawAll(top, high);
    const text = `and ${spelled(unused)} page frames that no line uses`;
    if (note) pen.text(text, axis.left + 4, top + high + 9, { tint: '--soft' });
    const step = 2 ** Math.max(0, Math.ceil(Math.log2(13 / row)));
    for (let at = 0; at < rows.length && !axis.isNarrow; at += step) {
      const level = top + (at + 0.5) * row;
      pen.text(rows[at].name, axis.left - 10, level, { tint: '--soft', align: 'right' });
    }
  }
  function title() {
    if (rows.length === all.length) return 'Page frames';
    return place.high > 190 ? 'Frames that change here' : 'These change';
  }
  // The page frame whose row is at a height of all charts, if one is.
  function frameAt(y) {
    const at = Math.floor(((y - place.top) / place.high) * rows.length);
    return y >= place.top ? rows[at] : undefined;
  }
  // The row of the page frame whose history is shown.
  function mark(above) {
    const [at, row] = [rows.findIndex(isFollowed), place.high / rows.length];
    const wide = axis.right - axis.left;
    const high = Math.max(2, row > 6 ? row - 1 : row);
    if (at >= 0) above.frame('--ink', axis.left, place.top + at * row, wide, high, 2);
  }

  // ---- a row each
  // Calls each(stands, from, to) for how a page frame stands in the lines that are seen.
  function eachStand(frame, each) {
    const end = axis.last + 1;
    let stands = frame.after(axis.first);
    let from = axis.first;
    for (let at = frame.countUpTo(from); from < end; at++) {
      const next = frame.moves[at];
      const to = Math.min(end, next?.line ?? end);
      if (to > from) each(stands, from, to);
      [stands, from] = [next, to];
    }
  }
  function drawRow(frame, top, high) {
    const { tints, of } = paints[view.paint];
    eachStand(frame, (stands, from, to) => {
      const { state, owner, isChanged } = stands;
      const tint = tints[of(stands)];
      const left = axis.x(from);
      const wide = axis.x(to) - left - (axis.column > 6 ? 1 : 0);
      pen.box(tint, left, top, wide, high);
      seen.add(of(stands));
      const isHatched = state >= READING && high > 5;
      if (isHatched) pen.hatch(left, top, wide, high, state === READING);
      if (isHatched) seen.add('hatched');
      const isUnderlined = isChanged && state === ACTIVE && high > 8;
      if (isUnderlined) pen.box(inkOn(tint), left, top + high - 3, wide, 2, 0.55);
      if (isUnderlined) seen.add('underlined');
      if (owner && high >= 12) drawName(stands, tint, left, top, wide, high);
    });
  }
  function drawName({ owner, shares, request }, tint, left, top, wide, high) {
    const text = owner.name + (shares > 1 ? ' \u00d7' + shares : '');
    const need = text.length * LETTER;
    if (need + 5 >= wide) return;
    // the hatching makes way for the name
    if (request) pen.box(tint, left + 2, top + 2, need + 4, high - 4);
    pen.text(text, left + 4, top + high / 2, { tint: inkOn(tint), font: MONO });
  }
  function drawAll(top, high) {
    const { tints, of } = paints[view.paint];
    const tall = clamp(Math.round(high * devicePixelRatio), 1, all.length);
    const edge = (y) => Math.floor((y * all.length) / tall);
    seen = drawPooled(pen, axis, {
      ...{ name: 'frames ' + view.paint, tints, top, high, tall },
      rowsAt: (y) => all.slice(edge(y), edge(y + 1)),
      eachStretch: (frame, weigh) =>
        eachStand(frame, (stands, from, to) => weigh(of(stands), from, to)),
    });
  }
  return { paints, legend, layOut, draw, title, frameAt, mark };
}
