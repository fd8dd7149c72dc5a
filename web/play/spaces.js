// The address spaces behind the chosen line, as `query` lines tell them, and the charge.
const MOST_CELLS = 64;
const CELLS = {
  valid: 'valid: in the working set',
  memory: 'in memory: standby or modified (of private pages)',
  committed: 'committed, and neither',
  reserved: 'reserved',
};

function makeSpaces(place, runs, toldLine) {
  let wanted = 0;
  let isAsked = false;
  async function draw(line) {
    wanted = line;
    if (isAsked || place.hidden || !line) return;
    isAsked = true;
    try {
      const said = await runs.ask('spaces', { line });
      place.replaceChildren(...shown(said));
    } catch (error) {
      const why = make('p', {}, 'There is no run to ask.');
      if (error.message !== 'stopped') place.replaceChildren(why);
    }
    isAsked = false;
    if (wanted !== line) draw(wanted);
  }
  function shown({ processes, charge, limit, line, state }) {
    if (!processes) return [make('p', {}, 'The run ended before this line.')];
    const heading = make('h2', {}, `Behind line ${toldLine(line)}`);
    const where = placesIn(state);
    const tables = processes.map((it) => table(it, where));
    if (!tables.length) tables.push(make('p', { class: 'quiet' }, 'No process lives here.'));
    return [heading, chargeBar(charge, limit), legend(), ...tables];
  }
  function chargeBar(charge, limit) {
    const share = limit ? Math.round((100 * charge) / limit) : 0;
    const bar = make('span', { class: 'fill', style: `width:${share}%` });
    const words = `Commit charge: ${plural(charge, 'page')} of ${spelled(limit)} (${share} %)`;
    const gauge = make('span', { class: 'gauge', 'aria-hidden': 'true' }, bar);
    return make('div', { class: 'charge' }, make('b', {}, words), gauge);
  }
  function legend() {
    const item = ([kind, words]) => make('li', {}, make('i', { class: 'cell ' + kind }), words);
    return make('ul', { class: 'legend' }, Object.entries(CELLS).map(item));
  }
  return { draw };
}

// Which pages of each process are valid, and which private ones have a frame on a list.
function placesIn(state) {
  const valid = new Map();
  const memory = new Map();
  const add = (map, pid, page) => map.set(pid, (map.get(pid) ?? new Set()).add(page));
  for (const text of state.split('\n')) {
    const set = /^process (\d+) .*pages ?(.*)$/.exec(text);
    const pages = set ? set[2].split(' ').filter(Boolean) : [];
    pages.forEach((page) => add(valid, Number(set[1]), Number(page)));
    const frame = /^frame \d+ (?!active)[a-z ]+, p(\d+)\.(\d+)/.exec(text);
    if (frame) add(memory, Number(frame[1]), Number(frame[2]));
  }
  return { valid, memory };
}

// The regions of a process, the pieces of one reservation beneath each other.
function table({ pid, regions }, where) {
  const used = regions.filter(({ state }) => state !== 0x10000);
  const add = (all, { size }) => all + size;
  const sum = (state) => used.filter((it) => it.state === state).reduce(add, 0);
  const heads = ['Address', 'Size', 'State', 'Protection', 'Type', 'Pages'];
  const words = `Process ${pid}: ${sizeOf(sum(0x1000))} committed, ${sizeOf(sum(0x2000))} reserved`;
  const rows = used.map((region, i) => row(region, used[i - 1], pid, where));
  const free = make('td', { colspan: 6, class: 'quiet' }, 'All its user pages are free.');
  const none = make('tr', {}, free);
  return make(
    'table',
    { class: 'regions' },
    make('caption', {}, words),
    make('thead', {}, make('tr', {}, heads.map((head) => make('th', { scope: 'col' }, head)))),
    make('tbody', {}, rows.length ? rows : none),
  );
}
function row(region, before, pid, where) {
  const { base, size, state, protection, type, allocation, allocationProtection } = region;
  const isFirst = before?.allocation !== allocation;
  const as = `allocated at ${hex(allocation)} as ${protectionOf(allocationProtection)}`;
  const cells = [
    make('td', { class: isFirst ? 'address' : 'address inner' }, hex(base)),
    make('td', {}, sizeOf(size)),
    make('td', {}, bitsOf(state, NAMES.state)),
    make('td', {}, protection ? protectionOf(protection) : ''),
    make('td', {}, isFirst ? bitsOf(type, NAMES.type) : ''),
    make('td', { class: 'cells' }, pageCells(region, pid, where)),
  ];
  return make('tr', { title: as, class: isFirst ? 'first' : '' }, cells);
}
function pageCells({ base, size, state }, pid, { valid, memory }) {
  const [first, count] = [base / 4096, size / 4096];
  const kindOf = (page) => {
    if (state === 0x2000) return 'reserved';
    if (valid.get(pid)?.has(page)) return 'valid';
    return memory.get(pid)?.has(page) ? 'memory' : 'committed';
  };
  if (count > MOST_CELLS || state === 0x2000) {
    const kinds = state === 0x2000 ? [] : [...Array(count).keys()].map((i) => kindOf(first + i));
    const number = (kind) => kinds.filter((it) => it === kind).length;
    if (!kinds.length) return [make('span', { class: 'quiet' }, plural(count, 'page'))];
    return [`${plural(count, 'page')}, ${number('valid')} valid, ${number('memory')} in memory`];
  }
  return [...Array(count).keys()].map((i) => {
    const kind = kindOf(first + i);
    const title = `page ${first + i}, ${hex((first + i) * 4096)}: ${CELLS[kind]}`;
    return make('i', { class: 'cell ' + kind, title });
  });
}
