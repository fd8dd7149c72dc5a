// The tables below the charts: sections, paging-file slots, page frames, faults.
// One entry: makeTables(page).
const MOST_FRAMES = 64;
const MOST_FAULTY_PAGES = 12; // of a process
const MOST_SLOTS = 512; // that have a cell each
const MOST_SECTIONS = 40;

function makeTables({ data, view, sections: { sections, viewsOf }, pages: { keyKind } }) {
  const title = (text) => `<h2>${text} after line ${view.line}</h2>`;
  function show(state) {
    element('sections').innerHTML = sectionsOf();
    element('slots').innerHTML = slotsOf(state);
    element('frames').innerHTML = title('Page frames') + framesOf(state);
  }

  // ---- sections, with their views and frames
  function pagesOf({ area, pages }) {
    const keys = Array.from({ length: pages }, (_, at) => data.pages.get(idOf(2 * area + 1, at)));
    return keys.map((key) => ({ key, kind: keyKind(key, view.line) }));
  }
  function sectionsOf() {
    const live = sections.filter(({ line }) => line <= view.line);
    const kinds = KINDS_SHOWN.map((kind) => capital(PAGE_KINDS[kind]));
    const rows = firstOf(live, MOST_SECTIONS, (one) => {
      const found = pagesOf(one);
      const counts = PAGE_KINDS.map((_, kind) => found.filter((page) => page.kind === kind).length);
      const views = viewsOf(one, view.line).map(
        ({ pid, base, isCopy }) => `${pid}:${addressOf(base)}${isCopy ? ' copy' : ''}`,
      );
      const cells = found.length > MOST_CELLS ? '' : found.map(cellOf).join('');
      const name = `${one.name} ${quiet('s' + one.area)}`;
      const places = firstOf(views, 6, (text) => text).join(', ');
      const shown = `<span class="cells">${cells}</span>`;
      return [name, one.pages, places || quiet('none'), ...numbersOf(counts), shown];
    });
    const heads = ['Section', 'Pages', 'Views', ...kinds, 'Frames'];
    return rows.length ? title('Sections') + table(heads, rows) : '';
  }
  function cellOf({ key, kind }) {
    const moment = key?.after(view.line);
    const where = moment?.owner ? 'frame ' + moment.frame.name : moment?.home || 'zeros';
    const target = key ? `data-page="${key.id}"` : 'disabled';
    const text = `${key?.name ?? 'no key'}: ${PAGE_KINDS[kind]}, ${where}`;
    const look = `class="cell named" style="${tintOfKind(kind)}" title="${text}"`;
    const name = moment?.owner ? moment.frame.name : '';
    return `<button ${look} tabindex="-1" ${target}>${name}</button>`;
  }

  // ---- slots of the paging file, and what they hold
  function slotsOf({ frames, away, allSlots, slots }) {
    const held = new Map();
    const hold = (home, page, kind) =>
      isSlot(home) && held.set(Number(home.slice(5)), { page, kind });
    for (const { home, page } of away) hold(home, page, 'on disk alone');
    for (const { backing, owner, request, frame } of frames) {
      const isWritten = request === WRITE || request === WRITE_AGAIN;
      hold(backing, owner, isWritten ? 'being written' : `also in frame ${frame.name}`);
    }
    if (!allSlots) return '';
    const all = [...held.keys()].sort((a, b) => a - b);
    const isAll = allSlots <= MOST_SLOTS;
    const every = isAll ? Array.from({ length: allSlots }, (_, slot) => slot) : all;
    const some = isAll || all.length <= MOST_SLOTS ? '' : `, the first ${MOST_SLOTS} of them here`;
    const sum = `${spelled(allSlots - slots)} of ${spelled(allSlots)} slots in use${some}`;
    const shown = every.slice(0, MOST_SLOTS);
    const cells = shown.map((slot) => slotCell(slot, held.get(slot))).join('');
    return `${title('Paging file')}<p class="quiet">${sum}</p><div class="cells">${cells}</div>`;
  }
  const SLOT_TINTS = { 'on disk alone': READING, 'being written': WRITING };
  function slotCell(slot, holds) {
    const { page, kind } = holds ?? {};
    const tint = holds ? SLOT_TINTS[kind] ?? STANDBY : ZEROED;
    const name = page ? withAddress(page) : 'a page that was deleted';
    const text = `slot ${slot}: ${holds ? `${name}, ${kind}` : 'free'}`;
    const target = page ? `data-page="${page.id}"` : 'disabled';
    const look = `class="cell" style="background: var(${tintOf(tint)})" title="${text}"`;
    return `<button ${look} tabindex="-1" ${target}></button>`;
  }

  // ---- page frames
  function framesOf({ frames }) {
    const shown = view.showsAll ? frames : frames.slice(0, MOST_FRAMES);
    const heads = ['Frame', 'State', 'Page', 'Changed', 'On the device', 'Valid places', 'I/O'];
    const row = ({ frame, state, owner, isChanged, backing, shares, request }) => [
      reference('frame', frame),
      dot(state) + capital(STATES[state]),
      owner ? reference('page', owner) : '',
      owner ? (isChanged ? 'changed' : 'no') : '',
      backing,
      shares || '',
      request ? REQUESTS[request] : '',
    ];
    const all = `<button data-press="a" class="screen-only">Show all ${frames.length}</button>`;
    return table(heads, shown.map(row)) + (shown.length < frames.length ? all : '');
  }

  // ---- faults by process and page, over the whole log; a process' sum is first, without a page
  function countFaults() {
    const faults = data.processes.map(() => new Map([[null, FAULTS.map(() => 0)]]));
    for (const { class: found, line, page } of data.moves) {
      const fault = FAULTS.findIndex(({ group }) => group === found.group);
      if (fault < 0) continue;
      const pages = faults[data.lines[line].values[0]];
      if (!pages.has(page)) pages.set(page, FAULTS.map(() => 0));
      pages.get(null)[fault]++;
      pages.get(page)[fault]++;
    }
    return faults;
  }
  function faultsOf(pages, pid) {
    const row = ([page, counts]) => {
      const [hard, soft] = counts;
      const share = hard + soft ? Math.floor((100 * hard) / (hard + soft)) + ' %' : '';
      const name = page ? reference('page', page) : `<b>Process ${pid}</b>`;
      return [name, ...counts.map((count) => (count ? spelled(count) : '')), share];
    };
    const [sum, ...list] = pages;
    list.sort((a, b) => b[1][0] - a[1][0] || b[1][1] - a[1][1] || a[0].id - b[0].id);
    return list.length ? [row(sum), ...firstOf(list, MOST_FAULTY_PAGES, row)] : [];
  }
  function showFaults() {
    const kinds = FAULTS.map(({ title }) => title.replace(' faults', ''));
    const heads = ['Process, page', ...kinds, 'Hard of hard and soft'];
    const calls = (wanted) => data.moves.filter(({ class: { word } }) => word === wanted).length;
    const failed = (count) => (count ? ` and ${spelled(count)} failed` : '');
    element('faults').innerHTML =
      `<h2>Faults in the whole log</h2>${table(heads, countFaults().flatMap(faultsOf))}` +
      `<p class="quiet">Device calls: ${spelled(calls('got'))}${failed(calls('bad'))} reads, ` +
      `${spelled(calls('wrote'))}${failed(calls('lost'))} writes.</p>`;
  }
  return { show, showFaults };
}
