// What stands beside the charts: a line, the state after it, a history.
// One entry: makePanels(page). What is shown is told by page.view.
const MOST_CHIPS = 24;
const FEW_CHIPS = 10; // where there is much to show
const MOST_MOVES = 200;
const MOST_OF_HISTORY = 80;

const dot = (state) => `<i style="background: var(--state-${state})"></i>`;
const quiet = (text) => `<span class="quiet">${text}</span>`;
const button = (kind, id, text, look = 'reference') =>
  `<button class="${look}" data-${kind}="${id}">${text}</button>`;
// The address of a page or a place of one process, behind its name.
const addressBehind = ({ pid, page }) => (pid && page < 2 ** 20 ? ' ' + addressOf(page) : '');
const withAddress = (thing) => thing.name + addressBehind(thing);
function reference(kind, thing, text = thing.name) {
  const name = kind === 'place' ? text : button(kind, thing.id, text);
  return name + (thing.pid ? quiet(addressBehind(thing)) : '');
}
const chip = (state, kind, thing, text) => button(kind, thing.id, dot(state) + text, 'chip');
const frameChip = ({ frame, owner, state }, more = '') =>
  chip(state, 'frame', frame, [frame.name, owner && withAddress(owner), more].join(' '));
// What is made of the first of a list, and how many more there are.
function firstOf(list, most, make) {
  const more = list.length - most;
  const rest = more > 0 ? [quiet(`and ${spelled(more)} more`)] : [];
  return [...list.slice(0, most).map(make), ...rest];
}
const listOf = (items) =>
  items.length ? `<ol class="moves">${items.map((text) => `<li>${text}`).join('')}</ol>` : '';
const section = (title, rows) => `<h3>${title}</h3><dl>${rows.join('')}</dl>`;
function table(heads, rows) {
  const cells = (kind, texts) => texts.map((text) => `<${kind}>${text}</${kind}>`).join('');
  const body = rows.map((texts) => `<tr>${cells('td', [texts].flat())}</tr>`).join('');
  return `<table><thead><tr>${cells('th', heads)}</tr></thead><tbody>${body}</tbody></table>`;
}

function makePanels({ data, survey, waits, view, regions, charge, shown }) {
  // A row of a list, with a chip for each of its things.
  function definition(title, things, make, note = '') {
    const most = shown().length > 3 || things.length > 200 ? FEW_CHIPS : MOST_CHIPS;
    const chips = `<div class="chips">${firstOf(things, most, make).join('')}</div>`;
    const body = things.length ? chips : note ? '' : quiet('none');
    return `<dt>${title} <b>${spelled(things.length)}</b></dt><dd>${note}${body}</dd>`;
  }
  function show(state) {
    const { number, text, answer } = data.lines[view.line];
    const moves = survey.movesOf(number);
    const parts = {
      line:
        lineOf(data.lines[view.line]) +
        listOf(regions.changes(number)) +
        movesOf(moves) +
        unwrittenOf(data.lines[view.line], moves, state),
      state: `<h2>After line ${number}</h2>` + listsOf(state) + setsOf(state) + homesOf(state),
      history: view.followed ? historyOf(view.followed) : '',
    };
    for (const id in parts) element(id).innerHTML = parts[id];
    element('history').hidden = !view.followed;
    element('status').textContent = `Line ${number}: ${text}, ${answer}, ${moves.length} moves`;
  }

  // ---- the line, with Windows' names, and the sum of a refusal
  function lineOf({ number, text, answer, isOk }) {
    const names = (some) => (some ? ' ' + quiet(some) : '');
    const said = `&rarr; <code class="${isOk ? '' : 'not-ok'}">${answer}</code>`;
    const sum = charge.refusalAt(number);
    const why =
      sum &&
      `<p class="not-ok">${spelled(sum.charged)} charged + ${sum.asked} asked for &gt; ` +
        `${spelled(sum.most)}, the limit</p>`;
    return (
      `<h2>Line ${number}</h2><code>${text}</code>${names(namesInLine(text))} ` +
      (answer && said + names(namesInAnswer(text, answer))) +
      (why ?? '')
    );
  }

  // ---- what it did to each page frame, from before to after it; the moves' own order, with the
  // states that are passed, is behind a fold
  function movesOf(moves) {
    if (!moves.length) return '<p class="quiet">No page frame moves.</p>';
    const partOf = ({ frame, class: { word }, home }) => frame ?? word + home.split(' ')[0];
    const parts = [...Map.groupBy(moves, partOf)];
    const items = firstOf(parts, MOST_MOVES, ([part, some]) =>
      typeof part === 'string' ? alike(some) : turnOf(part, some),
    );
    const each = firstOf(moves, MOST_MOVES, (move) => sentenceOf(move, reference) + passing(move));
    const open = view.isUnfolded ? ' open' : '';
    const title = `<summary>${spelled(moves.length)} moves, in their order</summary>`;
    const fold = `<details data-fold${open}>${title}${listOf(each)}</details>`;
    return listOf(items) + (moves.length > 1 ? fold : '');
  }
  // A writer that begins fewer write-outs than it might: the pages that are left have no slot to
  // go to. Its answer is `ok` all the same.
  function unwrittenOf({ kind, text }, moves, { lists, requests, slots }) {
    const begun = moves.filter(({ class: { word } }) => word === 'write').length;
    const left = lists[MODIFIED].length;
    const mayGoOn = begun < Number(text.split(' ')[1]) && requests.length < data.machine.depth;
    if (kind !== 'writer' || !mayGoOn || !left || slots) return '';
    const pages = spelled(left) + (left > 1 ? ' modified pages are' : ' modified page is');
    return `<p class="not-ok">No slot of the paging file is free: ${pages} not written.</p>`;
  }
  function turnOf(frame, moves) {
    const events = moves.filter(({ class: { group } }) => group in survey.numbers);
    const some = events.length ? events : moves.slice(-1);
    const told = some.map((move) => sentenceOf(move, reference));
    const [was, is] = [frame.after(view.line - 1), moves.at(-1)];
    const stand = ({ state, owner }) =>
      `${dot(state)}${STATES[state]} ${owner ? withAddress(owner) : ''}`.trimEnd();
    const isSame = was.state === is.state && was.owner === is.owner;
    const turn = isSame ? stand(is) + ', as before' : `${stand(was)} &rarr; ${stand(is)}`;
    return `${told.join('; ')}<span class="turn">frame ${frame.name}: ${turn}</span>`;
  }
  function passing({ was, state, frame }) {
    const [from, to] = [was, state].map((one) => dot(one) + STATES[one]);
    if (was === state || !frame) return '';
    return `<span class="turn">frame ${frame.name}: ${from} &rarr; ${to}</span>`;
  }
  // Moves without a page frame that say the same of many pages: one sentence.
  function alike(moves) {
    const [first, last] = [moves[0], moves.at(-1)];
    if (moves.length === 1) return sentenceOf(first, reference);
    const range = [first, last].map(({ page }) => reference('page', page)).join(' .. ');
    const sentence = sentenceOf(first).replace(first.page.name, 'each');
    return `${spelled(moves.length)} pages, ${range}: ${sentence}`;
  }

  // ---- the state
  function listsOf({ lists, requests }) {
    const list = (frames, state) =>
      definition(dot(state) + capital(STATES[state]), frames, (frame) => frameChip(frame));
    const request = (frame) =>
      frameChip(frame, (frame.request === READ ? 'from ' : 'to ') + (frame.backing || 'zeros'));
    const { threads } = lastUpTo(waits, view.line) ?? { threads: [] };
    const thread = (text) => `<span class="chip">${text}</span>`;
    return section('Lists, the first to be taken first', [
      ...lists.map(list),
      definition(dot(READING) + dot(WRITING) + 'I/O in flight', requests, request),
      waits.length ? definition('Threads that wait', threads, thread) : '',
    ]);
  }
  function setsOf({ sets }) {
    const age = data.hasAges ? ({ age }) => ` age ${age}` : () => '';
    const make = (one) =>
      chip(ACTIVE, 'frame', one.frame, one.page + addressBehind(one) + age(one));
    const live = data.processes.filter(({ line }) => line <= view.line);
    const some = live.filter(({ pid }) => shown().includes(pid));
    const rows = some.map(({ pid, min, max }) => {
      const limits = quiet(`min ${min}, max ${max}`) + agesIn(sets[pid]);
      return definition(`${dot(ACTIVE)}Process ${pid}`, sets[pid], make, limits);
    });
    const more = live.length - some.length;
    const others = more ? quiet(`and ${more} other processes, by Process above`) : '';
    const order = data.hasAges ? ', oldest first' : '';
    return rows.length ? section(`Working sets (active pages${order})`, rows) + others : '';
  }
  // How many pages have which age.
  function agesIn(set) {
    if (!data.hasAges || !set.length) return '';
    const ages = [...Map.groupBy(set, ({ age }) => age)].reverse();
    const counts = ages.map(([age, some]) => `${spelled(some.length)} of age ${age}`);
    return quiet('; ' + counts.join(', '));
  }
  function homesOf({ away, slots, allSlots }) {
    const row = (title, state, isHome, note) => {
      const make = ({ page, home }) =>
        chip(state, 'page', page, `${withAddress(page)} ${home}`);
      return definition(title, away.filter(({ home }) => isHome(home)), make, note);
    };
    const inUse = quiet(`${spelled(allSlots - slots)} of ${spelled(allSlots)} slots in use`);
    return section('Pages without a frame', [
      row('Not used yet', ZEROED, (home) => !home),
      row('Paging file', STANDBY, isSlot, inUse),
      row('Files', STANDBY, (home) => home.startsWith('block')),
    ]);
  }

  // ---- a history: a line's moves together, with the state after them
  function historyOf({ kind, thing }) {
    const { moves } = thing;
    // the part of it that is near the chosen line
    const first = Math.max(0, thing.countUpTo(view.line - 1) - MOST_OF_HISTORY / 2);
    const part = moves.slice(first, first + MOST_OF_HISTORY);
    const near = part.length < moves.length ? '; those near this line' : '';
    const inWords = (kind, it, text) => text + addressBehind(it);
    const row = ([line, some]) => [
      button('line', line, line),
      some.at(-1).frame ? dot(some.at(-1).state) : '',
      (line === view.line ? '<span class="chosen"></span>' : '') +
        some.map((move) => sentenceOf(move, inWords)).join('; '),
    ];
    const rows = [...Map.groupBy(part, ({ line }) => line)].map(row);
    return (
      `<h2><span>History of ${kind} ${withAddress(thing)}</span>` +
      '<button data-press="Escape">Close</button></h2>' +
      `<p class="quiet">${spelled(moves.length)} moves${near}</p>` +
      `<div class="rows">${table([], rows)}</div>`
    );
  }
  return { show };
}
