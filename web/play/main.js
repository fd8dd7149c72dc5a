// The page: a script is run at each change, and what it answers is shown.
const AT_EACH_CHANGE = 20000; // lines; above, a run is asked for
const REST = 120; // milliseconds of rest after a key
const NARROW = 800; // pixels, up to which one view is seen at a time
const PIECE = 4000; // lines that are made ready at once
const LONG = 1500; // lines, from which on the charts wait a little longer
const first = makeWorker();
const other = makeWorker(); // for the second machine and its sweep, so that neither waits for them
let run = null; // the last run that was answered
let busy = 0;
let isStale = false;
let typing;

const lineCount = () => editor.script.lineCount();
const isLong = () => lineCount() > AT_EACH_CHANGE;
const frame = makeFrame(element('frames'), (line) => {
  if (run?.written[line]) editor.choose(run.written[line]);
});
const editor = makeEditor({ changed, moved: showLine, run: () => start() });
const spaces = makeSpaces(element('spaces'), first, (line) => run.written[line]);
const second = makeSecond({
  runs: other,
  section: element('second'),
  current: () => run,
  choose: (line) => editor.choose(line),
  parted: (lines) => editor.part(lines),
});

// ---- a run
function changed(isNew) {
  clearTimeout(typing);
  const isLive = element('live').checked && !isLong();
  if (isLive) typing = setTimeout(start, isNew ? 0 : REST);
  else if (isLong()) say('More than 20,000 lines: run it by the button.');
  else say('Changed since it was run.');
}
async function start() {
  clearTimeout(typing);
  if (busy) return (isStale = true);
  busy = performance.now();
  isStale = false;
  const script = editor.text();
  const slow = setTimeout(() => {
    say('Running ..');
    element('run').textContent = 'Stop';
  }, 250);
  try {
    await show(await first.ask('run', { script, wantsPage: true }), performance.now() - busy);
  } catch (error) {
    const { message } = error;
    say(message === 'stopped' ? 'Stopped.' : 'A program ended early: ' + message, 'bad');
  }
  clearTimeout(slow);
  busy = 0;
  element('run').textContent = 'Run';
  if (isStale) start();
}
function stop() {
  isStale = false;
  first.stop();
}
const signOf = (told) => {
  const found = /^(warning: )?line (\d+)(?: column (\d+))?: ([^]*)/.exec(told);
  if (!found) return { line: 0, text: '\u2717 ' + told, kind: 'mistake' };
  const [, isWarning, line, column, reason] = found;
  const kind = isWarning ? 'warned' : 'mistake';
  const text = (isWarning ? '\u26a0 ' : '\u2717 ') + reason;
  return { line: Number(line), column: Number(column), kind, text };
};
// What stands beside each line, made piece by piece, so that the page goes on between.
async function textsOf({ answers, written }, signs) {
  const texts = Array(lineCount()).fill('');
  const lines = editor.text().split('\n');
  for (let i = 1; i < written.length; i++) {
    if (i % PIECE === 0) await breath();
    const [line, answer] = [written[i], answers[i - 1]];
    if (!line || answer === undefined) continue;
    const keyword = keywordAt(lines[line - 1]);
    const meaning = meaningOf(keyword, answer);
    texts[line - 1] = shortOf(keyword, answer) + (meaning && '  ' + meaning);
  }
  for (const { line, text } of signs)
    texts[line - 1] = [text, texts[line - 1]].filter(Boolean).join('  ');
  return texts;
}
const keywordAt = (line = '') => keywordOf((line.match(/[A-Za-z]+/) ?? [''])[0]) ?? '';

async function show(said, took) {
  const signs = said.told.map(signOf);
  const isWrong = said.answers === undefined;
  showTold(signs);
  if (isWrong) editor.show(signs);
  else await showRun(said, signs);
  for (const name of ['frames', 'spaces', 'second']) element(name).classList.toggle('old', isWrong);
  if (isWrong) say(plural(signs.length, 'thing is', 'things are') + ' wrong', 'bad');
  else sayTimes(said, took);
  document.documentElement.dataset.runs = 1 + Number(document.documentElement.dataset.runs ?? 0);
  if (!isWrong) handOver();
  showLine(editor.line());
}
async function showRun(said, signs) {
  said.answers = linesOf(said.answers);
  said.lineOf = [];
  said.written.forEach((line, i) => (said.lineOf[line] = i));
  run = said;
  const texts = await textsOf(said, signs);
  await breath();
  // (what was typed meanwhile is run again, and stands at other lines)
  if (!isStale) editor.show(signs, texts);
  await breath();
  frame.show(said.page, lineCount() > LONG ? 700 : 0);
}
function sayTimes({ status, answers, took }, whole) {
  const ended = status ? `; ended with status ${status}` : '';
  const [names, lines, page] = took.map((time) => time.toFixed(1));
  say(`${plural(answers.length, 'line')} in ${Math.round(whole)} ms${ended}`, status ? 'bad' : '');
  element('status').title = `names ${names} ms, run ${lines} ms, page ${page} ms`;
}
// The second worker has the run too, once something wants it.
async function handOver() {
  if (element('second').hidden) return;
  try {
    const { run: handed } = await first.ask('hand');
    await other.ask('take', { run: handed });
    await second.update();
  } catch {
    // (a stopped worker has nothing to hand over)
  }
}
function showTold(signs) {
  const item = ({ line, text, kind }) => {
    const words = (line ? `line ${line}: ` : '') + text.slice(2);
    const onclick = () => editor.choose(line, true);
    return make('button', { class: 'link ' + kind, onclick }, words);
  };
  element('told').replaceChildren(...signs.map(item));
}

// ---- the chosen line
async function showLine(line) {
  if (!line) return;
  showForm();
  const at = run?.lineOf[line];
  const words = editor.script.getLine(line - 1) ?? '';
  const answer = at ? run.answers[at - 1] : '';
  const meaning = answer && meaningOf(keywordAt(words), answer);
  const told = [answer, meaning].filter(Boolean).join(' \u2013 ');
  element('answer').textContent = told && `Line ${line}: ${told}`;
  if (!at) return putMoves([]);
  frame.choose(at);
  if (!element('spaces').hidden) spaces.draw(at);
  clearTimeout(showLine.waiting);
  showLine.waiting = setTimeout(() => askMoves(at, line), 60);
}
async function askMoves(at, line) {
  const { moves } = await first.ask('tell', { line: at }).catch(() => ({ moves: [] }));
  if (editor.line() === line) putMoves(moves);
}
function putMoves(moves) {
  element('moves').hidden = !moves.length;
  const items = moves.map((words) => make('li', {}, words));
  element('moves').querySelector('ul').replaceChildren(...items);
}
function showForm() {
  const place = editor.word();
  const keyword = place?.keyword;
  element('form').hidden = element('help').hidden = !keyword;
  if (!keyword) return;
  const shown = (name, i) => make(i + 1 === place.at ? 'b' : 'span', {}, name);
  const words = formsOf(keyword).map(shown);
  const parts = words.flatMap((word, i) => (i ? [', ', word] : [word]));
  const isCall = place.first.toLowerCase() !== keyword;
  const call = CALL_OF[keyword];
  const also = call ? `  = ${isCall ? keyword : call}` : '';
  const form = make('code', {}, make('strong', {}, place.first), '(', ...parts, ')');
  element('form').replaceChildren(form, make('span', { class: 'quiet' }, also));
  element('help').querySelector('div').innerHTML = data.help.texts[keyword] ?? '';
  element('help').querySelector('summary').textContent = `The rule of ${place.first}`;
}

// ---- views
function view(name) {
  for (const tab of element('views').children) {
    const isOn = tab.dataset.view === name;
    tab.setAttribute('aria-selected', isOn);
    tab.tabIndex = isOn ? 0 : -1;
    if (isOn) tab.scrollIntoView({ block: 'nearest', inline: 'nearest' });
    if (tab.dataset.view !== 'text') element(tab.dataset.view).hidden = !isOn;
  }
  document.body.dataset.view = name;
  if (name !== 'second') second.close();
  frame.seen();
  editor.resize();
  if (name === 'spaces') spaces.draw(run?.lineOf[editor.line()]);
  if (name === 'second') handOver();
}
element('views').addEventListener('click', ({ target }) => {
  if (target.dataset.view) view(target.dataset.view);
});
element('views').addEventListener('keydown', ({ key, target }) => {
  const step = { ArrowRight: 1, ArrowLeft: -1 }[key];
  if (!step) return;
  const tabs = [...element('views').children].filter((it) => it.offsetWidth);
  const next = tabs[(tabs.indexOf(target) + step + tabs.length) % tabs.length];
  next.focus();
  view(next.dataset.view);
});

// ---- examples
const SCRIPTS = new Map(data.examples.map((it) => [it.name, it]));
function putExample(name) {
  const { title, script, lesson } = SCRIPTS.get(name);
  element('examples').value = name;
  const told = name === data.examples[0].name ? element('welcome').innerHTML : lesson;
  element('lesson').open = innerWidth > NARROW;
  element('lesson').hidden = !told;
  element('lesson').querySelector('summary').textContent = title;
  element('lesson').querySelector('div').innerHTML = told;
  history.replaceState(null, '', '#example=' + name);
  editor.put(script);
}
function putText(text) {
  element('examples').value = '';
  element('lesson').hidden = true;
  if (!placeOf().script) history.replaceState(null, '', ' ');
  editor.put(text.replace(/\r\n/g, '\n'));
}
element('examples').append(make('option', { value: '', hidden: true }, 'A script of your own'));
element('examples').append(...groupsOf(data.examples));
function groupsOf(examples) {
  const groups = new Map();
  for (const { group, title, name } of examples)
    groups.set(group, [...(groups.get(group) ?? []), new Option(title, name)]);
  return [...groups].map(([label, options]) => make('optgroup', { label }, options));
}
element('examples').onchange = ({ target }) => putExample(target.value);
async function openPlace() {
  const { script, example } = placeOf();
  if (script) {
    try {
      return putText(await unsqueezed(script));
    } catch {
      say('The script in the address is cut or spoiled.', 'bad');
    }
  }
  putExample(SCRIPTS.has(example) ? example : data.examples[0].name);
}

// ---- the rest
function attach() {
  attachFiles({ put: putText, text: editor.text, page: frame.html, runs: first });
  element('run').onclick = () => (element('run').textContent === 'Stop' ? stop() : start());
  element('live').onchange = () => element('live').checked && start();
  element('theme').onchange = ({ target }) => {
    document.documentElement.style.colorScheme = target.value;
    frame.again();
  };
  addEventListener('hashchange', openPlace);
  new ResizeObserver(editor.resize).observe(element('sheet'));
  addEventListener('keydown', (event) => {
    if (event.key !== 'F6') return;
    event.preventDefault();
    const isInside = element('text').contains(document.activeElement);
    if (isInside) element('views').querySelector('[aria-selected=true]').focus();
    else editor.script.focus();
  });
  drag(element('bar'), (x) => document.body.style.setProperty('--text', x + 'px'));
  drag(element('grip'), (x) => {
    const { left, width } = element('sheet').getBoundingClientRect();
    document.body.style.setProperty('--script', clamp((100 * (x - left)) / width, 20, 90) + '%');
  });
}
// A bar between two parts, by the pointer or by the arrow keys.
const STEP = 24; // pixels of an arrow key
function drag(bar, moved) {
  const tell = () => {
    const { left } = bar.getBoundingClientRect();
    bar.setAttribute('aria-valuenow', Math.round((100 * left) / innerWidth));
  };
  function move(x) {
    moved(x);
    editor.resize();
    tell();
  }
  bar.onpointerdown = (event) => bar.setPointerCapture(event.pointerId);
  bar.onpointermove = (event) => {
    if (bar.hasPointerCapture(event.pointerId)) move(event.clientX);
  };
  bar.onkeydown = (event) => {
    const step = { ArrowLeft: -STEP, ArrowRight: STEP }[event.key];
    if (!step) return;
    event.preventDefault();
    move(bar.getBoundingClientRect().left + step);
  };
  tell();
}
const WAYS = {
  proved: 'The proved programs, compiled for the browser',
  tried: 'The programs, compiled for the browser of their sources before the proofs (by rt try)',
};
function showAbout() {
  const { cases, way, rows, rules, licence } = data.built;
  const kind = WAYS[way];
  const compared = cases ? `; compared with the native ones on ${spelled(cases)} cases` : '';
  element('honest').textContent = `${kind}${compared}.`;
  const cells = ([name, value]) => [
    make('th', { scope: 'row' }, name),
    make('td', {}, make('code', {}, value)),
  ];
  element('built').append(...rows.map((it) => make('tr', {}, cells(it))));
  element('rules').innerHTML = rules;
  element('licence').textContent = licence;
}
attach();
showAbout();
view(innerWidth > NARROW ? 'frames' : 'text');
openPlace();
first.started.catch((error) => say('The programs could not be started: ' + error.message, 'bad'));
