// What runs beside the page, so that it never waits: the programs, and the questions about a run.
// A request {id, ask, ..} is answered {id, ..}; the last `run` is kept for the questions about it.
const modules = {};
const bytesOf = (text) => new TextEncoder().encode(text);
const textOf = (bytes) => new TextDecoder().decode(bytes);
const linesOf = (text) => (text ? text.replace(/\n$/, '').split('\n') : []);
let last = null;

async function unpack(text) {
  const packed = Uint8Array.from(atob(text), (letter) => letter.charCodeAt(0));
  const plain = new Blob([packed]).stream().pipeThrough(new DecompressionStream('gzip'));
  return WebAssembly.compile(await new Response(plain).arrayBuffer());
}

// What mmnames makes of a script: the plain script, which written line each line is of, and what
// is wrong.
function translate(script) {
  const { status, out, err } = runProgram(modules.mmnames, ['lines'], bytesOf(script));
  const written = [0];
  const told = [];
  for (const line of linesOf(textOf(err))) {
    const found = /^# (\d+): line (\d+)$/.exec(line);
    if (found) written[found[1]] = Number(found[2]);
    else told.push(line);
  }
  return { status, plain: out, written, told };
}

// Faults of each line, as mmlog counts them: hard ones read a page, demand-zero ones are given a
// zeroed frame, soft ones make a page valid whose frame was neither given nor read since the line
// began.
function faultsOf(log) {
  const faults = { hard: [0], soft: [0], zero: [0] };
  const text = [''];
  let line = 0;
  let fresh = new Set();
  for (const move of linesOf(log)) {
    const [word, first] = move.split(' ', 2);
    if (word === 'at') {
      line = Number(first);
      fresh = new Set();
      faults.hard[line] = faults.soft[line] = faults.zero[line] = 0;
      text[line] = '';
      continue;
    }
    text[line] += move + '\n';
    if (word === 'give' || word === 'got') fresh.add(first);
    if (word === 'read') faults.hard[line] += 1;
    if (word === 'give') faults.zero[line] += 1;
    if (word === 'map' && !fresh.has(first)) faults.soft[line] += 1;
  }
  return { faults, text };
}

// The same script on another machine: its first line and its `process` lines are rewritten.
function onMachine(plain, { frames, slots, least, most }) {
  return textOf(plain)
    .replace(/^machine \d+ \d+ (\d+ \d+)/, `machine ${frames} ${slots} $1`)
    .replace(/^process (\d+) (\d+)$/gm, (line, min, max) => {
      const top = most ?? Number(max);
      return `process ${Math.min(least ?? Number(min), top)} ${top}`;
    });
}

const ASKS = {
  run({ script, wantsPage }) {
    const times = [performance.now()];
    const { status, plain, written, told } = translate(script);
    times.push(performance.now());
    last = null;
    if (status) return { status, told, written };
    const run = runProgram(modules.mmsim, ['run'], plain);
    times.push(performance.now());
    last = { plain, answers: run.out, log: run.err };
    const page = wantsPage ? ASKS.page({}) : {};
    times.push(performance.now());
    const took = times.slice(1).map((time, i) => time - times[i]);
    const answers = textOf(run.out);
    return { ...page, status: run.status, told, written: Int32Array.from(written), answers, took };
  },
  page() {
    const files = { script: last.plain, answers: last.answers };
    const words = ['html', 'script', 'answers'];
    const { status, out } = runProgram(modules.mmshow, words, last.log, files);
    return { page: status ? '' : textOf(out), pageStatus: status };
  },
  // The moves of one line, in words.
  tell({ line }) {
    if (!last.told) {
      const files = { script: last.plain, answers: last.answers };
      const { out } = runProgram(modules.mmshow, ['tell', 'script', 'answers'], last.log, files);
      last.told = [];
      for (const words of linesOf(textOf(out))) {
        if (words[0] !== ' ') last.told.push([]);
        else last.told[last.told.length - 1]?.push(words.trim());
      }
    }
    return { moves: last.told[line - 1] ?? [] };
  },
  // The parts of a run, as files.
  files() {
    return { plain: textOf(last.plain), answers: textOf(last.answers), log: textOf(last.log) };
  },
  // The address spaces and the charge behind a line. The program itself is asked: `query` and
  // `charge` lines change nothing, and when it wants more of the script the answers so far were
  // written.
  spaces({ line }) {
    const head = linesOf(textOf(last.plain)).slice(0, line);
    const asked = askSpaces(head.map((text) => text.split(' ')), linesOf(textOf(last.answers)));
    let question = { value: head.join('\n') + '\n' };
    let seen = 0;
    function more(written) {
      if (written.length || seen) {
        const answer = linesOf(textOf(joined(written))).slice(-1)[0];
        question = seen++ ? asked.next(answer) : asked.next();
        if (question.done) return new Uint8Array(0);
        return bytesOf(question.value + '\n');
      }
      return bytesOf(question.value);
    }
    const { status } = runProgram(modules.mmsim, ['run'], more);
    const state = runProgram(modules.mmshow, ['state', String(line)], last.log);
    return { ...(question.value ?? {}), line, status, state: textOf(state.out) };
  },
  // The same script on another machine: what its lines answer, and the faults of each.
  compare({ machine }) {
    const plain = onMachine(last.plain, machine);
    const other = runProgram(modules.mmsim, ['run'], bytesOf(plain));
    last.faults ??= faultsOf(textOf(last.log));
    const { faults, text } = faultsOf(textOf(other.err));
    const mine = last.faults;
    const moved = mine.text.findIndex((moves, line) => line > 1 && moves !== text[line]);
    const answers = textOf(other.out);
    return { status: other.status, answers, mine: mine.faults, other: faults, moved };
  },
  // Sums of one machine, for a sweep.
  sums({ machine }) {
    const run = runProgram(modules.mmsim, ['run'], bytesOf(onMachine(last.plain, machine)));
    const { hard, soft, zero } = faultsOf(textOf(run.err)).faults;
    const sum = (list) => list.reduce((a, b) => a + b, 0);
    const answers = linesOf(textOf(run.out));
    const refused = answers.filter((answer) => !answer.startsWith('ok')).length;
    return { status: run.status, hard: sum(hard), soft: sum(soft), zero: sum(zero), refused };
  },
  // (the second worker is given the run of the first)
  take({ run }) {
    last = run;
    return {};
  },
  hand() {
    return { run: last && { plain: last.plain, answers: last.answers, log: last.log } };
  },
};

// Walks each living process by `query`, and asks for the charge at the end.
function* askSpaces(lines, answers) {
  const alive = new Set();
  lines.forEach(([word, pid], at) => {
    const answer = answers[at] ?? '';
    if (word === 'process' && answer.startsWith('ok ')) alive.add(Number(answer.slice(3)));
    if (word === 'exit' && answer === 'ok') alive.delete(Number(pid));
  });
  const processes = [];
  for (const pid of alive) {
    const regions = [];
    let address = 0x10000;
    while (address < 0x7fff0000) {
      const answer = yield `query ${pid} 0x${address.toString(16)}`;
      const numbers = answer.split(' ').slice(1).map(Number);
      if (numbers.length !== 7) break;
      const [base, allocation, allocationProtection, size, state, protection, type] = numbers;
      regions.push({ base, allocation, allocationProtection, size, state, protection, type });
      address = base + size;
    }
    processes.push({ pid, regions });
  }
  const [charge, limit] = (yield 'charge').split(' ').slice(1).map(Number);
  return { processes, charge, limit };
}

let ready = null;
async function take({ texts, compiled }) {
  for (const [name, text] of Object.entries(texts))
    modules[name] = compiled?.[name] ?? (await unpack(text));
  return { modules };
}
onmessage = async ({ data }) => {
  const { id, ask } = data;
  try {
    if (ask === 'start') postMessage({ id, ...(await (ready = take(data))) });
    else {
      await ready;
      postMessage({ id, ...ASKS[ask](data) });
    }
  } catch (error) {
    postMessage({ id, failed: String(error) });
  }
};
