// The data: the lines of the log with their moves, and beside them the script and its answers.
// One entry: readData(). The words of the classes are data too, written by the program that
// wrote the moves, so that they stand in one place alone.

// Which moves name what. Where one names several they are written in this order.
const OPERANDS = {
  frame: 'clear steal give read got bad map soil write wrote lost',
  page: 'add addfile drop give read',
  place: 'map unmap',
  home: 'write addfile',
};
// The kinds of a line: the letter, the word of the log, how many numbers follow.
const KINDS =
  'M machine 4, P process 3, N grow 1, a access 1, t thread 1, r trim 1, u unbind 1, ' +
  'w writer 0, z zeroer 0, i io 0, c call 0';
// The counts after every 64th line, in their order.
const COUNTS = 'zeroed free standby modified active transition slots requests'.split(' ');

// A move: its page frame, page and place, and where the page's bytes are or go (a slot or a
// block). The replay adds what is not written, and how the page frame stands after the move: so
// the moves of a page frame are its history, and nothing else has to be kept of it.
class Move {
  constructor(found, line, frame, page, place, home) {
    this.class = found;
    this.line = line;
    this.frame = frame;
    this.page = page;
    this.place = place;
    this.home = home;
    this.was = this.state = FREE;
    this.since = 0; // rises in the order in which page frames come to lists and requests
    this.owner = null; // the page that it has
    this.isChanged = false;
    this.backing = ''; // where its bytes are or go
    this.shares = 0; // in how many places it is valid
    this.request = NO_REQUEST;
  }
  beginAs(before) {
    this.was = this.state = before.state;
    this.since = before.since;
    this.owner = before.owner;
    this.isChanged = before.isChanged;
    this.backing = before.backing;
    this.shares = before.shares;
    this.request = before.request;
  }
}

// A page frame, a page or a place, with its moves in order. How it stands its last move tells.
class Thing {
  constructor(id, name, more) {
    Object.assign(this, { id, name, start: null, moves: [], ...more });
  }
  get now() {
    return this.moves.at(-1) ?? this.start;
  }
  after(line) {
    const { now } = this;
    if (!now || now.line <= line) return now;
    return this.moves[this.countUpTo(line) - 1] ?? this.start;
  }
  countUpTo(line) {
    return firstAt(this.moves, (move) => move.line > line);
  }
}
function newFrame(_, id) {
  const frame = new Thing(id, id);
  frame.start = new Move(null, 0, frame, null, null, '');
  frame.start.since = id;
  return frame;
}
function newPage(id, first, page) {
  const owner = Math.floor(first / 2);
  const [letter, pid] = first % 2 ? ['s', 0] : ['p', owner];
  return new Thing(id, `${letter}${owner}.${page}`, { pid, area: owner, page, isFile: false });
}
const newPlace = (id, pid, page) => new Thing(id, `${pid}.${page}`, { pid, page, uses: [] });
// Of what two numbers name: the first is below 2 ** 20, the second below 2 ** 32.
const idOf = (first, second) => first * 2 ** 32 + second;
const nameOfHome = (number) => (number % 2 ? 'block ' : 'slot ') + Math.floor(number / 2);

// By the letter of its code: the move that a class is of, what that names, its group and sentence.
function readClasses(text) {
  const classes = {};
  for (const row of text.split('\n').filter(Boolean)) {
    const [code, word, group, ...sentence] = row.split(' ');
    classes[code] = { word, group, sentence: sentence.join(' ') };
    for (const name in OPERANDS) classes[code][name] = OPERANDS[name].split(' ').includes(word);
  }
  return classes;
}

// Letters, and numbers to the base 32, the low digit first: a digit is a byte from 63 on, and 32
// more in it say that another follows.
class Reader {
  constructor(text) {
    this.text = text;
    this.at = 0;
  }
  get hasMore() {
    return this.at < this.text.length;
  }
  letter() {
    return this.text[this.at++];
  }
  number() {
    for (let value = 0, unit = 1; ; unit *= 32) {
      const digit = this.text.charCodeAt(this.at++) - 63;
      if (!(digit >= 0 && digit < 64)) throw new Error(`byte ${this.at} is no digit`);
      value += (digit & 31) * unit;
      if (digit < 32) return value;
    }
  }
  numbers(count) {
    return Array.from({ length: count }, () => this.number());
  }
  // up to the end of a line
  row() {
    const from = this.at;
    this.at = this.text.indexOf('\n', from) + 1 || this.text.length + 1;
    return this.text.slice(from, this.at - 1);
  }
  // Hexadecimal digits: two bytes from 61 on are a number to the base 66, of three digits where it
  // is below 4096, else of the last two. The last one is a byte from 39 on; `!`: none is left.
  digits() {
    for (let digits = ''; ; ) {
      const byte = this.text.charCodeAt(this.at++);
      if (byte < 61) return byte < 39 ? digits : digits + spelledDigits(byte - 39, 1);
      const pair = (byte - 61) * 66 + this.text.charCodeAt(this.at++) - 61;
      if (!(pair < 4096)) return digits + spelledDigits(pair - 4096, 2);
      digits += spelledDigits(pair, 3);
    }
  }
}
const spelledDigits = (value, count) => value.toString(16).toUpperCase().padStart(count, '0');

// An access begins with a letter, A to J for a read of the processes 0 to 9 and K to T for a write.
// Any other line stands as it is; behind a tab where it begins with such a letter.
function readScriptRow(reader) {
  const first = reader.letter();
  if (first === '\t') return reader.row();
  const place = first.charCodeAt(0) - 65;
  if (place >= 0 && place < 20) {
    const word = place < 10 ? 'read' : 'write';
    return `${word} ${place % 10} 0x${reader.digits()} ${reader.digits()}`;
  }
  reader.at--;
  return reader.row();
}
// The digits of `ok DIGITS`; what stands behind any other `ok`; behind a tab any other answer.
function readAnswerRow(reader) {
  const first = reader.letter();
  if (first === '\t') return reader.row();
  reader.at--;
  return first === ' ' || first === '\n' ? 'ok' + reader.row() : 'ok ' + reader.digits();
}
function readRows(text, readRow) {
  const [rows, reader] = [[], new Reader(text)];
  while (reader.hasMore) rows.push(readRow(reader));
  return rows;
}

function readLog(reader, classes, script, answers) {
  // line 0 stands for the start, so that a line's number is its place
  const lines = [{ number: 0, text: '', answer: '', isOk: true }];
  const [moves, processes, pages, places] = [[], [], new Map(), new Map()];
  const log = { lines, moves, processes, pages, places, frames: [], machine: {} };
  const kinds = Object.fromEntries(KINDS.split(', ').map((kind) => [kind[0], kind.split(' ')]));

  function named(things, make) {
    const [first, second] = [reader.number(), reader.number()];
    const id = idOf(first, second);
    let thing = things.get(id);
    if (!thing) things.set(id, (thing = make(id, first, second)));
    return thing;
  }
  function readLine([, kind, count]) {
    const values = reader.numbers(count);
    const line = lines.length;
    const text = script[line - 1] ?? [kind, ...values].join(' ');
    const answer = answers[line - 1] ?? '';
    // that no request is in flight is no failure
    const isOk = !answer || answer.startsWith('ok') || (kind === 'io' && answer === 'none');
    lines.push({ number: line, kind, values, text, answer, isOk, aged: 0, counts: null });
    const [first, second, third, blocks] = values;
    if (kind === 'machine') {
      log.machine = { frames: first, slots: second, depth: third, blocks };
      log.frames = Array.from({ length: first }, newFrame);
    }
    if (kind === 'process') processes[first] = { pid: first, min: second, max: third, line };
  }
  function readMove(found) {
    const frame = found.frame ? log.frames[reader.number()] : null;
    const page = found.page ? named(pages, newPage) : null;
    const place = found.place ? named(places, newPlace) : null;
    const isFile = found.word === 'addfile'; // whose number is a block's, never a slot's
    if (isFile) page.isFile = true;
    const home = found.home ? nameOfHome((isFile ? 2 : 1) * reader.number() + isFile) : '';
    moves.push(new Move(found, lines.length - 1, frame, page, place, home));
  }
  while (reader.hasMore) {
    const letter = reader.letter();
    if (letter === '=') lines.at(-1).counts = reader.numbers(COUNTS.length);
    else if (letter !== '\n') readMove(classes[letter]);
    else if (reader.hasMore) readLine(kinds[reader.letter()]);
  }
  return log;
}

const textOf = (name) => element('data-' + name).textContent;

function readData() {
  const script = readRows(textOf('script'), readScriptRow);
  const answers = readRows(textOf('answers'), readAnswerRow);
  const log = readLog(new Reader(textOf('moves')), readClasses(textOf('classes')), script, answers);
  const count = log.lines.length - 1;
  const name = textOf('name').trim().split(/[/\\]/).pop();
  const hasAges = script.length >= count && answers.length >= count;
  // the line at which the run ended before its script did, and what was said of it
  const early = { line: count + 1, text: script[count], answer: answers[count] ?? '' };
  return { ...log, count, name, hasAges, early: script.length > count ? early : null };
}
