// What the script tells beside the log: uses of pages, ages, threads that wait. The log has no
// move for a use of a page that is valid, nor for a thread that waits.
// Entries: readUses(data) notes in each place the lines that used it and in each line the process
// whose pages it aged; it gives the lines after which other threads wait, each with those threads
// in words. agesOf(data, process): how many pages of a working set have which age.
function readUses({ lines, places, hasAges }) {
  const pending = new Map(); // by the number of the thread
  const waits = [];
  const placeAt = (pid, address) => places.get(idOf(pid, Math.floor(address / PAGE)));
  const note = (place, { number }) => place?.uses.push(number);

  // A thread begins an access or goes on with it: it is done, waits or fails.
  function followThread(line, [word, name, process, ...access]) {
    if (line.answer === 'busy' || line.answer === 'error 6') return;
    const [thread, pid] = [Number(name), Number(process)];
    const text = `thread ${thread}: process ${pid}, ${access.join(' ')}`;
    if (word === 'begin') pending.set(thread, { pid, place: placeAt(pid, access[1]), text });
    const wait = pending.get(thread);
    if (wait && line.isOk) note(wait.place, line);
    if (wait) wait.answer = line.answer;
    if (!line.answer.startsWith('pending')) pending.delete(thread);
  }
  function endProcess(ended) {
    for (const [thread, { pid }] of pending) if (pid === ended) pending.delete(thread);
  }
  for (const line of hasAges ? lines.slice(1) : []) {
    const [word, first, address] = line.text.split(' ', 3);
    const isThread = word === 'begin' || word === 'resume';
    const pid = Number(first);
    if (isThread) followThread(line, line.text.split(' '));
    if (line.isOk) {
      if (word === 'read' || word === 'write' || word === 'exec') note(placeAt(pid, address), line);
      if (word === 'age') line.aged = pid;
      if (word === 'exit') endProcess(pid);
    }
    if (!isThread && word !== 'exit') continue;
    const threads = [...pending.values()].map(({ text, answer }) => `${text}, ${answer}`);
    waits.push({ line: line.number, threads });
  }
  return waits;
}

// The ages that are told apart, the youngest first: from an age up to the next. Of each, how many
// pages of the working set have it after each line.
const AGES = [0, 1, 2, 4, Infinity];
function agesOf({ places, lines, count }, { pid, aged }) {
  const ageLines = lines.filter((line) => line.aged === pid).map(({ number }) => number);
  const numbers = AGES.slice(1).map(() => new Int32Array(count + 2));
  // a page that nothing uses from a line up to another
  function rest(from, to) {
    const reached = (age) => (age ? (ageLines[aged[from] + age - 1] ?? Infinity) : from);
    numbers.forEach((some, at) => {
      const [first, end] = [reached(AGES[at]), Math.min(to, reached(AGES[at + 1]))];
      if (first >= end) return;
      some[first]++;
      some[end]--;
    });
  }
  for (const { moves, uses } of [...places.values()].filter((place) => place.pid === pid)) {
    moves.forEach(({ class: { word }, line }, at) => {
      if (word !== 'map') return;
      const end = moves[at + 1]?.line ?? count + 1;
      const first = firstAt(uses, (use) => use > line);
      const used = [line, ...uses.slice(first, firstAt(uses, (use) => use >= end)), end];
      for (let one = 1; one < used.length; one++) rest(used[one - 1], used[one]);
    });
  }
  for (const some of numbers) {
    for (let line = 1; line <= count; line++) some[line] += some[line - 1];
  }
  return numbers;
}
