// The replay: what the moves do to page frames, pages and places.
// One entry: replay(data). It completes the moves, and gives what is counted, after each line.

// The states of a page frame; the first four are lists as well.
const STATES = ['zeroed', 'free', 'standby', 'modified', 'active', 'being read', 'being written'];
const [ZEROED, FREE, STANDBY, MODIFIED, ACTIVE, READING, WRITING] = STATES.keys();
const LISTS = [ZEROED, FREE, STANDBY, MODIFIED];
const REQUESTS = ['no I/O', 'being read', 'being written', 'being written, changed since'];
const [NO_REQUEST, READ, WRITE, WRITE_AGAIN] = REQUESTS.keys();
const isSlot = (home) => home.startsWith('slot');

function replay({ machine, frames, processes, lines, moves, count }) {
  const columns = [];
  const column = () => columns[columns.push(new Int32Array(count + 1)) - 1];
  // by the names of COUNTS, and what else is counted; slots are the free ones
  const names = [...COUNTS, ...TRACKS.map(({ group }) => group), 'allSlots', 'moves'];
  names.push('committed', 'privates', 'sections');
  const numbers = Object.fromEntries(names.map((name) => [name, column()]));
  // of each process its places, and how often they were aged
  for (const process of processes.filter(Boolean)) {
    Object.assign(process, { sizes: column(), aged: column(), faults: [], hard: [] });
  }
  // by state; the two last are transition
  const lengths = STATES.map((_, state) => numbers[COUNTS[Math.min(state, READING)]]);
  numbers.free[0] = machine.frames;
  numbers.slots[0] = numbers.allSlots[0] = machine.slots;
  let [line, next, clock] = [0, 0, frames.length];

  // What each move does, by its word. It begins with how its page frame stood before.
  const MOVES = {
    add: (move) => commit(move.page, 1),
    addfile: () => {},
    drop(move) {
      if (!move.page.isFile) commit(move.page, -1);
      if (!move.frame) dropSlot(move.home);
      else if (move.request) move.owner = null;
      else forget(move);
    },
    clear: (move) => join(move, ZEROED),
    steal: free,
    give: (move) => join(own(move, move.page, true, ''), MODIFIED),
    read: (move) => beginRequest(own(move, move.page, false, move.home), READ),
    got: (move) => endRequest(move, settle),
    bad: (move) => endRequest(move, free),
    map: (move) => share(move, 1),
    unmap: (move) => share(move, -1),
    soil(move) {
      if (move.request) move.request = WRITE_AGAIN;
      else differ(move);
    },
    write(move) {
      move.backing = move.home;
      if (isSlot(move.home)) numbers.slots[line]--;
      beginRequest(move, WRITE);
    },
    wrote(move) {
      if (move.request === WRITE) move.isChanged = false;
      else differ(move);
      endRequest(move, settle);
    },
    lost: (move) => endRequest(differ(move), settle),
  };

  // ---- what moves are made of
  // Private pages that a call committed, and those of page-file sections. A page that comes to be
  // in an access is a copy, and charged with its view.
  function commit(page, more) {
    numbers.committed[line] += more;
    if (more > 0) page.isCopy = page.pid > 0 && /access|thread/.test(lines[line].kind);
    if (!page.isCopy) numbers[page.pid ? 'privates' : 'sections'][line] += more;
  }
  function own(move, owner, isChanged, backing) {
    move.owner = owner;
    move.isChanged = isChanged;
    move.backing = backing;
    return move;
  }
  function join(move, state) {
    move.state = state;
    move.since = clock++;
  }
  function free(move) {
    join(own(move, null, false, ''), FREE);
  }
  // The page was deleted: what it had is free.
  function forget(move) {
    dropSlot(move.backing);
    free(move);
  }
  function dropSlot(home) {
    if (isSlot(home)) numbers.slots[line]++;
  }
  // The page is not what its slot has, which is free; a file's block stays its home.
  function differ(move) {
    dropSlot(move.backing);
    return own(move, move.owner, true, isSlot(move.backing) ? '' : move.backing);
  }
  function share(move, more) {
    move.shares += more;
    processes[move.place.pid].sizes[line] += more;
    settle(move);
  }
  function beginRequest(move, request) {
    move.request = request;
    move.since = clock++;
    numbers.requests[line]++;
    settle(move);
  }
  // A page frame whose page was deleted meanwhile is free.
  function endRequest(move, goOn) {
    move.request = NO_REQUEST;
    numbers.requests[line]--;
    if (move.owner) goOn(move);
    else forget(move);
  }
  // A page frame that nothing holds goes to the list of its page.
  function settle(move) {
    if (move.shares) move.state = ACTIVE;
    else if (move.request) move.state = move.request === READ ? READING : WRITING;
    else join(move, move.isChanged ? MODIFIED : STANDBY);
  }

  // Makes a move, by its word alone: the class only says what it means. What the move does not
  // name (the page frame, the page and its home) is noted in it.
  function make(move) {
    const { page, place } = move;
    const { word, group } = move.class;
    if (word === 'unmap') move.frame = place.now.frame;
    if (word === 'drop' && page.now.owner) move.frame = page.now.frame;
    if (word === 'read' || (word === 'drop' && !move.frame)) move.home = page.now.home;
    if (move.frame) {
      move.beginAs(move.frame.now);
      move.page ??= move.owner;
      move.home ||= move.backing;
    }
    MOVES[word](move);
    move.frame?.moves.push(move);
    move.page?.moves.push(move);
    place?.moves.push(move);
    numbers.moves[line]++;
    if (group in numbers) numbers[group][line]++;
    if (FAULTS.some((fault) => fault.group === group)) {
      const process = processes[lines[line].values[0]];
      process.faults.push(line);
      if (group === 'hard') process.hard.push(line);
    }
    if (!move.frame) return;
    lengths[move.was][line]--;
    lengths[move.state][line]++;
  }
  for (const { number, kind, values, isOk, aged } of lines.slice(1)) {
    line = number;
    for (const one of columns) one[line] = one[line - 1];
    if (kind === 'grow') numbers.allSlots[line] += values[0];
    if (kind === 'grow') numbers.slots[line] += values[0];
    while (moves[next]?.line === line) make(moves[next++]);
    if (aged) processes[aged].aged[line]++;
    if (!isOk) numbers.refused[line]++;
  }
  return numbers;
}
