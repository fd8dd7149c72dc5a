// Whether the observations are of the run that the log tells.
// One entry: findStrangers(page): what does not agree, in words, or ''.
const MOST_COMPARED = 8; // lines

function findStrangers({ data, survey, space }) {
  const { machine, count, lines } = data;
  const { numbers } = survey;
  const { spaces, isObserved, isStrange, charge, limit } = space;
  if (isStrange) return 'The observations are not of this run: they are of other processes.';

  // the pages of copies that are charged with their views: those marked, and those copied
  function chargedCopies(line) {
    let sum = 0;
    for (const one of spaces.filter(Boolean)) {
      for (const { from, to, stand } of one.after(line)) {
        const { type, state, protection, first } = stand;
        const isIn = ({ pid, page }) => pid === one.pid && page >= from && page < to;
        if (type !== MAPPED || state !== COMMITTED) continue;
        if ((protection | first) & COPY) sum += to - from;
        else sum += copies.filter((page) => isIn(page) && isLive(page, line)).length;
      }
    }
    return sum;
  }
  const copies = [...data.pages.values()].filter(({ isCopy }) => isCopy);
  function committedPrivate(line) {
    const regions = spaces.filter(Boolean).flatMap((one) => one.after(line));
    const isWanted = ({ stand: { type, state } }) => type === PRIVATE && state === COMMITTED;
    return regions.filter(isWanted).reduce((sum, { from, to }) => sum + to - from, 0);
  }
  const isInside = ({ pid, page }, line) => spaces[pid].standAt(page, line)?.state === COMMITTED;

  function complaint(line) {
    const { answer, text } = lines[line];
    const most = machine.frames + numbers.allSlots[line] - 2 * machine.depth - 2;
    if (charge) {
      if (limit[line] !== most) return `a limit of ${limit[line]}, where it is ${most}`;
      const said = text === 'charge' && answer.startsWith('ok') && Number(answer.split(' ')[1]);
      const isOther = said !== false && said !== charge[line];
      if (isOther) return `a charge of ${charge[line]}, not ${said}`;
    }
    if (!isObserved) return '';
    const valid = survey.stateAfter(line).sets.flat();
    if (!valid.every((one) => isInside(one, line))) return 'a valid page in no region';
    if (committedPrivate(line) !== numbers.privates[line]) return 'other private pages';
    const rest = charge && charge[line] - numbers.privates[line] - numbers.sections[line];
    return charge && rest !== chargedCopies(line) ? 'another charge of copies' : '';
  }
  if (!isObserved && !charge) return '';
  const said = lines.filter(({ text }) => text === 'charge').slice(0, MOST_COMPARED);
  const some = Array.from({ length: MOST_COMPARED }, (_, at) => Math.ceil((count * (at + 1)) / 8));
  for (const line of new Set([...some, ...said.map(({ number }) => number)])) {
    const found = complaint(line);
    const where = `The observations are not of this run: after line ${line} they have `;
    if (found) return where + found + '.';
  }
  return '';
}
