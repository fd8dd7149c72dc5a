// The commit charge: what it is made of, and why a call was refused for want of commitment.
// One entry: makeCharge(page).
function makeCharge({ data, survey, space: { spaces, charge, limit }, sections }) {
  const { privates, sections: shared } = survey.numbers;
  // private pages, those of page-file sections, and the rest: copy views
  const partsAfter = (line) => {
    const [own, sections] = [privates[line], shared[line]];
    return [own, sections, Math.max(0, charge[line] - own - sections)];
  };
  // The pages from an address on for which something does not hold yet.
  function without({ pid, number }, address, size, isThere) {
    const [from, to] = [Math.floor(address / PAGE), pagesIn(Number(address) + Number(size))];
    const regions = spaces[pid]?.after(number - 1).filter(({ stand }) => isThere(stand)) ?? [];
    const inside = (one) => Math.max(0, Math.min(to, one.to) - Math.max(from, one.from));
    return regions.reduce((rest, one) => rest - inside(one), to - from);
  }
  const ASKED = {
    alloc: (line, address, size) =>
      Number(address)
        ? without(line, address, size, ({ state }) => state === COMMITTED)
        : pagesIn(Number(size)),
    create: (line, size) => pagesIn(Number(size)),
    map({ pid }, handle, access, offset, length) {
      const pages = sections.handleAt(pid, handle)?.pages;
      return pagesIn(Number(length)) || pages - offset / PAGE;
    },
    protect: (line, address, size, protection) =>
      protection & COPY && without(line, address, size, (stand) => stand.protection & COPY),
    probe: () => 1,
    stack: (line, first, reserve, commit) => pagesIn(Number(commit)) + 1,
  };
  // The sum of a refusal: {charged, asked, most}, the second in words.
  function refusal({ number, text, answer }) {
    if (answer !== 'error 1455' || !charge) return null;
    const [charged, most] = [charge[number - 1], limit[number - 1]];
    const [word, pid, ...rest] = text.split(' ');
    const asked = ASKED[word]?.({ number, pid: Number(pid) }, ...rest);
    const isRight = asked > 0 && charged + asked > most;
    const more = 'more than ' + spelled(most - charged);
    return { charged, most, asked: isRight ? spelled(asked) : more };
  }
  const refusals = data.lines.flatMap((line) => {
    const sum = refusal(line);
    return sum ? [{ line: line.number, ...sum }] : [];
  });
  return { partsAfter, refusals, refusalAt: (line) => refusals.find((one) => one.line === line) };
}
