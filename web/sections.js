// Sections, their views, and stacks, as the script and its answers tell them.
// One entry: readSections(data). A use is a view or a stack: {pid, base, line, until, pages} and of
// a view {section, offset, isCopy}, of a stack {thread}.
function readSections({ lines }) {
  const [files, named, handles, sections, uses] = [new Map(), new Map(), new Map(), [], []];
  let area = 0; // control areas are numbered as they come: each file, each new section
  const handleOf = (pid, handle) => `${Number(pid)}.${Number(handle)}`;
  function newSection(name, pages, line) {
    sections.push({ area, name: name === '-' ? 'section ' + area : name, pages, line });
    area++;
    return sections.at(-1);
  }
  function hold(pid, name, [, handle, code], make) {
    const section = (code === '183' && named.get(name)) || make();
    if (name !== '-') named.set(name, section);
    handles.set(handleOf(pid, handle), section);
  }
  function view([pid, handle, access, offset, length], [, base], line) {
    const section = handles.get(handleOf(pid, handle));
    const pages = pagesIn(Number(length)) || (section?.pages ?? 0) - offset / PAGE;
    const more = { section, offset: offset / PAGE, isCopy: Number(access) === 1 };
    begin(pid, base, line, { pages, ...more });
  }
  function begin(pid, base, line, more) {
    uses.push({ pid: Number(pid), base: base / PAGE, line, until: Infinity, ...more });
  }
  function end(pid, address, line) {
    const at = Math.floor(address / PAGE);
    for (const use of uses) {
      const isMeant = address === undefined || (at >= use.base && at < use.base + use.pages);
      if (use.pid === Number(pid) && use.until > line && isMeant) use.until = line;
    }
  }
  const WORDS = {
    file: ([name, pages], answer, line) => files.set(name, newSection(name, Number(pages), line)),
    create: ([pid, size, , name], answer, line) =>
      hold(pid, name, answer, () => newSection(name, pagesIn(Number(size)), line)),
    createfile: ([pid, file, , name], answer) => hold(pid, name, answer, () => files.get(file)),
    open: ([pid, name], [, handle]) => handles.set(handleOf(pid, handle), named.get(name)),
    map: view,
    stack: ([thread, pid], [, base, size], line) =>
      begin(pid, base, line, { thread: Number(thread), pages: pagesIn(Number(size)) }),
    unmap: ([pid, address], answer, line) => end(pid, address, line),
    free: ([pid, address, , type], answer, line) =>
      Number(type) === 0x8000 && end(pid, address, line),
    exit: ([pid], answer, line) => end(pid, undefined, line),
  };
  for (const { number, text, answer } of lines) {
    const [word, ...rest] = text.split(' ');
    const isKnown = answer.startsWith('ok') && Object.hasOwn(WORDS, word);
    if (isKnown) WORDS[word](rest, answer.split(' '), number);
  }
  const bases = Map.groupBy(uses, ({ pid, base }) => idOf(pid, base));
  return {
    sections,
    handleAt: (pid, handle) => handles.get(handleOf(pid, handle)),
    // what is at an allocation's first page after a line
    useOf: (pid, base, line) => bases.get(idOf(pid, base))?.findLast((use) => use.line <= line),
    // the views of a section after a line
    viewsOf: (section, line) =>
      uses.filter((use) => use.section === section && use.line <= line && line < use.until),
    // the use that has a page, after a line
    useAt: (pid, page, line) =>
      uses.findLast((use) => {
        const isThere = use.pid === pid && page >= use.base && page < use.base + use.pages;
        return isThere && use.line <= line;
      }),
  };
}
const nameOfUse = (use) => (use?.section ? use.section.name : use ? 'stack ' + use.thread : '');
