// The script's words: what they are called, which arguments they take, what their numbers mean.
const CALLS = {
  VirtualAlloc: 'alloc',
  VirtualFree: 'free',
  VirtualProtect: 'protect',
  VirtualQuery: 'query',
  CreateFileMapping: 'create',
  OpenFileMapping: 'open',
  CloseHandle: 'close',
  MapViewOfFile: 'map',
  UnmapViewOfFile: 'unmap',
  FlushViewOfFile: 'flush',
  GetWriteWatch: 'watch',
  ResetWriteWatch: 'resetwatch',
  ExitProcess: 'exit',
};
// Other spellings of the calls, as mmnames takes them.
const SPELLINGS = {
  VirtualAllocEx: 'alloc',
  VirtualFreeEx: 'free',
  VirtualProtectEx: 'protect',
  VirtualQueryEx: 'query',
  CreateFileMappingA: 'create',
  CreateFileMappingW: 'create',
  OpenFileMappingA: 'open',
  OpenFileMappingW: 'open',
  MapViewOfFileEx: 'map',
};
const PAGE_NAMES = {
  PAGE_NOACCESS: 0x01,
  PAGE_READONLY: 0x02,
  PAGE_READWRITE: 0x04,
  PAGE_WRITECOPY: 0x08,
  PAGE_EXECUTE: 0x10,
  PAGE_EXECUTE_READ: 0x20,
  PAGE_EXECUTE_READWRITE: 0x40,
  PAGE_EXECUTE_WRITECOPY: 0x80,
  PAGE_GUARD: 0x100,
};
const NAMES = {
  alloc: { MEM_COMMIT: 0x1000, MEM_RESERVE: 0x2000, MEM_WRITE_WATCH: 0x200000 },
  free: { MEM_DECOMMIT: 0x4000, MEM_RELEASE: 0x8000 },
  page: PAGE_NAMES,
  section: { SEC_RESERVE: 0x4000000, SEC_COMMIT: 0x8000000 },
  view: { FILE_MAP_COPY: 1, FILE_MAP_WRITE: 2, FILE_MAP_READ: 4, FILE_MAP_ALL_ACCESS: 0xf001f },
  watch: { WRITE_WATCH_FLAG_RESET: 1 },
  state: { MEM_COMMIT: 0x1000, MEM_RESERVE: 0x2000, MEM_FREE: 0x10000 },
  type: { MEM_PRIVATE: 0x20000, MEM_MAPPED: 0x40000 },
};
// Which of Windows' names an argument may have, by the keyword and the argument's name in the
// rules.
const NAMES_OF = {
  alloc: { type: ['alloc'], prot: ['page'] },
  free: { type: ['free'] },
  protect: { prot: ['page'] },
  create: { flags: ['page', 'section'] },
  createfile: { flags: ['page', 'section'] },
  map: { access: ['view'] },
  watch: { flag: ['watch'] },
};
const ERRORS = {
  2: 'ERROR_FILE_NOT_FOUND',
  5: 'ERROR_ACCESS_DENIED',
  6: 'ERROR_INVALID_HANDLE',
  87: 'ERROR_INVALID_PARAMETER',
  183: 'ERROR_ALREADY_EXISTS',
  487: 'ERROR_INVALID_ADDRESS',
  1132: 'ERROR_MAPPED_ALIGNMENT',
  1455: 'ERROR_COMMITMENT_LIMIT',
  '0x80000001': 'STATUS_GUARD_PAGE_VIOLATION',
  '0xC0000005': 'STATUS_ACCESS_VIOLATION',
  '0xC0000006': 'STATUS_IN_PAGE_ERROR',
  '0xC00000FD': 'STATUS_STACK_OVERFLOW',
};
const MEANINGS = {
  'pending read': 'the thread waits: its page is being read',
  'pending frame': 'the thread waits: no page frame is left',
  'pending full': 'the thread waits: as many requests are in flight as the machine takes',
  fault: 'a device call failed',
  'io none': 'not so many requests are in flight',
  'resume none': 'the thread waits for nothing',
  'probe none': 'the thread has no stack',
  'begin busy': 'the thread waits already',
  'stack busy': 'the thread has a stack already',
  'process full': 'there were 64 processes',
  'file full': 'fewer blocks are left',
  'fail full': 'there were 64 such lines',
  'grow full': 'a paging file has at most 262,144 slots',
};
const ALL_NAMES = new Set(Object.values(NAMES).flatMap(Object.keys));
ALL_NAMES.delete('MEM_FREE');
['MEM_PRIVATE', 'MEM_MAPPED'].forEach((name) => ALL_NAMES.delete(name));
const CALL_OF = Object.fromEntries(Object.entries(CALLS).map(([call, word]) => [word, call]));

// A keyword's arguments, from the rules: 'alloc <pid> <addr>' gives ['pid', 'addr'].
const formsOf = (word) => data.help.forms[word] ?? [];
const KEYWORDS = new Map([
  ...Object.keys(data.help.forms).map((word) => [word, word]),
  ...Object.entries({ ...CALLS, ...SPELLINGS }).map(([call, word]) => [call.toLowerCase(), word]),
]);
const keywordOf = (word) => KEYWORDS.get(word.toLowerCase()) ?? null;

function sizeOf(bytes) {
  if (bytes && bytes % 2 ** 20 === 0) return bytes / 2 ** 20 + ' M';
  return bytes % 1024 === 0 ? bytes / 1024 + ' K' : bytes + ' bytes';
}
const hex = (value) => '0x' + value.toString(16).toUpperCase();
function bitsOf(value, names) {
  const exact = Object.keys(names).find((name) => names[name] === value);
  if (exact) return exact;
  const parts = Object.keys(names).filter((name) => value & names[name]);
  const sum = parts.reduce((all, name) => all | names[name], 0);
  return parts.length && sum === value ? parts.join(' | ') : hex(value);
}
const protectionOf = (value) => (value ? bitsOf(value, PAGE_NAMES) : 'no protection');

// What an answer's numbers mean, in Windows' names: short, to stand behind it.
function meaningOf(keyword, answer) {
  const words = answer.split(' ');
  if (words[0] === 'error' || words[0] === 'raise') return ERRORS[words[1]] ?? '';
  const meaning = MEANINGS[answer] ?? MEANINGS[`${keyword} ${answer}`];
  if (meaning) return meaning;
  if (words[0] !== 'ok') return '';
  const numbers = words.slice(1).map(Number);
  if (keyword === 'protect') return 'was ' + protectionOf(numbers[0]);
  if (keyword === 'query') {
    const [, , , size, state, protection, type] = numbers;
    const kind = type ? ', ' + bitsOf(type, NAMES.type) : '';
    return `${bitsOf(state, NAMES.state)}, ${sizeOf(size)}, ${protectionOf(protection)}${kind}`;
  }
  if (keyword === 'charge') return `${numbers[0]} of ${numbers[1]} pages are charged`;
  if (keyword === 'machine' || keyword === 'grow') return `commit limit: ${numbers[0]} pages`;
  if (keyword === 'process') return `process ${numbers[0]}`;
  const again = numbers[1] ? ', ' + ERRORS[183] : '';
  if (/^create/.test(keyword)) return `handle ${numbers[0]}${again}`;
  if (keyword === 'open') return `handle ${numbers[0]}`;
  if (keyword === 'counts') return countsOf(numbers);
  return /read/.test(keyword) && words[1] ? textIn(words[1]) : '';
}
// An answer as it stands beside its line: numbers that words behind it tell are left out of it.
function shortOf(keyword, answer) {
  const words = answer.split(' ');
  return { query: words.slice(0, 2), counts: words.slice(0, 1) }[keyword]?.join(' ') ?? answer;
}
const COUNTED = 'zeroed,free,standby,modified,active,in transition,free slots,requests'.split(',');
function countsOf(numbers) {
  return numbers.map((count, i) => `${count} ${COUNTED[i]}`).join(', ');
}
// Bytes that are all printable, as text.
function textIn(digits) {
  const codes = digits.match(/../g).map((pair) => parseInt(pair, 16));
  const shown = codes.slice(0, codes.findLastIndex((code) => code) + 1);
  if (shown.length < 2 || shown.some((code) => code < 32 || code > 126)) return '';
  return JSON.stringify(String.fromCharCode(...shown));
}
// Windows' names of an answer that is refused, alone: what mmshow has in brackets behind it.
const refusalOf = (answer) => ERRORS[/^(?:error|raise) (.*)/.exec(answer)?.[1]] ?? '';

// ---- colours
// One line of a script: its comment, texts, numbers, words; the first word is a call or a keyword.
function scriptMode() {
  const word = /^[A-Za-z_][\w.-]*/;
  function wordStyle(stream, state, text) {
    const isFirst = !state.isBehind;
    state.isBehind = true;
    if (isFirst && text.toLowerCase() === 'let') return 'keyword';
    if (isFirst && data.help.forms[text.toLowerCase()]) return 'keyword';
    if (isFirst) return keywordOf(text) && 'call';
    if (ALL_NAMES.has(text)) return 'windows-name';
    return /^(paging|file|read|write)$/.test(text) ? 'keyword' : 'variable';
  }
  function token(stream, state) {
    if (stream.sol()) state.isBehind = false;
    if (stream.eatWhile(/[\s,()]/)) return null;
    if (stream.match(/^(#|;|\/\/).*/)) return 'comment';
    if (stream.match(/^"[^"]*"?/)) return 'string';
    if (stream.match(/^(0x[0-9A-F]+|\d+)([kmg]b?)?(?!\w)/i)) return 'number';
    const found = stream.match(word);
    if (found) return wordStyle(stream, state, found[0]);
    stream.match(/^[0-9A-Fa-f]+/) || stream.next();
    return null;
  }
  return { token, startState: () => ({ isBehind: false }) };
}
// An answer: how it went, and behind two spaces what it means.
function answerMode() {
  const styles = [
    [/^ok\b|^yes\b/, 'good'],
    [/^(error|raise|fault)\b/, 'refused'],
    [/^\u2717.*/, 'mistake'],
    [/^\u26a0.*/, 'warned'],
    [/^ {2}.*/, 'meaning'],
  ];
  function token(stream) {
    for (const [pattern, style] of styles) if (stream.match(pattern)) return style;
    stream.next();
    return null;
  }
  return { token };
}

// ---- the place of the cursor: which word of which form
function placeIn(line, column) {
  const before = line.slice(0, column);
  if (/#|;|\/\//.test(before.replace(/"[^"]*"/g, ''))) return null;
  const words = before.split(/[\s,()]+/).filter((word, i, all) => word || i === all.length - 1);
  const first = (line.match(/[A-Za-z]+/) ?? [''])[0];
  // (terms that are joined by + | * << or - are one argument)
  let at = 0;
  let isJoined = false;
  for (const word of words.slice(1)) {
    if (!isJoined && !/^([+|*]|<<|-$)/.test(word)) at += 1;
    isJoined = /([+|*]|<<)$|^-$/.test(word);
  }
  const keyword = keywordOf(first);
  const [typed] = before.match(/[A-Za-z_][\w]*$/) ?? [''];
  return { keyword, first, at, typed, isFirst: words.length < 2 };
}

// What may stand at the cursor, each with a text that says what it is.
function suggestions(line, column, whole) {
  const place = placeIn(line, column);
  if (!place) return { list: [], from: column };
  const from = column - place.typed.length;
  const begins = (name) => name.toLowerCase().startsWith(place.typed.toLowerCase());
  const list = place.isFirst ? firstWords() : argumentWords(place, whole);
  return { list: list.filter(({ text: name }) => begins(name) && name !== place.typed), from };
}
function firstWords() {
  const shown = (word, keyword) => ({
    text: word,
    displayText: `${word} ${formsOf(keyword).join(', ')}`,
    keyword,
  });
  const calls = Object.entries(CALLS).map(([call, keyword]) => shown(call, keyword));
  const own = Object.keys(data.help.forms).filter((word) => !CALL_OF[word]);
  const short = Object.keys(data.help.forms).filter((word) => CALL_OF[word]);
  const rest = [...own, ...short].map((word) => shown(word, word));
  return [...calls, ...rest, { text: 'let', displayText: 'let NAME = NUMBER' }];
}
function argumentWords({ keyword, at }, whole) {
  const argument = formsOf(keyword)[at - 1] ?? '';
  const found = [];
  for (const kind of NAMES_OF[keyword]?.[argument] ?? [])
    for (const [name, value] of Object.entries(NAMES[kind]))
      found.push({ text: name, displayText: `${name}  ${hex(value)}` });
  for (const [, name] of whole.matchAll(/^\s*let\s+(\w+)/gm)) found.push({ text: name });
  if (/name/.test(argument))
    for (const [, name] of whole.matchAll(/^\s*(?:file\s+(\w+))/gm)) found.push({ text: name });
  const seen = new Set();
  return found.filter(({ text }) => !seen.has(text) && seen.add(text));
}
