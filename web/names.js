// Windows' names of numbers: in a line's arguments, and in answers.
// Entries: namesInLine(text), namesInAnswer(text, answer); each in brackets, or ''.
const readNames = (text) =>
  text.split(' ').map((word) => [Number('0x' + word.split('=')[0]), word.split('=')[1]]);
const MEMORY = readNames(
  '1000=MEM_COMMIT 2000=MEM_RESERVE 4000=MEM_DECOMMIT 8000=MEM_RELEASE 200000=MEM_WRITE_WATCH',
);
const PROTECTION = readNames(
  '1=PAGE_NOACCESS 2=PAGE_READONLY 4=PAGE_READWRITE 8=PAGE_WRITECOPY 10=PAGE_EXECUTE ' +
    '20=PAGE_EXECUTE_READ 40=PAGE_EXECUTE_READWRITE 80=PAGE_EXECUTE_WRITECOPY 100=PAGE_GUARD',
);
const SECTION = [...PROTECTION, ...readNames('4000000=SEC_RESERVE 8000000=SEC_COMMIT')];
const VIEW = readNames(
  '1=FILE_MAP_COPY 2=FILE_MAP_WRITE 4=FILE_MAP_READ F001F=FILE_MAP_ALL_ACCESS',
);
const STATE = readNames('1000=MEM_COMMIT 2000=MEM_RESERVE 10000=MEM_FREE');
const TYPE = readNames('20000=MEM_PRIVATE 40000=MEM_MAPPED');
const CODES = readNames(
  '2=ERROR_FILE_NOT_FOUND 5=ERROR_ACCESS_DENIED 6=ERROR_INVALID_HANDLE ' +
    '57=ERROR_INVALID_PARAMETER B7=ERROR_ALREADY_EXISTS 1E7=ERROR_INVALID_ADDRESS ' +
    '46C=ERROR_MAPPED_ALIGNMENT 5AF=ERROR_COMMITMENT_LIMIT ' +
    '80000001=STATUS_GUARD_PAGE_VIOLATION C0000005=STATUS_ACCESS_VIOLATION ' +
    'C0000006=STATUS_IN_PAGE_ERROR C00000FD=STATUS_STACK_OVERFLOW',
);
// how many words a line has, and the names of its numbers, by their places among the words
const PLACES = {
  alloc: [6, { 4: MEMORY, 5: PROTECTION }],
  free: [5, { 4: MEMORY }],
  protect: [5, { 4: PROTECTION }],
  create: [5, { 3: SECTION }],
  createfile: [5, { 3: SECTION }],
  map: [7, { 3: VIEW }],
};

// The name of a number, or those of its bits, which rise; '' where a bit has none.
function nameOf(names, number) {
  const whole = names.find(([bits]) => bits === number);
  if (whole) return whole[1];
  const found = names.filter(([bit]) => number & bit);
  const sum = found.reduce((all, [bit]) => all + bit, 0);
  return number && sum === number ? found.map(([, name]) => name).join('|') : '';
}
const bracket = (names) => (names.some(Boolean) ? `[${names.filter(Boolean).join(', ')}]` : '');

function namesInLine(text) {
  const words = text.split(' ');
  const [count, places] = Object.hasOwn(PLACES, words[0]) ? PLACES[words[0]] : [0, {}];
  if (words.length !== count) return '';
  return bracket(Object.keys(places).map((at) => nameOf(places[at], Number(words[at]))));
}
function namesInAnswer(text, answer) {
  const words = answer.split(' ');
  if (/^(error|raise) \w+$/.test(answer)) return bracket([nameOf(CODES, Number(words[1]))]);
  if (!text.startsWith('query ') || words.length !== 8) return '';
  const [state, protection, type] = words.slice(5).map(Number);
  return bracket([nameOf(STATE, state), nameOf(PROTECTION, protection), nameOf(TYPE, type)]);
}
