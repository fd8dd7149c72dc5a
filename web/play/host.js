// The host of a program: one run of it, a new instance each time, so no run leaves anything behind.
// `input` is the bytes of standard input, or a function that is asked for more: it is given what
// was written to standard output so far, and answers bytes, none of them at the end. `files` are
// what mmshow may open, by name. The answer is the status, and the bytes of both streams.
'use strict';
const NO_SUCH_FILE = -2;
const NOT_OPEN = -9;

function joined(pieces) {
  const whole = new Uint8Array(pieces.reduce((sum, piece) => sum + piece.length, 0));
  let at = 0;
  for (const piece of pieces) {
    whole.set(piece, at);
    at += piece.length;
  }
  return whole;
}

function runProgram(module, words, input, files = {}) {
  const written = { 1: [], 2: [] };
  const more = typeof input === 'function' ? input : () => new Uint8Array(0);
  const open = { 0: { bytes: typeof input === 'function' ? more([]) : input, at: 0, more } };
  let next = 3;
  let memory;
  function fill(file) {
    if (file.at < file.bytes.length || !file.more) return;
    file.bytes = file.more(written[1]);
    file.at = 0;
  }
  const host = {
    read(number, place, room) {
      const file = open[number];
      if (!file) return NOT_OPEN;
      fill(file);
      const count = Math.min(room, file.bytes.length - file.at);
      const part = file.bytes.subarray(file.at, file.at + count);
      new Uint8Array(memory.buffer, place, count).set(part);
      file.at += count;
      return count;
    },
    write(number, place, count) {
      if (!written[number]) return NOT_OPEN;
      written[number].push(new Uint8Array(memory.buffer, place, count).slice());
      return count;
    },
    open(place) {
      const all = new Uint8Array(memory.buffer);
      const name = new TextDecoder().decode(all.slice(place, all.indexOf(0, place)));
      if (!Object.hasOwn(files, name)) return NO_SUCH_FILE;
      open[next] = { bytes: files[name], at: 0 };
      return next++;
    },
  };
  const program = new WebAssembly.Instance(module, { host }).exports;
  memory = program.memory;
  const line = new TextEncoder().encode(['program', ...words, ''].join('\0'));
  new Uint8Array(memory.buffer, program.words(), line.length).set(line);
  program.set_count(words.length + 1);
  const status = program.run();
  return { status, out: joined(written[1]), err: joined(written[2]) };
}
