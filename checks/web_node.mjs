// Runs cases on the WebAssembly programs, all in one process: web_node.mjs HOST BUILT CASES RESULTS
// HOST is web/play/host.js, the host that the page has too. A case is [program, words, input's
// file, {name: file}], its result [status, SHA-256 of the output, SHA-256 of standard error].
import crypto from 'crypto';
import fs from 'fs';

const [hostFile, builtFile, casesFile, resultsFile] = process.argv.slice(2);
const runProgram = new Function(fs.readFileSync(hostFile, 'utf8') + '\nreturn runProgram;')();
const built = JSON.parse(fs.readFileSync(builtFile));
const modules = {};
const sum = (bytes) => crypto.createHash('sha256').update(bytes).digest('hex');
const read = (file) => new Uint8Array(fs.readFileSync(file));

function result([program, words, input, files]) {
  modules[program] ??= new WebAssembly.Module(fs.readFileSync(built[program].path));
  const open = Object.fromEntries(Object.entries(files).map(([name, file]) => [name, read(file)]));
  try {
    const { status, out, err } = runProgram(modules[program], words, read(input), open);
    return [status, sum(out), sum(err)];
  } catch (error) {
    return [String(error), '', ''];
  }
}
const cases = JSON.parse(fs.readFileSync(casesFile));
fs.writeFileSync(resultsFile, JSON.stringify(cases.map(result)));
