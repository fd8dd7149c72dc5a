// Scripts come from examples, from the address, from a file; the run goes out as files.
async function through(bytes, way) {
  const stream = new Blob([bytes]).stream().pipeThrough(way);
  return new Uint8Array(await new Response(stream).arrayBuffer());
}
async function squeezed(text) {
  const bytes = await through(new TextEncoder().encode(text), new CompressionStream('deflate-raw'));
  let letters = '';
  for (const byte of bytes) letters += String.fromCharCode(byte);
  return btoa(letters).replace(/\+/g, '-').replace(/\//g, '_').replace(/=+$/, '');
}
async function unsqueezed(text) {
  const letters = atob(text.replace(/-/g, '+').replace(/_/g, '/'));
  const bytes = Uint8Array.from(letters, (letter) => letter.charCodeAt(0));
  return new TextDecoder().decode(await through(bytes, new DecompressionStream('deflate-raw')));
}
const placeOf = () => Object.fromEntries(new URLSearchParams(location.hash.slice(1)));

function attachFiles({ put, text, page, runs }) {
  element('share').onclick = async () => {
    history.replaceState(null, '', '#script=' + (await squeezed(text())));
    try {
      await navigator.clipboard.writeText(location.href);
      say('The address holds the script, and was copied.');
    } catch {
      say('The address of this page holds the script.');
    }
  };
  const FILES = {
    'script.txt': ['The script', () => text()],
    'script.mm': ['The plain script, for mmsim', async () => (await runs.ask('files')).plain],
    'answers.out': ['The answers', async () => (await runs.ask('files')).answers],
    'moves.log': ['The log of moves', async () => (await runs.ask('files')).log],
    'page.html': ['The page of the run', async () => page()],
  };
  const save = element('save');
  save.append(...Object.entries(FILES).map(([name, [words]]) => new Option(words, name)));
  save.onchange = async () => {
    const name = save.value;
    save.value = '';
    try {
      const blob = new Blob([await FILES[name][1]()], { type: 'application/octet-stream' });
      const url = URL.createObjectURL(blob);
      make('a', { href: url, download: name }).click();
      setTimeout(() => URL.revokeObjectURL(url), 60000);
    } catch {
      say('There is no run to save: mend what is wrong first.', 'bad');
    }
  };
  const take = async (file) => file && put(await file.text());
  element('open').onchange = ({ target }) => {
    take(target.files[0]);
    target.value = '';
  };
  const over = (isOver) => (event) => {
    if (![...event.dataTransfer.types].includes('Files')) return;
    event.preventDefault();
    element('drop').hidden = !isOver;
  };
  addEventListener('dragover', over(true));
  addEventListener('dragleave', (event) => event.relatedTarget || over(false)(event));
  addEventListener('drop', (event) => {
    over(false)(event);
    take(event.dataTransfer.files[0]);
  });
}
