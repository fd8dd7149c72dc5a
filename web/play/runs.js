// The conversation with the workers: each question is answered by a promise. `stop` ends a worker,
// whatever it does, and starts another; the programs are compiled once for all.
let compiled = null;

function makeWorker() {
  const source = element('worker').textContent;
  let worker;
  let number = 0;
  let waiting = new Map();
  function launch() {
    worker = new Worker(URL.createObjectURL(new Blob([source], { type: 'text/javascript' })));
    worker.onmessage = ({ data: said }) => {
      const { resolve, reject } = waiting.get(said.id) ?? {};
      waiting.delete(said.id);
      if (said.failed) reject?.(new Error(said.failed));
      else resolve?.(said);
    };
    const started = ask('start', { texts: data.modules, compiled });
    started.then(({ modules }) => (compiled = modules), () => {});
    return started;
  }
  function ask(what, more) {
    const id = ++number;
    const answer = new Promise((resolve, reject) => waiting.set(id, { resolve, reject }));
    worker.postMessage({ ...more, id, ask: what });
    return answer;
  }
  function stop() {
    worker.terminate();
    const left = waiting;
    waiting = new Map();
    left.forEach(({ reject }) => reject(new Error('stopped')));
    launch().catch(() => {});
  }
  const started = launch();
  return { ask, stop, started, isBusy: () => waiting.size > 0 };
}
