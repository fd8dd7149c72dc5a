// The page that mmshow writes of the run, in a frame with an origin of its own. A line that is
// chosen here is told to it, and one that is chosen there is told here, by messages.
const LAID_OUT = 20; // milliseconds, so that the page has its width when it first draws

function makeFrame(place, chosen) {
  let shown = '';
  let line = 0;
  let waiting;
  const latest = () => place.querySelector('iframe:last-child');
  function tell() {
    if (line) latest()?.contentWindow?.postMessage({ melzudek: 'line', line }, '*');
  }
  // (only what a person chooses there, who then is in the frame: a new page chooses a line by itself)
  addEventListener('message', ({ data: said, source }) => {
    const frame = latest();
    const isInside = frame && document.activeElement === frame && source === frame.contentWindow;
    if (said?.melzudek === 'chosen' && isInside) chosen(said.line);
  });
  // The old page stays until the new one has been drawn.
  function put(html) {
    const old = [...place.querySelectorAll('iframe')];
    const frame = document.createElement('iframe');
    frame.sandbox = 'allow-scripts';
    frame.title = 'The page frames of this run, drawn line by line';
    frame.style.colorScheme = document.documentElement.style.colorScheme || 'light dark';
    frame.onload = () => {
      frame.classList.add('shown');
      old.forEach((it) => it.remove());
      tell();
    };
    place.append(frame);
    setTimeout(() => (frame.srcdoc = html), LAID_OUT);
  }
  return {
    // A page is drawn once its place is seen and the typing rests.
    show(html, rest) {
      shown = html;
      clearTimeout(waiting);
      if (place.offsetWidth) waiting = setTimeout(() => put(html), rest);
      place.dataset.late = place.offsetWidth ? '' : 'yes';
    },
    seen() {
      if (place.dataset.late) this.show(shown, 0);
    },
    again() {
      if (shown) this.show(shown, 0);
    },
    choose(wanted) {
      line = wanted;
      tell();
    },
    html: () => shown,
  };
}
