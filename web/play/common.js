// What all parts use.
const element = (id) => document.getElementById(id);
const data = JSON.parse(element('data').textContent);
const clamp = (value, least, most) => Math.max(least, Math.min(most, value));
const { format: spelled } = new Intl.NumberFormat('en');
const plural = (count, one, many = one + 's') => `${spelled(count)} ${count === 1 ? one : many}`;
const linesOf = (text) => (text ? text.replace(/\n$/, '').split('\n') : []);
// Lets the page draw and hear before what follows.
const breath = () => new Promise((done) => setTimeout(done, 0));

// An element with its attributes, and texts or elements in it.
function make(name, attributes, ...inside) {
  const made = document.createElement(name);
  for (const [key, value] of Object.entries(attributes ?? {}))
    if (key.startsWith('on')) made.addEventListener(key.slice(2), value);
    else if (value !== null && value !== false) made.setAttribute(key, value === true ? '' : value);
  made.append(...inside.flat());
  return made;
}
function say(words, kind = '') {
  element('status').textContent = words;
  element('status').className = kind;
}
