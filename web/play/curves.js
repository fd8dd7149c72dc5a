// Curves over lines or over page frames.
const WIDE = 640;
const HIGH = 240;
const LEFT = 58;
const RIGHT = 14;
const TOP = 12;
const FOOT = 34;
const MOST_POINTS = 600;

function drawn(name, attributes, ...inside) {
  const made = document.createElementNS('http://www.w3.org/2000/svg', name);
  for (const [key, value] of Object.entries(attributes)) made.setAttribute(key, value);
  made.append(...inside);
  return made;
}
// A round step, of which about `count` reach `most`.
function roundStep(most, count) {
  const rough = Math.max(most / count, 1e-9);
  const ten = 10 ** Math.floor(Math.log10(rough));
  return Math.max(1, [1, 2, 5, 10].map((n) => n * ten).find((step) => step >= rough));
}
// `series` are [{name, kind, points: [[x, y]..], isStepped}]; `marks` are [{x, name, kind}].
function drawCurves(svg, { from, to, series, marks = [], unit, picked }) {
  const most = Math.max(1, ...series.flatMap(({ points }) => points.map(([, y]) => y)));
  const across = (x) => LEFT + ((x - from) / Math.max(to - from, 1)) * (WIDE - LEFT - RIGHT);
  const up = (y) => HIGH - FOOT - (y / most) * (HIGH - FOOT - TOP);
  svg.setAttribute('viewBox', `0 0 ${WIDE} ${HIGH}`);
  svg.replaceChildren(...axes({ from, to, most, across, up, unit }));
  for (const { x, name, kind } of marks) {
    if (x < from || x > to) continue;
    const place = { x1: across(x), x2: across(x), y1: TOP, y2: HIGH - FOOT, class: 'mark ' + kind };
    svg.append(drawn('line', place, drawn('title', {}, name)));
  }
  series.forEach((it) => svg.append(...curve(it, across, up)));
  svg.append(...key(series));
  svg.onclick = ({ clientX }) => {
    const { left, width } = svg.getBoundingClientRect();
    const x = ((clientX - left) / width) * WIDE;
    const value = from + ((x - LEFT) / (WIDE - LEFT - RIGHT)) * (to - from);
    if (value >= from - 0.5 && value <= to + 0.5) picked?.(clamp(Math.round(value), from, to));
  };
}
const words = (place, text) => drawn('text', place, text);
function axes({ from, to, most, across, up, unit }) {
  const parts = [];
  const stepUp = roundStep(most, 4);
  for (let y = 0; y <= most; y += stepUp) {
    parts.push(drawn('line', { x1: LEFT, x2: WIDE - RIGHT, y1: up(y), y2: up(y), class: 'rule' }));
    parts.push(words({ x: LEFT - 6, y: up(y) + 4, 'text-anchor': 'end' }, spelled(y)));
  }
  const step = roundStep(to - from, 7);
  for (let x = Math.ceil(from / step) * step; x <= to; x += step)
    parts.push(words({ x: across(x), y: HIGH - FOOT + 16, 'text-anchor': 'middle' }, spelled(x)));
  parts.push(words({ x: WIDE - RIGHT, y: HIGH - 4, 'text-anchor': 'end' }, unit));
  return parts;
}
function curve({ kind, points, isStepped, isDotted }, across, up) {
  const every = Math.max(1, Math.floor(points.length / MOST_POINTS));
  const kept = points.filter((_, i) => i % every === 0 || i === points.length - 1);
  let path = '';
  kept.forEach(([x, y], i) => {
    const [h, v] = [across(x).toFixed(1), up(y).toFixed(1)];
    path += !i ? `M${h} ${v}` : isStepped ? `H${h}V${v}` : `L${h} ${v}`;
  });
  const line = drawn('path', { d: path, class: 'curve ' + kind });
  if (!isDotted) return [line];
  const dots = kept.map(([x, y]) => {
    const title = drawn('title', {}, `${spelled(x)}: ${spelled(y)}`);
    return drawn('circle', { cx: across(x), cy: up(y), r: 3, class: 'dot ' + kind }, title);
  });
  return [line, ...dots];
}
function key(series) {
  return series.flatMap(({ name, kind }, i) => {
    const y = TOP + 8 + 16 * i;
    const x = WIDE - RIGHT - 196;
    const line = drawn('line', { x1: x, x2: x + 22, y1: y, y2: y, class: 'curve ' + kind });
    return [line, words({ x: x + 28, y: y + 4 }, name)];
  });
}
