// A pen: it draws on a canvas, in pixels of the page and by the names of the page's colours.
// Entries: the class Pen; forgetColours() as the page may change from light to dark; drawPooled().
const FONT = 'system-ui, "Segoe UI", "DejaVu Sans", sans-serif';
const SMALL = '11px ' + FONT;
const BOLD = 'bold 13px ' + FONT;
const MONO = '11px ui-monospace, "DejaVu Sans Mono", monospace';
const LETTER = 6.6; // a letter's width in MONO
const DASHED = [6, 4]; // the most that there can be
const DOTTED = [2, 3]; // the least
const colours = new Map();
const forgetColours = () => colours.clear();

// A colour by its name, as it is now: the canvas has no text, so its text's colour is free for it.
function colour(name) {
  if (!colours.has(name)) {
    element('plot').style.color = `var(${name})`;
    colours.set(name, getComputedStyle(element('plot')).color);
  }
  return colours.get(name);
}
const channels = (name) => colour(name).match(/[\d.]+/g).map(Number);
// The colour for something on top of another.
function inkOn(name) {
  const [red, green, blue] = channels(name);
  return 0.3 * red + 0.59 * green + 0.11 * blue > 140 ? '--on-bright' : '--on-dark';
}

class Pen {
  constructor(canvas, width, height) {
    canvas.width = Math.round(width * devicePixelRatio);
    canvas.height = Math.round(height * devicePixelRatio);
    canvas.style.height = height + 'px';
    this.context = canvas.getContext('2d');
    this.context.scale(devicePixelRatio, devicePixelRatio);
    this.context.textBaseline = 'middle';
  }
  box(tint, left, top, wide, high, alpha = 1) {
    this.context.globalAlpha = alpha;
    this.context.fillStyle = colour(tint);
    this.context.fillRect(left, top, wide, high);
    this.context.globalAlpha = 1;
  }
  frame(tint, left, top, wide, high, thick) {
    this.context.strokeStyle = colour(tint);
    this.context.lineWidth = thick;
    this.context.strokeRect(left, top, wide, high);
  }
  // the points' places, from the left and from the top in turn
  path(tint, points, thick = 1, dash = []) {
    this.context.strokeStyle = colour(tint);
    this.context.lineWidth = thick;
    this.context.setLineDash(dash);
    this.context.beginPath();
    for (let at = 0; at < points.length; at += 2) this.context.lineTo(points[at], points[at + 1]);
    this.context.stroke();
    this.context.setLineDash([]);
  }
  hatch(left, top, wide, high, isDown, tint = '--hatch') {
    const { context } = this;
    context.save();
    context.beginPath();
    context.rect(left, top, wide, high);
    context.clip();
    const [from, to] = isDown ? [top, top + high] : [top + high, top];
    for (let at = left - high; at < left + wide; at += 6) {
      this.path(tint, [at, from, at + high, to], 1.5);
    }
    context.restore();
  }
  // isAlone: nothing else is seen behind the text
  text(text, left, top, look = {}) {
    const { tint = '--ink', align = 'left', font = '12px ' + FONT, turn = 0, isAlone } = look;
    const { context } = this;
    context.save();
    context.translate(left, top);
    context.rotate(turn);
    context.font = font;
    context.textAlign = align;
    const wide = isAlone && context.measureText(text).width;
    if (isAlone) this.box('--back', -wide - 1, -7, wide + 2, 14);
    context.fillStyle = colour(tint);
    context.fillText(text, 0, 0);
    context.restore();
  }
}

// Pooled: each pixel has the colour that most of its rows have for most of its lines. A picture
// does not hang on the chosen line, so it is kept. rowsAt(y) are the rows of a row of pixels;
// eachStretch(row, weigh) calls weigh(tint's number, from, to) for the lines that are seen.
const MOST_PICTURES = 24;
const pictures = new Map();
// Answers which of the tints are in the picture.
function drawPooled(pen, axis, { name, tints, top, high, tall, rowsAt, eachStretch }) {
  const wide = Math.round((axis.right - axis.left) * devicePixelRatio);
  const id = [name, ...tints.map(colour), axis.first, axis.last, wide, tall].join();
  if (!pictures.has(id)) {
    if (pictures.size > MOST_PICTURES) pictures.clear();
    pictures.set(id, pool(axis, tints, wide, tall, rowsAt, eachStretch));
  }
  pen.context.imageSmoothingEnabled = false;
  const { canvas, seen } = pictures.get(id);
  pen.context.drawImage(canvas, axis.left, top, axis.right - axis.left, high);
  return seen;
}
function pool(axis, tints, wide, tall, rowsAt, eachStretch) {
  const colours = tints.map((name) => [...channels(name), 255]);
  const pixels = wide / axis.count;
  const image = new ImageData(wide, tall);
  const weights = tints.map(() => new Float32Array(wide));
  const seen = new Set();
  // Adds for how long a row has a colour in each pixel.
  function weigh(tint, first, next) {
    const weight = weights[tint];
    const [from, to] = [(first - axis.first) * pixels, (next - axis.first) * pixels];
    for (let at = Math.floor(from); at < to; at++) {
      weight[at] += Math.min(at + 1, to) - Math.max(at, from);
    }
  }
  function heaviest(at) {
    let best = 0;
    for (let tint = 1; tint < tints.length; tint++) {
      if (weights[tint][at] > weights[best][at]) best = tint;
    }
    if (!weights[best][at]) return [0, 0, 0, 0];
    seen.add(best);
    return colours[best];
  }
  for (let y = 0; y < tall; y++) {
    for (const weight of weights) weight.fill(0);
    for (const row of rowsAt(y)) eachStretch(row, weigh);
    for (let at = 0; at < wide; at++) image.data.set(heaviest(at), 4 * (y * wide + at));
  }
  const canvas = new OffscreenCanvas(wide, tall);
  canvas.getContext('2d').putImageData(image, 0, 0);
  return { canvas, seen };
}
