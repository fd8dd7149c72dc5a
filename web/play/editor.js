// The script and, beside it, its answers: two CodeMirrors whose lines stand at the same height.
const FEW = 200; // lines that are written one by one

function makeEditor({ changed, moved, run }) {
  CodeMirror.defineMode('script', scriptMode);
  CodeMirror.defineMode('answers', answerMode);
  const script = CodeMirror(element('script'), {
    mode: 'script',
    lineNumbers: true,
    gutters: ['CodeMirror-linenumbers', 'signs'],
    dragDrop: false,
    screenReaderLabel: 'Script',
    viewportMargin: 20,
    // Tab leaves the editor, so that the keyboard alone comes everywhere.
    extraKeys: {
      Tab: false,
      'Shift-Tab': false,
      'Ctrl-Enter': run,
      'Cmd-Enter': run,
      'Ctrl-Space': () => complete(true),
    },
  });
  const answers = CodeMirror(element('answers'), {
    mode: 'answers',
    readOnly: 'nocursor',
    scrollbarStyle: 'null',
    screenReaderLabel: 'Answers',
    viewportMargin: 20,
  });
  let marks = [];
  let wrongLines = [];
  let line = 0;

  script.on('scroll', () => answers.scrollTo(null, script.getScrollInfo().top));
  answers.on('scroll', () => {
    const { top } = answers.getScrollInfo();
    if (Math.abs(top - script.getScrollInfo().top) > 1) script.scrollTo(null, top);
  });
  answers.on('mousedown', (_, event) => {
    const { line: at } = answers.coordsChar({ left: event.clientX, top: event.clientY });
    choose(at + 1, true);
  });
  script.on('change', (_, change) => {
    if (change.origin !== 'setValue') keepAnswers(change);
    changed(change.origin === 'setValue');
  });
  script.on('cursorActivity', () => {
    const at = script.getCursor().line + 1;
    if (at !== line) mark(at);
    moved(at);
  });
  script.on('inputRead', (_, { text, origin }) => {
    if (origin === '+input' && /^[A-Za-z_]$/.test(text[0])) complete(false);
  });

  // ---- the chosen line
  function mark(at) {
    for (const it of [script, answers]) {
      if (line) it.removeLineClass(line - 1, 'wrap', 'chosen');
      if (at <= it.lineCount()) it.addLineClass(at - 1, 'wrap', 'chosen');
    }
    line = at;
  }
  function choose(at, isFocused) {
    script.setCursor(clamp(at, 1, script.lineCount()) - 1, 0, { scroll: true });
    if (isFocused && !matchMedia('(pointer: coarse)').matches) script.focus();
  }

  // ---- answers
  // While a change is not answered yet, all lines but the new ones keep the answers that they had.
  function keepAnswers({ from, to, text, removed }) {
    element('answers').classList.add('old');
    if (text.length === removed.length) return;
    const last = Math.min(to.line, answers.lineCount() - 1);
    const [start, end] = [
      { line: from.line, ch: 0 },
      { line: last, ch: answers.getLine(last).length },
    ];
    const kept = answers.getLine(from.line) ?? '';
    answers.replaceRange([kept, ...text.slice(1).map(() => '')].join('\n'), start, end);
  }
  // Only the lines that are not what they were are written, where they are few.
  function write(texts) {
    const { top } = script.getScrollInfo();
    const count = answers.lineCount();
    const other = [...texts.keys()].filter((i) => i >= count || answers.getLine(i) !== texts[i]);
    if (count !== texts.length || other.length > FEW) answers.setValue(texts.join('\n'));
    else for (const i of other) writeLine(i, texts[i]);
    if (line && line <= answers.lineCount()) answers.addLineClass(line - 1, 'wrap', 'chosen');
    answers.scrollTo(null, top);
  }
  function writeLine(i, text) {
    const length = answers.getLine(i)?.length;
    if (length === undefined) return;
    answers.replaceRange(text, { line: i, ch: 0 }, { line: i, ch: length });
  }
  // What is wrong, or to be warned of, at its lines.
  function showSigns(signs) {
    script.operation(() => {
      marks.forEach((it) => it.clear());
      marks = [];
      script.clearGutter('signs');
      for (const sign of signs) putSign(sign);
    });
  }
  // The text of each line's answer. Without, the old answers stay, and what is wrong stands
  // between them.
  function show(signs, texts) {
    showSigns(signs);
    answers.operation(() => {
      if (texts) write(texts);
      else {
        wrongLines.forEach((it) => writeLine(answers.getLineNumber(it) ?? -1, ''));
        signs.forEach((sign) => writeLine(sign.line - 1, sign.text));
      }
    });
    wrongLines = signs.map((sign) => answers.getLineHandle(sign.line - 1)).filter(Boolean);
    element('answers').classList.toggle('old', !texts);
  }
  function putSign({ line: at, column, text, kind }) {
    if (at < 1 || at > script.lineCount()) return;
    const sign = document.createElement('span');
    sign.className = kind;
    sign.textContent = text[0];
    sign.title = text;
    script.setGutterMarker(at - 1, 'signs', sign);
    if (!column) return;
    const rest = script.getLine(at - 1).slice(column - 1);
    const length = (rest.match(/^[^\s,()]+/) ?? [' '])[0].length;
    const [from, to] = [column - 1, column - 1 + length].map((ch) => ({ line: at - 1, ch }));
    const how = { className: 'under ' + kind, attributes: { title: text } };
    marks.push(script.markText(from, to, how));
  }
  // Lines where the second machine answers otherwise.
  function part(lines) {
    const { lineCount } = answers;
    answers.operation(() => {
      answers.eachLine((it) => answers.removeLineClass(it, 'background', 'parted'));
      for (const at of lines)
        if (at <= lineCount.call(answers)) answers.addLineClass(at - 1, 'background', 'parted');
    });
  }

  // ---- completion
  function complete(isAsked) {
    const { line: row, ch } = script.getCursor();
    const { list, from } = suggestions(script.getLine(row), ch, script.getValue());
    if (!list.length || (!isAsked && ch - from < 2)) return;
    const hint = () => {
      const { ch: now } = script.getCursor();
      const found = suggestions(script.getLine(row), now, script.getValue());
      const [start, end] = [found.from, now].map((at) => ({ line: row, ch: at }));
      return { list: found.list, from: start, to: end };
    };
    script.showHint({ hint, completeSingle: false, container: element('script') });
  }

  // In another room the chosen line is seen still.
  function resize() {
    [script, answers].forEach((it) => it.refresh());
    script.scrollIntoView(script.getCursor(), 30);
  }
  return {
    script,
    choose,
    show,
    part,
    resize,
    line: () => line,
    text: () => script.getValue(),
    word: () => placeIn(script.getLine(script.getCursor().line), script.getCursor().ch),
    put(text) {
      line = 0;
      script.setValue(text);
      answers.setValue('\n'.repeat(script.lineCount() - 1));
      script.clearHistory();
      script.scrollTo(0, 0);
      mark(1);
    },
  };
}
