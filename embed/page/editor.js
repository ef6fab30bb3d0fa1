// An editor is a textarea over a copy of its text, in which wrong words are underlined. The sentences on them stand below.
const $ = id => document.getElementById(id);

function make(tag, properties = {}, ...inside) {
  const it = Object.assign(document.createElement(tag), properties);
  it.append(...inside);
  return it;
}

class Editor {
  constructor(label, onChange) {
    this.area = make('textarea', { spellcheck: false, autocapitalize: 'off', autocomplete: 'off', rows: 1 });
    this.area.setAttribute('aria-label', label);
    this.under = make('pre');
    this.under.setAttribute('aria-hidden', 'true');
    this.told = make('ul', { className: 'told', id: `told${Editor.count = (Editor.count || 0) + 1}` });
    this.area.setAttribute('aria-describedby', this.told.id);
    this.element = make('div', { className: 'editor' }, make('div', { className: 'layers' }, this.under, this.area), this.told);
    let wait = 0;
    this.area.addEventListener('input', () => {
      this.mark([]);
      clearTimeout(wait);
      wait = setTimeout(onChange, 400);
    });
  }

  get text() { return this.area.value; }
  set text(text) {
    this.area.value = text;
    this.mark([]);
  }

  // Each fault has a line of this editor, counted from 0, the place of a word in it, and a sentence.
  mark(faults) {
    const lines = this.text.split('\n').map((line, at) => {
      const fault = faults.find(it => it.line === at);
      if (!fault) return [`${line}\n`];
      return [line.slice(0, fault.from), make('u', {}, line.slice(fault.from, fault.to) || ' '), `${line.slice(fault.to)}\n`];
    });
    this.under.replaceChildren(...lines.flat());
    this.told.replaceChildren(...faults.map(it => make('li', {}, make('b', {}, `line ${it.line + 1}: `), it.sentence)));
    this.area.setAttribute('aria-invalid', String(faults.length > 0));
    this.element.classList.toggle('wrong', faults.length > 0);
  }
}

// The faults of a mix, three rows each: `line N: TEXT`, a mark under the wrong word, and a sentence.
function readFaults(text) {
  const rows = text.split('\n');
  const faults = [];
  for (let at = 0; at < rows.length; at++) {
    const head = /^line (\d+): /.exec(rows[at]);
    const mark = /\^+/.exec(rows[at + 1] || '');
    if (!head || !mark) continue;
    const from = mark.index - head[0].length;
    faults.push({ line: +head[1] - 1, from, to: from + mark[0].length, sentence: (rows[at + 2] || '').trim() });
  }
  return faults;
}
