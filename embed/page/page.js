// The page: it asks the worker to run what the editors say, and shows what it answers.
const PRESETS = JSON.parse($('presets').textContent);
const ABOUT = JSON.parse($('about').textContent);
// More packets than this are not run unasked. A packet takes some 4 microseconds in a browser, and in a session two or three events.
const MANY = 1000000, MICROSECONDS = 4, EVENTS = 1000000;
let worker, asked = 0, run = 0, state = 'starting', at = 0, seconds = 0;
const open = new Map();

function ask(what, given = {}, passed = []) {
  return new Promise((answer, refuse) => {
    open.set(++asked, { answer, refuse });
    worker.postMessage({ id: asked, ask: what, ...given }, passed);
  });
}

function answered({ data }) {
  const { answer, refuse } = open.get(data.id);
  open.delete(data.id);
  if (data.failed) refuse(new Error(data.failed));
  else answer(data);
}

const traffic = new Editor('senders, and how long the run takes', () => restart());
let trees = [];

// The editors as one mix, and where the lines of each begin in it.
function mixOf() {
  const parts = [{ editor: traffic, first: 0 }];
  let text = `${traffic.text}\n`;
  for (const tree of trees) {
    text += `tree ${tree.name.value.trim() || 'tree'}\n`;
    parts.push({ editor: tree.editor, first: text.split('\n').length - 1 });
    text += `${tree.editor.text}\n`;
  }
  return { text, parts };
}

function showMix(text) {
  const parts = text.split(/^tree[ \t]*/m);
  traffic.text = parts.shift().trim();
  trees = parts.slice(0, 2).map(it => treeOf(it.split('\n')[0], it.split('\n').slice(1).join('\n').trim()));
  showTrees();
}

function treeOf(name, lines) {
  const tree = { name: make('input', { value: name, maxLength: 60 }), editor: new Editor('lines of tc', () => restart()) };
  tree.name.setAttribute('aria-label', 'name of the tree');
  tree.name.addEventListener('change', () => restart());
  tree.editor.text = lines;
  return tree;
}

function showTrees() {
  const isOne = trees.length === 1;
  $('editors').replaceChildren(...trees.flatMap((tree, index) => {
    const change = make('button', { textContent: isOne ? 'compare with a copy' : 'remove' });
    change.onclick = () => {
      if (isOne) trees.push(treeOf(`${tree.name.value}, changed`, tree.editor.text));
      else trees.splice(index, 1);
      showTrees();
      restart();
    };
    const head = make('h2', {}, isOne ? 'Tree' : `Tree ${'AB'[index]}`);
    return [make('div', { className: 'row' }, head, tree.name, change), tree.editor.element];
  }));
}

function choose(preset) {
  $('story').textContent = preset.about;
  for (const it of $('choice').children) it.setAttribute('aria-pressed', String(it.textContent === preset.name));
  showMix(preset.mix);
  return restart();
}

function say(next, words) {
  state = document.body.dataset.state = next;
  $('state').textContent = words;
  $('go').textContent = { running: 'Pause', paused: 'Go on', done: 'Run again' }[next] || 'Run';
  $('go').disabled = next === 'faulty' || next === 'starting';
}

function markFaults(parts, faults) {
  parts.forEach(({ editor, first }, index) => {
    const end = index + 1 < parts.length ? parts[index + 1].first - 1 : Infinity;
    editor.mark(faults.filter(it => it.line >= first && it.line < end).map(it => ({ ...it, line: it.line - first })));
  });
}

// What a run will take, where that is much.
function costOf(packets) {
  if (packets <= MANY) return '';
  const seconds = Math.ceil(packets * MICROSECONDS / 1e6);
  return `This run has up to ${packets.toLocaleString('en')} packets, which takes this browser some ${seconds} seconds or more. ` +
    `A session of it cannot be saved: it has room for ${EVENTS.toLocaleString('en')} events. Press Run to start it.`;
}

async function restart(isAsked = false) {
  const mine = ++run, { text, parts } = mixOf();
  const loaded = await ask('load', { mix: text });
  if (mine !== run) return;
  const faults = readFaults(loaded.faults);
  markFaults(parts, faults);
  at = 0;
  if (loaded.trees === 0) {
    say('faulty', faults.length > 0 ? 'A line is wrong.' : loaded.faults);
    return;
  }
  $('cost').textContent = isAsked ? '' : costOf(loaded.packets);
  if ($('cost').textContent) {
    say('waiting', '');
    return;
  }
  showCards(loaded.trees);
  say('running', 'Running.');
  ({ seconds } = loaded);
  await goOn(mine);
}

async function goOn(mine) {
  let before = performance.now();
  while (mine === run && state === 'running') {
    const now = performance.now(), speed = +$('speed').value;
    at = speed === 0 ? seconds : Math.min(at + (now - before) / 1000 * speed, seconds);
    before = now;
    const shown = await ask('run', { until: at, width: widthOf() });
    if (mine !== run) return;
    shown.trees.forEach(showTree);
    $('clock').textContent = `${(Math.min(...shown.trees.map(it => it.now)) / 1e9).toFixed(1)} of ${seconds} s`;
    if (shown.ended && at >= seconds) {
      const isAny = verdict => document.querySelector(`#trees span.${verdict}`);
      say('done', isAny('broken') ? 'Done. A promise was BROKEN.' : isAny('kept') ? 'Done. All promises were kept.' : 'Done.');
      return;
    }
    await new Promise(soon => { setTimeout(soon, 40); });
  }
}

const widthOf = () => Math.max(260, Math.floor(document.querySelector('#trees .picture').clientWidth));

function showCards(count) {
  document.documentElement.style.setProperty('--trees', count);
  $('trees').replaceChildren(...Array.from({ length: count }, () => make('article', { className: 'card' },
    make('h2'), make('div', { className: 'picture' }), make('table', { className: 'flows' }), make('table', { className: 'promises' }),
    make('p', { className: 'none' }))));
}

const rowsOf = text => text.split('\n').filter(Boolean).map(it => it.split('\t'));
const rowOf = (tag, cells) => make('tr', {}, ...cells.map(it => (it instanceof Node ? it : make(tag, { textContent: it }))));

function showTree(tree, index) {
  const [title, picture, flows, promises, none] = $('trees').children[index].children;
  const [head, ...rows] = rowsOf(tree.flows), kept = rowsOf(tree.promises);
  title.textContent = ($('trees').children.length > 1 ? `${'AB'[index]}: ` : '') + tree.name;
  picture.innerHTML = tree.picture;
  flows.replaceChildren(rowOf('th', head), ...rows.map((cells, group) => {
    const row = rowOf('td', cells);
    row.firstChild.className = `c${group}`;
    return row;
  }));
  promises.replaceChildren(...kept.map(promiseOf));
  if (kept.length > 0) promises.prepend(rowOf('th', ['place', 'promised by the device', 'measured here']));
  none.textContent = kept.length > 0 ? '' : 'Nothing is promised in time to the places that these packets go through: ' +
    'what an fq_codel promises is of another kind.';
}

function promiseOf([verdict, place, promised, measured]) {
  const sign = make('span', { className: verdict, textContent: { kept: '✓', broken: '✗', none: '–' }[verdict] });
  sign.setAttribute('role', 'img');
  sign.setAttribute('aria-label', { kept: 'kept', broken: 'broken', none: 'nothing is promised' }[verdict]);
  return rowOf('td', [make('td', {}, sign, ` ${place}`), promised, measured]);
}

function save(what, name) {
  const link = make('a', { href: URL.createObjectURL(new Blob([what])), download: name });
  link.click();
  setTimeout(() => URL.revokeObjectURL(link.href), 10000);
}

// Runs to the end first, since a session is the whole run.
async function saveSessions() {
  const speed = $('speed').value;
  if (state !== 'done') {
    $('speed').value = '0';
    say('running', 'Running to the end.');
    await goOn(++run);
    $('speed').value = speed;
  }
  $('cost').textContent = '';
  for (let tree = 0; state === 'done' && tree < $('trees').children.length; tree++) {
    const { script } = await ask('session', { tree });
    if (!script) {
      $('cost').textContent = 'Nothing is saved: a session has 1,000,000 events at most, and this run has more. ' +
        'Make it shorter by its line seconds.';
      return;
    }
    if (script.length > 16777216) {
      $('cost').textContent = 'The session has more than 16 MiB: qtree-play plays it, and qtree play reads no more than that.';
    }
    save(script, `session_${'AB'[tree]}.qtree`);
  }
}

async function link() {
  location.hash = encodeURIComponent(JSON.stringify({ mix: mixOf().text, speed: $('speed').value }));
  try {
    await navigator.clipboard.writeText(location.href);
    $('state').textContent = 'The link is copied.';
  } catch {
    $('state').textContent = 'The link is in the address bar.';
  }
}

function describe(started) {
  const { text, wasm, verdict, commit, kit, bytes, lines, version } = ABOUT;
  $('badge').textContent = started.isProved ? 'scheduler proved; this page is not' : 'not proved';
  $('badge').className = started.isProved ? 'proved' : '';
  const words = [
    `The scheduler is the library of qtree ${version}, ${commit}.`,
    started.isProved ? `Its module was proved by ${kit} for x86-64. The kit's verdict: ${verdict}.`
      : `Its module was built by ${kit} WITHOUT proofs.`,
    'The promises are what the device answers (qtree_service, qtree_lateness, qtree_worst, qtree_latest). What is measured beside them ' +
      'is counted here.',
    `Trusted beyond a proof: the code of the kit's clang and linker for WebAssembly, your browser, and ${lines.toLocaleString('en')} ` +
      'lines of C around the scheduler, among them the senders, which are a model.',
    `SHA-256 of the text libqtree.ll: ${text}`,
    `SHA-256 of the module, ${bytes.toLocaleString('en')} bytes: ${wasm}`,
  ];
  $('trust').replaceChildren(...words.map(it => make('p', { textContent: it })));
}

function fail(error) {
  document.body.dataset.state = 'failed';
  $('failed').hidden = false;
  document.querySelector('main').hidden = true;
  $('failed').textContent = `This browser cannot run the library: ${error.message}. It needs WebAssembly with 64-bit memory, which ` +
    'Chrome and Edge have from 133 on, and Firefox from 134 on.';
}

function bind() {
  $('choice').append(...PRESETS.map(it => make('button', { textContent: it.name, onclick: () => choose(it) })));
  $('traffic').append(traffic.element);
  $('go').onclick = () => {
    if (state === 'running') say('paused', 'Paused.');
    else if (state === 'paused') {
      say('running', 'Running.');
      goOn(++run);
    } else restart(true);
  };
  $('link').onclick = link;
  $('session').onclick = saveSessions;
  $('save').onclick = async () => save((await ask('file', { width: 720 })).picture, 'picture.svg');
}

async function start() {
  const source = new Blob([$('worker').textContent], { type: 'text/javascript' });
  worker = new Worker(URL.createObjectURL(source));
  worker.onmessage = answered;
  const packed = Uint8Array.from(atob($('module').textContent), it => it.charCodeAt(0));
  const module = await new Response(new Blob([packed]).stream().pipeThrough(new DecompressionStream('gzip'))).arrayBuffer();
  const started = await ask('start', { module }, [module]);
  document.head.append(make('style', { textContent: started.style }));
  describe(started);
  bind();
  let given = {};
  try {
    given = JSON.parse(decodeURIComponent(location.hash.slice(1)));
  } catch { /* no link */ }
  if (given.speed) $('speed').value = given.speed;
  const preset = new URLSearchParams(location.search).get('preset');
  return choose(typeof given.mix === 'string' ? { name: '', about: 'From a link.', mix: given.mix } : PRESETS[preset] || PRESETS[0]);
}

start().catch(fail);
