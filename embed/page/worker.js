// The worker has the module, so that the page stays alive while it computes. Each message {id, ask, ..} gets one answer {id, ..}.
let calls;
const encoder = new TextEncoder();
const decoder = new TextDecoder();

function put(bytes) {
  const at = calls.text_in(bytes.length);
  if (at === 0) throw new Error('there is no memory for this');
  new Uint8Array(calls.memory.buffer).set(bytes, at);
  return bytes.length;
}

const answer = () => new Uint8Array(calls.memory.buffer).slice(calls.answer_at(), calls.answer_at() + calls.answer_len());

function textOf(call, ...given) {
  calls[call](...given);
  return decoder.decode(answer());
}

let trees = 0;

// Goes on until a time, but not for much longer than this many milliseconds; says whether all trees are there.
function goOn(until, most) {
  const end = performance.now() + most;
  let ended = true;
  for (let tree = 0; tree < trees; tree++) {
    let code = 0;
    while ((code = calls.run(tree, until)) === 0 && performance.now() < end) { /* a slice is done */ }
    if (code === 2) throw new Error('there is no more memory');
    ended &&= code === 1;
  }
  return ended;
}

function shown(width) {
  return Array.from({ length: trees }, (_, tree) => ({
    name: textOf('name', tree), picture: textOf('picture', tree, width), flows: textOf('flows', tree), promises: textOf('promises', tree),
    now: calls.now(tree),
  }));
}

const asks = {
  async start({ module }) {
    calls = (await WebAssembly.instantiate(module, {})).instance.exports;
    return { isProved: calls.is_proved() === 1, version: calls.version(), style: textOf('style') };
  },
  load({ mix }) {
    trees = calls.load(put(encoder.encode(mix)));
    return { trees, faults: decoder.decode(answer()), packets: trees && calls.packets(), seconds: calls.seconds() };
  },
  run({ until, width }) {
    const ended = goOn(Math.min(until, calls.seconds()) * 1e9, 50);
    return { ended, trees: shown(width) };
  },
  // What a tree did, as a script: the same run again, with a recorder. An empty script says that it has no room.
  session({ tree }) {
    if (calls.record(tree) === 0) return { script: '' };
    while (calls.run(tree, calls.seconds() * 1e9) === 0) { /* to its end */ }
    return { script: calls.session(tree) ? decoder.decode(answer()) : '' };
  },
  file: ({ width }) => ({ picture: textOf('file', width) }),
  // For tests: plays a script as qtree-play does, and plants a mistake that has to be found.
  play({ script, options }) {
    const { mtu = 1514, txqueuelen = 1000, seed = 0, record = 4096 } = options;
    const bytes = typeof script === 'string' ? encoder.encode(script) : Uint8Array.from(script);
    const status = calls.play(put(bytes), mtu, txqueuelen, seed, record);
    return { status, report: answer() };
  },
  plant: ({ mistake }) => (calls.plant(mistake), {}),
};

onmessage = async ({ data }) => {
  try {
    postMessage({ id: data.id, ...(await asks[data.ask](data)) });
  } catch (error) {
    postMessage({ id: data.id, failed: error.message });
  }
};
