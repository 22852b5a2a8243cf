const LOST = 'The chain does not answer: ./lab live has ended. This page goes on when it is started again.';
const CURVES_EVERY = 250; // milliseconds in which the curves are drawn once at most while the chain plays
const ORDERS = ['play', 'leg', 'slower', 'faster', 'alone', 'fork', 'thin']; // the controls that need a chain at work

/** Says something in a part of the page, or nothing. */
function say(part, text) {
  const node = document.getElementById(part);
  write(node, text);
  node.hidden = text === '';
}

/** The page of a chain at work: it shows each shot that it is told of, and gives orders. */
class LivePage extends Page {
  constructor(source) {
    super(source);
    const { head } = source;
    this.hands = new Hands(source);
    this.failures = new FailuresView(source, this.plane, this.part('elements').parentElement, () => this.show());
    this.stroke = new Set();
    this.sent = new Set();
    this.before = Promise.resolve();
    this.refused = ''; // why the last order was
    this.isLost = false;
    this.charted = 0; // when the curves were drawn last
    this.corner = null; // the first of the two sites of a rectangle, if it was chosen by keys
    this.part('about').textContent = `A chain at work on ${this.tilesText()}, ${head.step ? 'stepped' : 'a thread for each tile'}${
      head.keep === 'reports' ? '' : ', without reports'}.`;
    this.part('reload').title = head.canReload ? '' : 'Start it with ./lab live DIR WORLD FILE.. to read files again';
    this.part('abandoned-choice').hidden = head.tiles[0] * head.tiles[1] === 1;
  }

  listen() {
    super.listen();
    this.on('play', 'click', () => this.toggle());
    for (const order of ['leg', 'slower', 'faster', 'undo', 'fork', 'reload']) this.on(order, 'click', () => this.order({ do: order }));
    this.on('alone', 'change', () => this.order({ do: this.part('alone').checked ? 'alone' : 'same' }));
    this.on('thin', 'click', () => this.order({ do: 'thin', every: Number(this.part('every').value) }));
    this.on('file', 'change', () => this.readDrawing());
  }

  /** Whether the chain takes orders: the server is there, and the session has not ended. */
  get isAtWork() {
    return !this.isLost && this.source.shot.mode !== 'end';
  }

  toggle() {
    this.order({ do: this.source.shot.mode === 'play' ? 'pause' : 'play' });
  }

  pressed(key) {
    if (key === 'Escape') return this.drop();
    const order = { n: 'leg', '<': 'slower', '>': 'faster', u: 'undo', r: 'reload' }[key];
    if (order === undefined || !this.part('letter-keys').checked || this.part(order).disabled) return false;
    this.order({ do: order });
    return true;
  }

  /** Uses the tool at the chosen site, as a click does; a rectangle takes two sites, one after the other. */
  use() {
    const { hands, chosen, corner } = this;
    if (hands.tool === 'look' || chosen === null) return false;
    if (hands.tool === 'stamp') this.stamp(chosen);
    else if (hands.isBrush) this.paint(hands.brushAt(chosen));
    else if (corner === null) this.corner = chosen;
    else {
      this.corner = null;
      this.order({ do: 'act', acts: [hands.actOnRectangle(hands.spanned(corner, chosen))] });
    }
    this.hear(this.corner === null ? `${hands.tool} up to here` : `${hands.tool} from here; choose the other corner`);
    this.show();
    return true;
  }

  /** Drops the corner of a rectangle, and what was said of the last order. */
  drop() {
    this.corner = null;
    this.refused = '';
    say('said', '');
    this.show();
    return true;
  }

  /** Gives an order when those before it are answered. The sites that it is of are marked until it is answered itself. */
  order(order, sites = []) {
    if (!this.isAtWork) return;
    this.sent.add(sites);
    this.before = this.before.then(() => this.give(order, sites))
      .catch((cause) => {
        this.refused = `The page could not show the chain: ${cause.message}.`;
        this.sayFaults();
      });
  }

  /** Gives an order; what comes of it, or why it is refused, is said in the page. A fault of the chain stays. */
  async give(order, sites) {
    if (this.isLost) return;
    try {
      const answer = await fetch('do', { method: 'POST', headers: { 'Content-Type': 'application/json' }, body: JSON.stringify(order) });
      const said = (await answer.text()).trimEnd();
      this.refused = answer.ok ? '' : said.replace(/^refused: /, '');
      say('said', answer.ok ? said : '');
    } catch (cause) {
      this.refused = 'The chain does not answer.';
    } finally {
      this.sent.delete(sites);
    }
    this.show();
  }

  /** Says what went wrong: with the chain, for as long as that is so, and with the last order. */
  sayFaults() {
    const { fault } = this.source.shot;
    const faults = [this.isLost ? LOST : '', fault, fault.includes(this.refused) ? '' : this.refused];
    say('fault', faults.filter((it) => it !== '').join('\n'));
  }

  /** Notes whether the server of the chain is there; without it nothing can be ordered. */
  lose(isLost) {
    this.isLost = isLost;
    this.show();
  }

  async readDrawing() {
    const [file] = this.part('file').files;
    if (file !== undefined) this.part('drawing').value = await file.text();
  }

  /** Takes what is told of the chain. */
  take(shot) {
    this.source.take(shot);
    this.looks.measure();
    if (shot.mode !== 'play' || performance.now() - this.charted > CURVES_EVERY) {
      this.charted = performance.now();
      this.chart.fit();
    }
    this.show();
  }

  move(event) {
    const { drag } = this;
    if (this.hands.tool === 'look' || drag === null) {
      super.move(event);
      return;
    }
    const site = this.plane.siteAt(event);
    if (site === null || drag.from === null) return;
    if (this.hands.isBrush) {
      for (const at of this.hands.between(drag.last ?? drag.from, site)) this.hands.brushAt(at).forEach((it) => this.stroke.add(it));
    }
    drag.last = site;
    this.show();
  }

  release(event) {
    const { drag, hands } = this;
    if (hands.tool === 'look' || drag === null) {
      super.release(event);
      return;
    }
    if (drag.from !== null) this.move(event);
    this.drag = null;
    this.corner = null;
    if (drag.from === null) return;
    const to = drag.last ?? drag.from;
    if (hands.tool === 'stamp') this.stamp(to);
    else if (hands.isBrush) {
      hands.brushAt(drag.from).forEach((it) => this.stroke.add(it));
      const sites = this.stroke;
      this.stroke = new Set();
      this.paint(sites);
    } else this.order({ do: 'act', acts: [hands.actOnRectangle(hands.spanned(drag.from, to))] });
  }

  paint(sites) {
    this.order({ do: 'act', acts: [this.hands.actOn(sites)] }, sites);
  }

  stamp(site) {
    const keys = this.part('drawing-keys').value.split(/\s+/).filter((key) => key !== '');
    const { columns } = this.source;
    this.order({ do: 'stamp', text: this.part('drawing').value, keys, x: site % columns, y: Math.floor(site / columns) });
  }

  show() {
    super.show();
    this.failures.show();
    const { shot, head } = this.source;
    const aeps = (shot.events / head.liveSites).toFixed(2);
    const gaveUp = shot.abandoned === 0 ? '' : `, ${numbered(shot.abandoned, 'attempt')} abandoned`;
    this.part('moment').textContent = `Leg ${spelled(shot.leg)}: ${numbered(shot.events, 'event')}${gaveUp}; ${aeps} AEPS`
      + (this.isAtWork ? `, ${shot.speed.toFixed(2)} AEPS a second` : '');
    this.part('pace').textContent = `${spelled(shot.attempts)} attempts of each tile in a leg`;
    write(this.part('size'), this.sizeText());
    this.part('alone').checked = shot.byItself;
    this.part('play').textContent = this.isAtWork && shot.mode === 'play' ? 'Pause' : 'Play';
    for (const id of ORDERS) this.part(id).disabled = !this.isAtWork;
    this.part('reload').disabled = !this.isAtWork || !head.canReload;
    const all = this.source.places.counts.reduce((sum, count) => sum + count, 0);
    this.part('abandoned-label').textContent = `${numbered(all, 'attempt')} abandoned in the last leg`;
    this.part('undo').disabled = !this.isAtWork || shot.acts.length === 0;
    this.part('done').textContent = shot.acts.length === 0 ? '' : `Done by hand before the next leg: ${shot.acts.join('; ')}`;
    this.showStroke();
    this.sayFaults();
  }

  /** How much room the chain takes, and an event of each site in it. */
  sizeText() {
    const { shot, head } = this.source;
    const aeps = shot.events / head.liveSites;
    return `The folder has ${inBytes(shot.size)}${aeps < 1 ? '' : `, ${inBytes(shot.size / aeps)} for an event of each site`}.`;
  }

  /** Shows the sites of a stroke that isn't over, or the rectangle that it spans. */
  showStroke() {
    for (const sites of [this.stroke, ...this.sent]) sites.forEach((site) => this.plane.drawFrame(site, 1, 1));
    const { drag, hands, corner, chosen } = this;
    const [from, to] = corner === null ? [drag?.from, drag?.last] : [corner, chosen];
    if (to === undefined || (hands.tool !== 'clear' && hands.tool !== 'damage')) return;
    const { site, width, height } = hands.spanned(from, to);
    this.plane.drawFrame(site, width, height);
  }
}

/** Follows the chain; another one that takes its place gets a page anew, and so does a server that was started again. */
class Following {
  constructor() {
    this.page = null; // first what is told at the beginning
    this.follow();
  }

  follow() {
    const stream = new EventSource('events');
    stream.addEventListener('begin', (event) => {
      if (this.page !== null) window.location.reload();
      else this.page = JSON.parse(event.data);
    });
    stream.addEventListener('shot', (event) => this.take(JSON.parse(event.data)));
    stream.addEventListener('anew', () => this.begunAnew());
    stream.addEventListener('error', () => {
      stream.close();
      this.seek();
    });
  }

  take(shot) {
    if (!(this.page instanceof LivePage)) {
      const source = new Live(this.page);
      source.take(shot);
      document.getElementById('film').hidden = false;
      this.page = new LivePage(source);
      this.page.fit();
    } else this.page.take(shot);
  }

  /** Shows the other chain when what was said of it is there, which the page then says. */
  async begunAnew() {
    await this.page.before;
    sessionStorage.setItem('said', document.getElementById('said').textContent);
    window.location.reload();
  }

  /** Says that the chain does not answer, and looks for it until it does. */
  async seek() {
    if (this.page instanceof LivePage) this.page.lose(true);
    else say('fault', LOST);
    do await new Promise((over) => setTimeout(over, 1000)); while (!(await isBack()));
    this.follow();
  }
}

/** Whether the page's own server is at its port: it proves that it knows the token, which isn't sent to find out. */
async function isBack() {
  const nonce = inHex(crypto.getRandomValues(new Uint8Array(16)));
  try {
    const answer = await fetch(`/hello/${nonce}`);
    const letters = new TextEncoder();
    const token = letters.encode(window.location.pathname.split('/')[1]);
    const key = await crypto.subtle.importKey('raw', token, { name: 'HMAC', hash: 'SHA-256' }, false, ['sign']);
    const proof = await crypto.subtle.sign('HMAC', key, letters.encode(`${window.location.port} ${nonce}`));
    return answer.ok && (await answer.text()) === inHex(new Uint8Array(proof));
  } catch (cause) {
    return false;
  }
}

function inHex(bytes) {
  return Array.from(bytes, (byte) => byte.toString(16).padStart(2, '0')).join('');
}

say('said', sessionStorage.getItem('said') ?? '');
sessionStorage.removeItem('said');
new Following();
