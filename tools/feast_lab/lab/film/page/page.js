const STILL = 4; // points by which a mouse may move in a click
const WRITTEN = 'input:not([type="checkbox"], [type="radio"], [type="range"]), select, textarea'; // where keys are letters
const CHOICES = 'select, input[type="checkbox"], input[type="radio"]';

/** The page as far as a film and a chain at work share it: the plane, its looks, the curves, the elements and a site. */
class Page {
  constructor(source) {
    this.source = source;
    this.chosen = null;
    this.drag = null;
    this.looks = new Looks(source);
    this.plane = new PlaneView(this.part('plane'), source, this.looks);
    this.chart = new ChartView(this.part('chart'), source, this.looks);
    this.site = new SiteView(source, this.part('site'));
    this.part('column').max = source.columns - 1;
    this.part('row').max = source.rows - 1;
    this.part('plane').setAttribute('aria-label', `Plane of ${source.columns} by ${source.rows} sites`);
    this.counts = source.head.elements.map((element, i) => this.addElement(element, i + 1));
    this.part('messages').classList.add('over');
    this.offerColors();
    this.camera = new Camera(this.part('plane'), this.part('picture'), this.part('record'));
    this.listen();
  }

  part(id) {
    return document.getElementById(id);
  }

  /** The tiles of the plane in words. */
  tilesText() {
    const { tiles, size } = this.source.head;
    const count = tiles[0] * tiles[1] === 1 ? 'one tile' : `${tiles[0]} by ${tiles[1]} tiles, each`;
    return `${count} of ${size[0]} by ${size[1]} sites`;
  }

  /** A row of the table of elements; gives back where its count is to be written. */
  addElement(element, kind) {
    const row = this.part('elements').tBodies[0].insertRow();
    const mark = made('span', element.symbol, 'mark');
    mark.style.background = element.color;
    mark.style.color = inkOn(element.color);
    const box = made('input', '');
    box.type = 'checkbox';
    box.checked = true;
    box.setAttribute('aria-label', `Show ${element.name}`);
    box.addEventListener('change', () => this.showElement(kind, box.checked));
    const label = made('label', '', 'shown');
    label.append(box, mark);
    row.insertCell().append(label);
    row.append(made('td', element.name));
    return row.appendChild(made('td', '', 'count'));
  }

  showElement(kind, isShown) {
    if (isShown) this.looks.hidden.delete(kind);
    else this.looks.hidden.add(kind);
    this.fit();
  }

  /** Offers what atoms can be coloured by. */
  offerColors() {
    const select = this.part('color-by');
    for (const [choice, text] of this.looks.choices()) select.append(new Option(text, choice));
    this.part('color-choice').hidden = select.options.length < 2;
    select.value = this.looks.choice;
  }

  on(id, what, act) {
    this.part(id).addEventListener(what, act);
  }

  listen() {
    for (const [id, look] of [['abandoned', 'showsAbandoned'], ['borders', 'showsBorders'], ['letters', 'showsLetters']]) {
      this.on(id, 'change', () => {
        this.looks[look] = this.part(id).checked;
        this.show();
      });
    }
    this.on('color-by', 'change', () => {
      this.looks.colorBy(this.part('color-by').value);
      this.plane.painted = null;
      this.show();
    });
    for (const [id, times] of [['nearer', 2], ['farther', 0.5], ['whole', 0]]) this.on(id, 'click', () => this.zoom(times));
    this.on('column', 'input', () => this.chooseTyped());
    this.on('row', 'input', () => this.chooseTyped());
    this.on('plane', 'focus', () => this.chosen === null && this.choose(0));
    this.on('plane', 'wheel', (event) => this.wheel(event));
    this.on('plane', 'pointerdown', (event) => this.grasp(event));
    this.on('plane', 'pointermove', (event) => this.move(event));
    this.on('plane', 'pointerup', (event) => this.release(event));
    this.on('plane', 'pointercancel', () => (this.drag = null));
    document.addEventListener('keydown', (event) => this.press(event));
    this.leaveChoices();
    window.addEventListener('resize', () => this.fit());
    this.looks.dark.addEventListener('change', () => this.fit());
  }

  zoom(times, x, y) {
    this.plane.zoomBy(times, x, y);
    this.show();
  }

  wheel(event) {
    event.preventDefault();
    this.zoom(2 ** (-Math.sign(event.deltaY) / 2), ...this.plane.pointAt(event));
  }

  grasp(event) {
    if (event.button > 1) return;
    this.part('plane').setPointerCapture(event.pointerId);
    this.drag = { x: event.clientX, y: event.clientY, moved: false, from: this.plane.siteAt(event) };
  }

  move(event) {
    const { drag } = this;
    if (drag === null) return;
    const [x, y] = [event.clientX - drag.x, event.clientY - drag.y];
    if (!drag.moved && Math.hypot(x, y) < STILL) return;
    Object.assign(drag, { moved: true, x: event.clientX, y: event.clientY });
    const scale = window.devicePixelRatio;
    this.plane.pan(x * scale, y * scale);
    this.show();
  }

  release(event) {
    const { drag } = this;
    this.drag = null;
    if (drag !== null && !drag.moved) this.choose(this.plane.siteAt(event));
  }

  /** Leaves a field in which something was chosen with the mouse, so that the keys are the page's again. */
  leaveChoices() {
    let isByMouse = false;
    document.addEventListener('pointerdown', () => (isByMouse = true), true);
    document.addEventListener('keydown', () => (isByMouse = false), true);
    document.addEventListener('change', ({ target }) => {
      if (isByMouse && target.matches(CHOICES)) target.blur();
    });
  }

  /** The keys, but where somebody writes, or where a field or a button has its own use for them. */
  press(event) {
    const { target } = event;
    if (event.ctrlKey || event.altKey || event.metaKey || event.isComposing || target.matches(WRITTEN)) return;
    // a letter is the same with Shift and with Caps Lock, and a sign is what it is on whatever key the layout has it
    const key = event.key.length === 1 ? event.key.toLowerCase() : event.key;
    if (this.act(key, event)) event.preventDefault();
  }

  /** Does what a key is for; whether it is for something. */
  act(key, { target, shiftKey, repeat }) {
    const isOnPlane = target === this.part('plane');
    const times = { '+': 2, '-': 0.5, 0: 0 }[key];
    if (isOnPlane && shiftKey && this.walk(key)) return true;
    if (isOnPlane && key === 'Enter') return repeat || this.use();
    if (times !== undefined) {
      this.zoom(times);
      return true;
    }
    if (key === ' ' && !target.matches('button, input:not([type="radio"])')) {
      if (!repeat) this.toggle();
      return true;
    }
    if (key.length === 1) return repeat || this.pressed(key);
    return !shiftKey && !(key.startsWith('Arrow') && target.matches('[type="radio"]')) && this.pressed(key);
  }

  /** What Enter does at the chosen site; whether it does something. */
  use() {
    return false;
  }

  /** What the page does on a key of its own; whether it is one. */
  pressed() {
    return false;
  }

  /** Moves the chosen site by a key; whether it is one that does. */
  walk(key) {
    const way = { ArrowLeft: [-1, 0], ArrowRight: [1, 0], ArrowUp: [0, -1], ArrowDown: [0, 1] }[key];
    if (way === undefined) return false;
    const { columns, rows } = this.source;
    const site = this.chosen ?? 0;
    const column = Math.min(columns - 1, Math.max(0, (site % columns) + way[0]));
    const row = Math.min(rows - 1, Math.max(0, Math.floor(site / columns) + way[1]));
    this.choose(row * columns + column);
    return true;
  }

  choose(site) {
    if (site === null) return;
    this.chosen = site;
    this.part('column').value = site % this.source.columns;
    this.part('row').value = Math.floor(site / this.source.columns);
    this.show();
    this.hear(this.site.text(site));
  }

  /** Has a screen reader say something. What changes by itself, frame by frame, is never said so. */
  hear(text) {
    this.part('heard').textContent = text;
  }

  /** Chooses the site whose column and row were typed, where both are of the plane. */
  chooseTyped() {
    const [column, row] = [this.part('column'), this.part('row')];
    if (column.value === '' || row.value === '' || !column.checkValidity() || !row.checkValidity()) return;
    this.chosen = Number(row.value) * this.source.columns + Number(column.value);
    this.show();
    this.hear(this.site.text(this.chosen));
  }

  /** Makes everything as big as the window lets it be. */
  fit() {
    this.plane.fit();
    this.chart.fit();
    this.show();
  }

  /** Shows the plane and what is said about it. */
  show() {
    const { source, looks } = this;
    const { counts } = source.points[source.now];
    this.counts.forEach((cell, i) => write(cell, spelled(counts[i])));
    this.site.show(this.chosen);
    this.plane.draw(this.chosen);
    this.chart.draw();
    write(this.part('small'), this.plane.smallText());
    this.part('cuts').hidden = source.acts.length === 0;
    this.part('scales').replaceChildren(...Array.from(looks.tints.values(), (tint) => tint.legend()));
  }
}
