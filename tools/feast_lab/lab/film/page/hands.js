/** What hands can do to the plane: the chosen tool, its settings, and the act that a stroke of it makes. */
class Hands {
  constructor(source) {
    this.source = source;
    this.values = document.getElementById('values');
    for (const { name } of source.head.elements) this.field('element').append(new Option(name, name));
    this.field('element').addEventListener('change', () => this.offerMembers());
    for (const radio of document.querySelectorAll('input[name="tool"]')) {
      radio.addEventListener('change', () => this.showSettings());
    }
    this.offerMembers();
    this.showSettings();
  }

  field(id) {
    return document.getElementById(id);
  }

  get tool() {
    return document.querySelector('input[name="tool"]:checked').value;
  }

  /** Shows the settings of the chosen tool alone. */
  showSettings() {
    for (const part of document.querySelectorAll('[data-tools]')) {
      part.hidden = !part.dataset.tools.split(' ').includes(this.tool);
    }
  }

  /** A field for each member of the chosen element. */
  offerMembers() {
    const { members } = this.source.head.elements.find(({ name }) => name === this.field('element').value);
    this.values.replaceChildren(...members.map((member) => {
      const input = made('input', '');
      input.dataset.member = member.name;
      input.placeholder = '0';
      input.size = 8;
      input.title = `from ${member.least} to ${member.greatest}`;
      const label = made('label', `${member.name} `);
      label.append(input);
      return label;
    }));
  }

  /** Whether a stroke paints site by site, and does not span a rectangle. */
  get isBrush() {
    return this.tool === 'paint' || this.tool === 'erase';
  }

  /** The sites of the brush about a site. */
  brushAt(site) {
    const { columns, rows } = this.source;
    const reach = (Number(this.field('brush').value) - 1) / 2;
    const [column, row] = [site % columns, Math.floor(site / columns)];
    const found = [];
    for (let y = Math.max(0, row - reach); y <= Math.min(rows - 1, row + reach); y++) {
      for (let x = Math.max(0, column - reach); x <= Math.min(columns - 1, column + reach); x++) found.push(y * columns + x);
    }
    return found;
  }

  /** The sites of a line from one site to another, so that a quick stroke has no gaps. */
  between(from, to) {
    const { columns } = this.source;
    const [x, y] = [from % columns, Math.floor(from / columns)];
    const [across, down] = [(to % columns) - x, Math.floor(to / columns) - y];
    const steps = Math.max(Math.abs(across), Math.abs(down), 1);
    return Array.from({ length: steps + 1 }, (_, i) =>
      Math.round(y + (down * i) / steps) * columns + Math.round(x + (across * i) / steps));
  }

  /** The rectangle that two sites span: its first site, its width and its height. */
  spanned(from, to) {
    const { columns } = this.source;
    const [x, y] = [Math.min(from % columns, to % columns), Math.min(Math.floor(from / columns), Math.floor(to / columns))];
    const width = Math.abs((from % columns) - (to % columns)) + 1;
    const height = Math.abs(Math.floor(from / columns) - Math.floor(to / columns)) + 1;
    return { site: y * columns + x, width, height };
  }

  /** Sites as an act has them: runs of sites in a row, joined by `+`. */
  areaOf(sites) {
    const { columns } = this.source;
    const runs = [];
    for (const site of [...sites].sort((one, other) => one - other)) {
      const last = runs[runs.length - 1];
      if (last !== undefined && last.end === site && site % columns > 0) last.end++;
      else runs.push({ first: site, end: site + 1 });
    }
    return runs.map(({ first, end }) => {
      const place = `${first % columns},${Math.floor(first / columns)}`;
      return end - first === 1 ? place : `${place},${end - first},1`;
    }).join('+');
  }

  /** The act of a stroke of the brush over sites. */
  actOn(sites) {
    if (this.tool === 'erase') return `clear:${this.areaOf(sites)}`;
    const given = [...this.values.querySelectorAll('input')].filter((input) => input.value.trim() !== '');
    const values = given.map((input) => `${input.dataset.member}=${input.value.trim()}`);
    return ['put', this.field('element').value, ...(values.length > 0 ? [values.join(',')] : []), this.areaOf(sites)].join(':');
  }

  /** The act on a rectangle. */
  actOnRectangle({ site, width, height }) {
    const { columns } = this.source;
    const area = `${site % columns},${Math.floor(site / columns)},${width},${height}`;
    if (this.tool === 'clear') return `clear:${area}`;
    return `${this.field('harm').value}:${this.field('chance').value.trim()}:${area}`;
  }
}
