/** The state of an atom as one number of 71 bits. */
function stateOf(bytes) {
  return bytes.reduce((state, byte) => state * 256n + BigInt(byte), 0n);
}

/** The value of a member in a state, as its type reads it. */
function valueOf(state, { kind, first, width }) {
  const bits = BigInt.asUintN(width, state >> BigInt(71 - first - width));
  if (kind === 'Int') return BigInt.asIntN(width, bits).toString();
  if (kind === 'Bool') return bits === 0n ? 'false' : 'true';
  if (kind === 'Unary') return String(bits.toString(2).replaceAll('0', '').length);
  return bits.toString();
}

/** The value of a member as a number, which is near it if it has more than 53 bits; the state begins at a byte. */
function numberOf(bytes, start, { kind, first, width }) {
  let value = 0;
  let ones = 0;
  for (let bit = first + 1; bit <= first + width; bit++) {
    const one = (bytes[start + (bit >> 3)] >> (7 - (bit & 7))) & 1;
    value = 2 * value + one;
    ones += one;
  }
  if (kind === 'Unary') return ones;
  const isNegative = kind === 'Int' && (bytes[start + ((first + 1) >> 3)] >> (7 - ((first + 1) & 7))) & 1;
  return isNegative ? value - 2 ** width : value;
}

/** The tile that owns a site. */
function tileOf({ tiles, size }, column, row) {
  return Math.floor(row / size[1]) * tiles[0] + Math.floor(column / size[0]);
}

/** A number as a reader wants it, with a comma between thousands. */
function spelled(number) {
  return number.toLocaleString('en-US');
}

/** A number of things, whose name is that of one. */
function numbered(number, name) {
  return `${spelled(number)} ${name}${number === 1 ? '' : 's'}`;
}

/** A number of bytes, with the unit that suits it. */
function inBytes(count) {
  const power = Math.min(4, Math.max(0, Math.floor(Math.log10(Math.max(count, 1)) / 3)));
  return `${(count / 1000 ** power).toFixed(power === 0 ? 0 : 1)} ${['B', 'kB', 'MB', 'GB', 'TB'][power]}`;
}

/** An HTML element with a text. */
function made(name, text, className = '') {
  const node = document.createElement(name);
  node.textContent = text;
  node.className = className;
  return node;
}

/** Writes a text in a part of the page; what stands there already is left, so that nothing reads it out again. */
function write(node, text) {
  if (node.textContent !== text) node.textContent = text;
}

/** The part of the page that shows one site: its place, its atom and the members of it. */
class SiteView {
  constructor(source, place) {
    this.source = source;
    this.place = place;
    this.shown = ''; // the site and the atom that are
  }

  /** Shows a site, if it isn't shown as it is. */
  show(site) {
    const shown = site === null ? 'none' : `${site} ${this.source.kindAt(site)} ${this.source.stateAt(site)}`;
    if (shown === this.shown) return;
    this.shown = shown;
    const hint = made('p', 'Click a site of the plane to see its atom.', 'hint');
    this.place.replaceChildren(...(site === null ? [hint] : this.told(site)));
  }

  /** A site and its atom in a line. */
  text(site) {
    const kind = this.source.kindAt(site);
    const name = kind === 0 ? 'Empty' : this.source.head.elements[kind - 1].name;
    return `Column ${site % this.source.columns}, row ${Math.floor(site / this.source.columns)}: ${name}`;
  }

  told(site) {
    const { head, columns } = this.source;
    const column = site % columns;
    const row = Math.floor(site / columns);
    const tile = tileOf(head, column, row);
    const off = head.off.includes(tile) ? ', which is off' : '';
    const kind = this.source.kindAt(site);
    const where = made('p', `Column ${column}, row ${row}, in tile ${tile}${off}: `);
    where.append(made('strong', kind === 0 ? 'Empty' : head.elements[kind - 1].name));
    return kind === 0 ? [where] : [where, this.membersOf(head.elements[kind - 1], stateOf(this.source.stateAt(site)))];
  }

  membersOf(element, state) {
    const list = document.createElement('dl');
    for (const member of element.members) {
      list.append(made('dt', member.name), made('dd', valueOf(state, member)));
    }
    list.append(made('dt', 'whole state'), made('dd', state.toString(16).padStart(18, '0')));
    return list;
  }
}
