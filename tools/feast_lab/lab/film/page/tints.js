/** The number of the element that a choice of a colour names, counted from 1. */
function kindOf(source, { element }) {
  return source.head.elements.findIndex(({ name }) => name === element) + 1;
}

/** The member that a choice of a colour names; undefined if there is none. */
function memberOf(source, { element, member }) {
  return source.head.elements.find(({ name }) => name === element)?.members.find(({ name }) => name === member);
}

function nameOf({ element, member }) {
  return `${element}.${member}`;
}

/** The colours of an element's atoms by the value of a member, from the least value to the greatest. */
class Tint {
  /** The ends are texts, since they may have 64 bits; without them they are measured. */
  constructor(source, { element, member, least, greatest, colors = SCALE }) {
    this.source = source;
    this.name = nameOf({ element, member });
    this.kind = kindOf(source, { element });
    this.member = memberOf(source, { element, member });
    this.colors = colors;
    this.isMeasured = least === undefined;
    this.ends = this.isMeasured ? [] : [least, greatest].map((end) => spelled(BigInt(end)));
    this.range = this.isMeasured ? [Infinity, -Infinity] : [Number(least), Number(greatest)];
  }

  /** Widens the range to the values that there are by now, if it wasn't given. */
  measure() {
    if (!this.isMeasured) return;
    const [least, greatest] = this.source.rangeOf(this.kind, this.member);
    this.range = [Math.min(this.range[0], least), Math.max(this.range[1], greatest)];
    this.ends = this.range.map((end) => (Number.isFinite(end) ? spelled(end) : ''));
  }

  /** Which of the colours the atom at a site has. */
  levelAt(site) {
    const [least, greatest] = this.range;
    if (greatest <= least) return 0;
    return Math.floor(((this.source.numberAt(site, this.member) - least) * (this.colors.length - 1)) / (greatest - least));
  }

  /** The member, and its colours between the least and the greatest value, as a part of the page. */
  legend() {
    const bar = made('span', '', 'scale');
    bar.style.background = `linear-gradient(to right, ${this.colors.join(', ')})`;
    const line = made('p', `${this.name}: ${this.ends[0]} `, 'hint');
    line.append(bar, ` ${this.ends[1]}`);
    return line;
  }
}
