/** The red, green and blue of a colour such as #0072b2. */
function partsOf(color) {
  return [1, 3, 5].map((at) => parseInt(color.slice(at, at + 2), 16));
}

/** How bright a colour is to the eye, from 0 to 1. */
function brightness(color) {
  const linear = partsOf(color).map((part) => (part <= 10 ? part / 3294.6 : ((part / 255 + 0.055) / 1.055) ** 2.4));
  return 0.2126 * linear[0] + 0.7152 * linear[1] + 0.0722 * linear[2];
}

/** Black or white, whichever can be read better on a colour. */
function inkOn(color) {
  return brightness(color) > 0.18 ? '#000' : '#fff';
}

// From few to many: each step is brighter than the one before (after viridis).
const STOPS = ['#440154', '#414487', '#2a788e', '#22a884', '#7ad151', '#fde725'];

/** 64 colours from the first of the stops to the last, as #rrggbb. */
const SCALE = Array.from({ length: 64 }, (_, step) => {
  const at = Math.min((step / 63) * (STOPS.length - 1), STOPS.length - 1.000001);
  const [one, other] = [STOPS[Math.floor(at)], STOPS[Math.floor(at) + 1]].map(partsOf);
  const mixed = one.map((part, i) => Math.round(part + (at % 1) * (other[i] - part)));
  return `#${mixed.map((part) => part.toString(16).padStart(2, '0')).join('')}`;
});

/** The colours of the page's own parts on its canvases. */
const THEMES = {
  light: { empty: '#ffffff', grid: '#e3e3df', border: '#3c444c', off: '#b9bdc1', ink: '#1b1f24', soft: '#4a5560', axis: '#e0e2e4',
    edge: '#59636d', dot: '#6b6b6b', ground: '#ffffff', other: '#c9cdd1', measure: '#0b57d0' },
  dark: { empty: '#2b3138', grid: '#3a424b', border: '#b4bcc4', off: '#59616a', ink: '#f0f2f4', soft: '#b4bcc4', axis: '#4a535c',
    edge: '#c3c9cf', dot: '#a9b0b7', ground: '#1f2429', other: '#5c646d', measure: '#8ab4ff' },
};

const GIVEN = 'given'; // the choice of the colours that a page begins with, if it names members

/** What is shown of a plane, and in which colours. */
class Looks {
  constructor(source) {
    this.source = source;
    this.hidden = new Set();
    this.showsBorders = true;
    this.showsLetters = true;
    this.showsAbandoned = true;
    this.dark = window.matchMedia('(prefers-color-scheme: dark)');
    this.given = source.head.colorBy.filter((it) => memberOf(source, it) !== undefined);
    this.colorBy(this.given.length === 0 ? '' : GIVEN);
  }

  get theme() {
    return this.dark.matches ? THEMES.dark : THEMES.light;
  }

  /** All members of all elements. */
  members() {
    return this.source.head.elements.flatMap(({ name, members }) => members.map((it) => ({ element: name, member: it.name })));
  }

  /** What atoms can be coloured by but for their elements, each choice with its text. */
  choices() {
    const given = this.given.length === 0 ? [] : [[GIVEN, `element and ${this.given.map(nameOf).join(', ')}`]];
    return [...given, ...this.members().map((it) => [nameOf(it), nameOf(it)])];
  }

  /** Colours atoms by a choice: a member, such as `Field.dist`, those that the page names, or none. */
  colorBy(choice) {
    this.choice = choice;
    const wanted = choice === GIVEN ? this.given : this.members().filter((it) => nameOf(it) === choice);
    this.tints = new Map(wanted.map((it) => [kindOf(this.source, it), new Tint(this.source, it)]));
    this.measure();
  }

  /** Widens the ranges of the colours to the values that there are by now. */
  measure() {
    for (const tint of this.tints.values()) tint.measure();
  }

  /** The colour of an element's atoms if they aren't coloured by a member: grey beside a member that was chosen. */
  plainColor(kind) {
    const isGrey = this.tints.size > 0 && this.choice !== GIVEN;
    return isGrey ? this.theme.other : this.source.head.elements[kind - 1].color;
  }

  /** The colour of the atom at a site, as #rrggbb; null if none is shown. */
  colorAt(site) {
    const kind = this.source.kindAt(site);
    if (kind === 0 || this.hidden.has(kind)) return null;
    const tint = this.tints.get(kind);
    return tint === undefined ? this.plainColor(kind) : tint.colors[tint.levelAt(site)];
  }
}
