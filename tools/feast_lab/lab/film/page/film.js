const PART = 1 << 20; // letters that are unpacked at once; a multiple of four

/** The bytes of a film, read as one number after another. */
class Reader {
  constructor(bytes) {
    this.bytes = bytes;
    this.at = 0;
  }

  /** The next number: seven bits a byte, the lowest first; each byte but the last has its top bit set. */
  number() {
    let value = 0;
    for (let scale = 1; ; scale *= 128) {
      const byte = this.bytes[this.at++];
      value += (byte % 128) * scale;
      if (byte < 128) return value;
    }
  }

  /** The next `count` bytes. */
  take(count) {
    this.at += count;
    return this.bytes.subarray(this.at - count, this.at);
  }

  /** The sites that stand here, each with its number: how many there are, the sites, and then their numbers. */
  places() {
    const sites = this.sites();
    return { sites, counts: Uint32Array.from(sites, () => this.number()) };
  }

  /** How many sites there are, and these, each told by its distance from the one before. */
  sites() {
    const found = new Uint32Array(this.number());
    let site = -1;
    for (let i = 0; i < found.length; i++) found[i] = site += this.number() + 1;
    return found;
  }

  /** Passes over so many numbers. */
  pass(count) {
    for (let left = count; left > 0; this.at++) if (this.bytes[this.at] < 128) left--;
  }
}

/** The bytes that stand in the page, compressed, as letters. They are read part by part, so that none is kept twice. */
async function unpack(text) {
  let at = 0;
  const packed = new ReadableStream({
    pull(stream) {
      const letters = atob(text.slice(at, (at += PART)));
      const bytes = new Uint8Array(letters.length);
      for (let i = 0; i < bytes.length; i++) bytes[i] = letters.charCodeAt(i);
      if (bytes.length > 0) stream.enqueue(bytes);
      else stream.close();
    },
  });
  return new Uint8Array(await new Response(packed.pipeThrough(new DecompressionStream('gzip'))).arrayBuffer());
}

/**
 * A film: the plane as it is at the frame that is shown, and how to get to any other frame.
 *
 * The frames stay the bytes that they are, each read when it is gone to: frame f is the sites that changed and their
 * atoms, from the byte `starts[f]` on. Atoms are numbered from 1 by their kind and state; 0 is Empty. Their states lie
 * one behind another, nine bytes each. The whole plane is kept of some frames, from which one can go back.
 */
class Film {
  constructor(head, bytes) {
    this.head = head;
    this.columns = head.tiles[0] * head.size[0];
    this.rows = head.tiles[1] * head.size[1];
    this.last = head.events.length - 1;
    this.acts = head.acts;
    this.reader = new Reader(bytes);
    this.read = new Map(); // the places that were read last
    this.readAtoms();
    this.reader.pass(1); // how many changes there are in all
    this.playThrough();
    this.placeStarts = this.passPlaces();
    this.failureStarts = head.failed === null ? null : this.passPlaces();
    this.goTo(0);
  }

  readAtoms() {
    const { reader } = this;
    const count = reader.number();
    this.kinds = new Uint16Array(count + 1);
    this.states = new Uint8Array(9 * (count + 1));
    for (let atom = 1; atom <= count; atom++) {
      this.kinds[atom] = reader.number();
      this.states.set(reader.take(9), 9 * atom);
    }
  }

  /** Plays all frames once: notes where each begins, its counts, and the plane of each one at which one can begin. */
  playThrough() {
    const { reader } = this;
    this.cells = new Uint32Array(this.columns * this.rows);
    this.starts = new Float64Array(this.last + 1);
    this.stride = Math.ceil(Math.sqrt(this.last + 1)); // so many frames from one whole plane to the next
    this.wholes = [];
    this.points = [];
    const counts = new Uint32Array(this.head.elements.length + 1);
    for (let frame = 0; frame <= this.last; frame++) {
      this.starts[frame] = reader.at;
      this.change(reader, counts);
      if (frame % this.stride === 0) this.wholes.push(this.cells.slice());
      this.points.push({ events: this.head.events[frame], counts: counts.slice(1) });
    }
    this.frame = this.last;
  }

  /** Where the places of each frame begin. */
  passPlaces() {
    const { reader } = this;
    const starts = new Float64Array(this.last + 1);
    for (let frame = 0; frame <= this.last; frame++) {
      starts[frame] = reader.at;
      reader.pass(2 * reader.number());
    }
    return starts;
  }

  /** Takes the changes of a frame, and counts them, if they are to be counted. */
  change(reader, counts = null) {
    const sites = reader.sites();
    for (let i = 0; i < sites.length; i++) {
      const atom = reader.number();
      if (counts !== null) {
        counts[this.kinds[this.cells[sites[i]]]]--;
        counts[this.kinds[atom]]++;
      }
      this.cells[sites[i]] = atom;
    }
  }

  /** Makes the plane that of a frame, which may be any. */
  goTo(frame) {
    const whole = Math.floor(frame / this.stride);
    if (frame < this.frame || whole > Math.floor(this.frame / this.stride)) {
      this.cells.set(this.wholes[whole]);
      this.frame = whole * this.stride;
    }
    while (this.frame < frame) {
      this.frame++;
      this.reader.at = this.starts[this.frame];
      this.change(this.reader);
    }
  }

  /** The places of a frame, which are read when they are asked for. */
  placesAt(starts) {
    if (this.read.get(starts)?.frame !== this.frame) {
      this.reader.at = starts[this.frame];
      this.read.set(starts, { frame: this.frame, places: this.reader.places() });
    }
    return this.read.get(starts).places;
  }

  /** Another number for each plane that is shown. */
  get version() {
    return this.frame;
  }

  /** The number of the point of the curves that is shown. */
  get now() {
    return this.frame;
  }

  /** The sites where attempts were abandoned since the frame before, and how many at each. */
  get places() {
    return this.placesAt(this.placeStarts);
  }

  /** The sites where events failed since the frame before; null if that isn't known. */
  get failed() {
    return this.failureStarts === null ? null : this.placesAt(this.failureStarts).sites;
  }

  /** What is said of the events that failed. */
  get failedText() {
    const { failed } = this.head;
    const all = failed.reduce((sum, count) => sum + count, 0);
    return `${numbered(failed[this.frame], 'event')} failed since the frame before, ${spelled(all)} in all`;
  }

  /** The element at a site, counted from 1; 0 for none. */
  kindAt(site) {
    return this.kinds[this.cells[site]];
  }

  /** The nine bytes of the state at a site. */
  stateAt(site) {
    return this.states.subarray(9 * this.cells[site], 9 * this.cells[site] + 9);
  }

  /** The value of a member at a site, as a number. */
  numberAt(site, member) {
    return numberOf(this.states, 9 * this.cells[site], member);
  }

  /** The least and the greatest value that a member of an element has in the film. */
  rangeOf(kind, member) {
    let [least, greatest] = [Infinity, -Infinity];
    for (let atom = 1; atom < this.kinds.length; atom++) {
      if (this.kinds[atom] !== kind) continue;
      const value = numberOf(this.states, 9 * atom, member);
      least = Math.min(least, value);
      greatest = Math.max(greatest, value);
    }
    return [least, greatest];
  }
}
