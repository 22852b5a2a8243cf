const MOST_POINTS = 2000; // of the curves; half of them are dropped when there are more

/** The bytes that stand in letters. */
function bytesOf(text) {
  return Uint8Array.from(atob(text), (letter) => letter.charCodeAt(0));
}

/** Numbers of four bytes, the lowest first. */
function numbersOf(text) {
  return new Uint32Array(bytesOf(text).buffer);
}

/** A chain at work, as it was when it was told of last. */
class Live {
  constructor(head) {
    this.head = head;
    this.acts = head.acts;
    this.columns = head.tiles[0] * head.size[0];
    this.rows = head.tiles[1] * head.size[1];
    this.kinds = new Uint16Array(this.columns * this.rows);
    this.states = new Uint8Array(9 * this.columns * this.rows);
    this.counts = new Uint32Array(head.elements.length + 1);
    this.points = head.history.map(([events, ...counts]) => ({ events, counts }));
    this.places = { sites: [], counts: [] };
    this.shot = null;
    this.version = 0; // another number for each plane
  }

  /** Takes what is told of the chain. */
  take(shot) {
    this.version++;
    this.change(shot.changes);
    this.places = { sites: numbersOf(shot.places.sites), counts: numbersOf(shot.places.counts) };
    while (this.acts.length < shot.done) this.acts.push({ events: shot.events });
    this.acts.length = shot.done; // fewer if one was taken back
    this.shot = shot;
    this.failed = shot.failed === null ? null : numbersOf(shot.failed.sites);
    const last = this.points[this.points.length - 1];
    const point = { events: shot.events, counts: Array.from(this.counts.subarray(1)) };
    if (last.events === shot.events && this.points.length > 1) this.points[this.points.length - 1] = point;
    else this.points.push(point);
    if (this.points.length > MOST_POINTS) this.points = this.points.filter((_, i, all) => i % 2 === 0 || i === all.length - 1);
  }

  change(changes) {
    const kinds = new Uint16Array(bytesOf(changes.kinds).buffer);
    const states = bytesOf(changes.states);
    const after = numbersOf(changes.after);
    numbersOf(changes.sites).forEach((site, i) => {
      const atom = after[i];
      const kind = atom === 0 ? 0 : kinds[atom - 1];
      this.counts[this.kinds[site]]--;
      this.counts[kind]++;
      this.kinds[site] = kind;
      if (atom > 0) this.states.set(states.subarray(9 * atom - 9, 9 * atom), 9 * site);
    });
  }

  get now() {
    return this.points.length - 1;
  }

  kindAt(site) {
    return this.kinds[site];
  }

  stateAt(site) {
    return this.states.subarray(9 * site, 9 * site + 9);
  }

  numberAt(site, member) {
    return numberOf(this.states, 9 * site, member);
  }

  /** What is said of the events that failed. */
  get failedText() {
    const now = numbersOf(this.shot.failed.counts).reduce((sum, count) => sum + count, 0);
    return `${numbered(now, 'event')} failed in the last leg, ${spelled(this.shot.allFailed)} since the chain was opened`;
  }

  rangeOf(kind, member) {
    let [least, greatest] = [Infinity, -Infinity];
    for (let site = 0; site < this.kinds.length; site++) {
      if (this.kinds[site] !== kind) continue;
      const value = this.numberAt(site, member);
      if (value < least) least = value;
      if (value > greatest) greatest = value;
    }
    return [least, greatest];
  }
}
