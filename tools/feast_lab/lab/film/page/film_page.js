/** The page of a film: which frame is shown, and what the controls do. */
class FilmPage extends Page {
  constructor(film) {
    super(film);
    this.timer = null;
    this.part('slider').max = film.last;
    this.abandoned = film.head.abandoned.reduce((sum, count) => sum + count, 0);
    this.part('abandoned-choice').hidden = this.abandoned === 0;
    this.part('mixed').hidden = film.head.mixed === '';
    this.part('mixed').textContent = film.head.mixed;
    this.part('about').textContent = this.aboutText();
    this.measures = film.head.measures.map((measure) => new MeasureView(film, measure, this.part('measures'), this.looks));
    this.failures = new FailuresView(film, this.plane, this.part('elements').parentElement, () => this.show());
    this.readAddress();
    this.fit();
  }

  aboutText() {
    const { head, last } = this.source;
    const gaveUp = this.abandoned === 0 ? '' : ` and ${numbered(this.abandoned, 'abandoned attempt')}`;
    return `A run of ${numbered(head.events[last], 'event')}${gaveUp} on ${this.tilesText()}.`;
  }

  listen() {
    super.listen();
    this.on('play', 'click', () => this.toggle());
    this.on('back', 'click', () => this.step(-1));
    this.on('on', 'click', () => this.step(1));
    this.on('slider', 'input', () => this.pauseAt(Number(this.part('slider').value)));
    this.on('speed', 'change', () => this.timer !== null && this.play());
    this.on('chart', 'click', (event) => this.pauseAt(this.chart.pointAt(event)));
    window.addEventListener('hashchange', () => this.readAddress() && this.pause());
  }

  /** Goes to the frame that the address names, as `#frame=200`; whether it names one. */
  readAddress() {
    const match = /^#frame=(\d+)$/.exec(window.location.hash);
    if (match !== null) this.source.goTo(Math.min(this.source.last, Number(match[1])));
    return match !== null;
  }

  pressed(key) {
    const steps = { ArrowLeft: -1, ArrowRight: 1, Home: -this.source.last, End: this.source.last };
    if (!(key in steps)) return false;
    this.step(steps[key]);
    return true;
  }

  toggle() {
    if (this.timer !== null) this.pause();
    else {
      if (this.source.frame === this.source.last) this.source.goTo(0);
      this.play();
    }
  }

  play() {
    clearInterval(this.timer);
    this.timer = setInterval(() => this.tick(), 1000 / Number(this.part('speed').value));
    this.show();
  }

  tick() {
    if (this.source.frame < this.source.last) this.source.goTo(this.source.frame + 1);
    if (this.source.frame === this.source.last) this.pause();
    else this.show();
  }

  pause() {
    clearInterval(this.timer);
    this.timer = null;
    this.show();
  }

  pauseAt(frame) {
    this.source.goTo(Math.min(this.source.last, Math.max(0, frame)));
    this.pause();
  }

  step(frames) {
    this.pauseAt(this.source.frame + frames);
  }

  fit() {
    for (const measure of this.measures) measure.fit();
    super.fit();
  }

  /** Shows the frame at which the film is. */
  show() {
    super.show();
    this.failures.show();
    for (const measure of this.measures) measure.draw();
    const { frame, last, head, acts } = this.source;
    const [events, all] = [head.events[frame], head.events[last]];
    const eachSite = (events / head.liveSites).toFixed(2);
    const moment = `Frame ${frame} of ${last}: after ${spelled(events)} of ${spelled(all)} events (${eachSite} for each site)`;
    this.part('moment').textContent = moment;
    this.part('slider').value = frame;
    this.part('slider').setAttribute('aria-valuetext', moment);
    this.part('play').textContent = this.timer === null ? 'Play' : 'Pause';
    this.part('abandoned-label').textContent = `${numbered(head.abandoned[frame], 'attempt')} abandoned since the frame before`;
    const done = frame > 0 && head.events[frame - 1] === events ? acts.filter((act) => act.events === events) : [];
    this.part('done').textContent = done.length === 0 ? '' : `Done by hand: ${done.map((act) => act.text).join('; ')}`;
  }
}

/** Unpacks the film and shows its first frame, or says why it can't. */
async function begin() {
  const fault = document.getElementById('fault');
  try {
    const head = JSON.parse(document.getElementById('head').textContent);
    const film = new Film(head, await unpack(document.getElementById('frames').textContent));
    document.getElementById('film').hidden = false;
    new FilmPage(film);
  } catch (cause) {
    fault.hidden = false;
    fault.textContent = `This browser can't show the film (it takes Chrome 85, Firefox 113, Safari 16.4 or later): ${cause}`;
  }
}

begin();
