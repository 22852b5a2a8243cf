/** One measure: its number now, and its curve over the events. */
class MeasureView {
  constructor(film, measure, place, looks) {
    this.film = film;
    this.looks = looks;
    this.measure = measure;
    this.values = measure.values.map((value) => (value === '' ? null : Number(value)));
    this.least = this.values.reduce((least, value) => Math.min(least, value ?? 0), 0);
    this.most = this.values.reduce((most, value) => Math.max(most, value ?? 0), 0);
    if (this.most === this.least) this.most = this.least + 1;
    const line = made('p', `${measure.name}: `, 'measure');
    this.now = line.appendChild(made('strong', ''));
    this.canvas = made('canvas', '');
    this.canvas.setAttribute('role', 'img');
    this.canvas.setAttribute('aria-label', `Curve of ${measure.name} over the events`);
    this.curve = new OffscreenCanvas(1, 1);
    place.append(line, this.canvas);
  }

  fit() {
    const scale = window.devicePixelRatio;
    const width = this.canvas.parentElement.clientWidth;
    for (const canvas of [this.canvas, this.curve]) {
      canvas.width = Math.floor(width * scale);
      canvas.height = Math.floor(90 * scale);
    }
    this.canvas.style.height = '90px';
    this.canvas.style.width = '100%';
    this.left = 70 * scale;
    this.right = this.canvas.width - 30 * scale;
    this.top = 10 * scale;
    this.bottom = this.canvas.height - 10 * scale;
    this.drawCurve(this.curve.getContext('2d'), scale);
  }

  xOf(frame) {
    const { events } = this.film.head;
    return this.left + ((this.right - this.left) * events[frame]) / Math.max(1, events[this.film.last]);
  }

  yOf(value) {
    return this.bottom - ((this.bottom - this.top) * (value - this.least)) / (this.most - this.least);
  }

  drawCurve(pen, scale) {
    pen.fillStyle = this.looks.theme.ground;
    pen.fillRect(0, 0, this.canvas.width, this.canvas.height);
    pen.font = `${12 * scale}px system-ui, sans-serif`;
    pen.fillStyle = this.looks.theme.soft;
    pen.strokeStyle = this.looks.theme.axis;
    pen.lineWidth = scale;
    pen.textAlign = 'right';
    pen.textBaseline = 'middle';
    for (const value of [this.least, this.most]) {
      pen.strokeRect(this.left, this.yOf(value), this.right - this.left, 0);
      pen.fillText(shortly(value), this.left - 6 * scale, this.yOf(value));
    }
    pen.strokeStyle = this.looks.theme.measure;
    pen.lineWidth = 2 * scale;
    pen.lineJoin = 'round';
    pen.beginPath();
    this.values.forEach((value, frame) => {
      if (value === null) return;
      if (frame > 0 && this.values[frame - 1] !== null) pen.lineTo(this.xOf(frame), this.yOf(value));
      else pen.moveTo(this.xOf(frame), this.yOf(value));
    });
    pen.stroke();
  }

  draw() {
    const { frame } = this.film;
    this.now.textContent = this.measure.values[frame] === '' ? 'no atom' : this.measure.values[frame];
    const pen = this.canvas.getContext('2d');
    pen.drawImage(this.curve, 0, 0);
    pen.fillStyle = this.looks.theme.ink;
    pen.fillRect(this.xOf(frame) - window.devicePixelRatio, this.top, 2 * window.devicePixelRatio, this.bottom - this.top);
  }
}

/** A number in few letters. */
function shortly(value) {
  return Math.abs(value) >= 1e6 ? value.toExponential(1) : String(Math.round(value * 100) / 100);
}
