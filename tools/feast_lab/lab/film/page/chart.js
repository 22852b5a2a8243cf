/** The least of 1, 2 and 5 times a power of ten that cuts a length into at most so many parts. */
function stepOf(length, parts) {
  const power = 10 ** Math.floor(Math.log10(Math.max(length / parts, 1)));
  return [1, 2, 5, 10].map((times) => times * power).find((step) => length / step <= parts);
}

/** The curves of the counts over the events, with a cursor at the frame that is shown. */
class ChartView {
  constructor(canvas, source, looks) {
    this.canvas = canvas;
    this.pen = canvas.getContext('2d');
    this.source = source;
    this.looks = looks;
    this.curves = new OffscreenCanvas(1, 1);
  }

  /** Takes the width that the page has, and draws the curves, which stay as they are while there are no new points. */
  fit() {
    const { points } = this.source;
    const shown = this.source.head.elements.map((_, i) => !this.looks.hidden.has(i + 1));
    this.most = points.reduce((most, { counts }) => Math.max(most, ...counts.filter((_, i) => shown[i])), 1);
    this.events = Math.max(1, points[points.length - 1].events);
    this.scale = window.devicePixelRatio;
    const width = this.canvas.parentElement.clientWidth;
    const height = 170;
    for (const canvas of [this.canvas, this.curves]) {
      canvas.width = Math.floor(width * this.scale);
      canvas.height = Math.floor(height * this.scale);
    }
    this.canvas.style.height = `${height}px`;
    this.left = (16 + 8 * spelled(this.most).length) * this.scale;
    this.right = this.canvas.width - 30 * this.scale;
    this.top = 10 * this.scale;
    this.bottom = this.canvas.height - 38 * this.scale;
    const pen = this.curves.getContext('2d');
    pen.fillStyle = this.looks.theme.ground;
    pen.fillRect(0, 0, this.canvas.width, this.canvas.height);
    this.drawAxes(pen);
    this.source.head.elements.forEach((element, i) => shown[i] && this.drawCurve(pen, element, i));
    this.drawSymbols(pen);
  }

  xOf(events) {
    return this.left + ((this.right - this.left) * events) / this.events;
  }

  yOf(count) {
    return this.bottom - ((this.bottom - this.top) * count) / this.most;
  }

  drawAxes(pen) {
    const { scale } = this;
    pen.font = `${12 * scale}px system-ui, sans-serif`;
    pen.fillStyle = this.looks.theme.soft;
    pen.strokeStyle = this.looks.theme.axis;
    pen.lineWidth = scale;
    pen.textBaseline = 'middle';
    pen.textAlign = 'right';
    const rise = stepOf(this.most, 5);
    for (let count = 0; count <= this.most; count += rise) {
      pen.strokeRect(this.left, this.yOf(count), this.right - this.left, 0);
      pen.fillText(spelled(count), this.left - 6 * scale, this.yOf(count));
    }
    pen.textBaseline = 'top';
    pen.textAlign = 'center';
    const stride = stepOf(this.events, Math.max(2, Math.floor((this.right - this.left) / (110 * scale))));
    for (let events = 0; events <= this.events; events += stride) {
      pen.strokeRect(this.xOf(events), this.bottom, 0, 4 * scale);
      pen.fillText(spelled(events), this.xOf(events), this.bottom + 6 * scale);
    }
    pen.fillText('events', (this.left + this.right) / 2, this.bottom + 21 * scale);
    pen.strokeStyle = this.looks.theme.edge;
    pen.setLineDash([4 * scale, 4 * scale]);
    for (const { events } of this.source.acts) pen.strokeRect(this.xOf(events), this.top, 0, this.bottom - this.top);
    pen.setLineDash([]);
  }

  /** One curve, in the colour of its element; one that is as bright as the ground gets an edge. */
  drawCurve(pen, element, index) {
    pen.beginPath();
    for (const { events, counts } of this.source.points) pen.lineTo(this.xOf(events), this.yOf(counts[index]));
    pen.lineJoin = 'round';
    if (this.isFaint(element.color)) {
      pen.strokeStyle = this.looks.theme.edge;
      pen.lineWidth = 4 * this.scale;
      pen.stroke();
    }
    pen.strokeStyle = element.color;
    pen.lineWidth = 2 * this.scale;
    pen.stroke();
  }

  /** Whether a curve of a colour can hardly be told from the ground. */
  isFaint(color) {
    return this.looks.dark.matches ? brightness(color) < 0.1 : brightness(color) > 0.6;
  }

  /** The symbol of each element at the end of its curve; none stands over another. */
  drawSymbols(pen) {
    const { scale } = this;
    const last = this.source.points[this.source.points.length - 1].counts;
    const ends = this.source.head.elements.map((element, i) => ({ symbol: element.symbol, y: this.yOf(last[i]), kind: i + 1 }))
      .filter(({ kind }) => !this.looks.hidden.has(kind));
    ends.sort((one, other) => one.y - other.y);
    const high = 13 * scale;
    for (let i = 1; i < ends.length; i++) ends[i].y = Math.max(ends[i].y, ends[i - 1].y + high);
    let below = this.bottom + high;
    for (let i = ends.length - 1; i >= 0; i--) below = ends[i].y = Math.min(ends[i].y, below - high);
    pen.font = `600 ${12 * scale}px system-ui, sans-serif`;
    pen.textAlign = 'left';
    pen.textBaseline = 'middle';
    pen.fillStyle = this.looks.theme.ink;
    for (const end of ends) pen.fillText(end.symbol, this.right + 5 * scale, end.y);
  }

  draw() {
    const { pen, scale } = this;
    pen.drawImage(this.curves, 0, 0);
    pen.fillStyle = this.looks.theme.ink;
    const { events } = this.source.points[this.source.now];
    pen.fillRect(Math.min(this.right, this.xOf(events)) - scale, this.top, 2 * scale, this.bottom - this.top);
  }

  /** The point of the curves that is nearest to where a click was. */
  pointAt(event) {
    const box = this.canvas.getBoundingClientRect();
    const x = ((event.clientX - box.left) / box.width) * this.canvas.width;
    const wanted = ((x - this.left) / (this.right - this.left)) * this.events;
    const { points } = this.source;
    let nearest = 0;
    points.forEach(({ events }, i) => {
      if (Math.abs(events - wanted) < Math.abs(points[nearest].events - wanted)) nearest = i;
    });
    return nearest;
  }
}
