const MOST_ZOOM = 64; // points of the screen that a site has at most
const SMALL = 4; // points below which a site is hard to see
const ENOUGH = 720; // points of a window's height that are the plane's alone; of more, some show the curves
const MOST_CURVES = 160;

/** The plane on its canvas: atoms, borders of tiles, abandoned attempts and the chosen site. */
class PlaneView {
  constructor(canvas, source, looks) {
    this.canvas = canvas;
    this.pen = canvas.getContext('2d');
    this.source = source;
    this.looks = looks;
    this.small = new OffscreenCanvas(source.columns, source.rows);
    this.image = new ImageData(source.columns, source.rows);
    this.words = new Uint32Array(this.image.data.buffer);
    this.painted = null; // the version of the source whose sites are, with the looks of now
    this.zoom = 1;
    this.left = 0;
    this.top = 0;
  }

  /** Takes the greatest size of a site, in whole points of the screen, with which the plane and its controls fit. */
  fit() {
    this.painted = null;
    const scale = window.devicePixelRatio;
    const { columns, rows } = this.source;
    const stage = this.canvas.closest('section');
    const beside = stage.getBoundingClientRect().top + window.scrollY + stage.offsetHeight - this.canvas.offsetHeight;
    const curves = Math.min(MOST_CURVES, 0.8 * Math.max(0, window.innerHeight - ENOUGH));
    const wide = (this.canvas.parentElement.clientWidth * scale - 2) / columns;
    const high = (Math.max(260, window.innerHeight - beside - curves) * scale - 2) / rows;
    this.least = Math.max(1, Math.floor(Math.min(wide, high, MOST_ZOOM * scale)));
    this.canvas.width = columns * this.least + 2;
    this.canvas.height = rows * this.least + 2;
    this.canvas.style.width = `${this.canvas.width / scale}px`;
    this.place(this.zoom, this.left, this.top);
  }

  /** How to see a site, if it is too small for that now. */
  smallText() {
    const wide = this.side / window.devicePixelRatio;
    if (wide >= SMALL) return '';
    return `A site is ${numbered(wide, 'point')} wide here: zoom in with the mouse wheel, + or the button to see one.`;
  }

  /** Zooms so many times nearer about a point of the canvas, by itself its middle; 0 goes back to the whole plane. */
  zoomBy(times, x = this.canvas.width / 2, y = this.canvas.height / 2) {
    const before = this.side;
    const most = Math.max(1, (MOST_ZOOM * window.devicePixelRatio) / this.least);
    this.zoom = Math.min(most, Math.max(1, this.zoom * times));
    this.side = Math.round(this.least * this.zoom);
    const grown = this.side / before;
    this.place(this.zoom, x - (x - this.left) * grown, y - (y - this.top) * grown);
  }

  /** Moves the plane by points of the canvas. */
  pan(x, y) {
    this.place(this.zoom, this.left + x, this.top + y);
  }

  /** Shows a part of the plane; no part of the canvas stays without sites. */
  place(zoom, left, top) {
    const { columns, rows } = this.source;
    this.side = Math.round(this.least * zoom);
    this.left = Math.round(Math.min(0, Math.max(this.canvas.width - 2 - columns * this.side, left)));
    this.top = Math.round(Math.min(0, Math.max(this.canvas.height - 2 - rows * this.side, top)));
    this.canvas.style.touchAction = this.side > this.least ? 'none' : '';
  }

  /** The columns and rows that are in sight: the first of each, and one behind the last. */
  inSight() {
    const { columns, rows } = this.source;
    return {
      firstColumn: Math.floor(-this.left / this.side),
      endColumn: Math.min(columns, Math.ceil((this.canvas.width - this.left) / this.side)),
      firstRow: Math.floor(-this.top / this.side),
      endRow: Math.min(rows, Math.ceil((this.canvas.height - this.top) / this.side)),
    };
  }

  draw(chosen) {
    const { pen, looks, side, source } = this;
    const { firstColumn, endColumn, firstRow, endRow } = this.inSight();
    if (this.painted !== source.version) this.paintSites();
    this.painted = source.version;
    pen.imageSmoothingEnabled = false;
    const [wide, high] = [endColumn - firstColumn, endRow - firstRow];
    pen.drawImage(this.small, firstColumn, firstRow, wide, high,
      1 + this.left + firstColumn * side, 1 + this.top + firstRow * side, wide * side, high * side);
    if (side >= 8) this.drawLines(1, 1, looks.theme.grid, 1);
    if (looks.showsLetters && side >= 12 * window.devicePixelRatio) this.drawLetters();
    if (looks.showsAbandoned) this.drawAbandoned();
    if (looks.showsBorders) this.drawLines(...source.head.size, looks.theme.border, Math.max(1, Math.floor(side / 10)));
    if (chosen !== null) this.drawFrame(chosen, 1, 1);
  }

  /** Paints each site as one point of a small canvas. */
  paintSites() {
    const { source, looks, words } = this;
    const wordOf = (color) => {
      const [red, green, blue] = partsOf(color);
      return ((255 << 24) | (blue << 16) | (green << 8) | red) >>> 0;
    };
    const empty = wordOf(looks.theme.empty);
    const kinds = [empty, ...source.head.elements.map((_, i) => (looks.hidden.has(i + 1) ? empty : wordOf(looks.plainColor(i + 1))))];
    const tints = kinds.map((_, kind) => (looks.hidden.has(kind) ? undefined : looks.tints.get(kind)));
    const steps = tints.map((tint) => tint?.colors.map(wordOf));
    for (let site = 0; site < words.length; site++) {
      const kind = source.kindAt(site);
      words[site] = tints[kind] === undefined ? kinds[kind] : steps[kind][tints[kind].levelAt(site)];
    }
    const small = this.small.getContext('2d');
    small.putImageData(this.image, 0, 0);
    small.fillStyle = looks.theme.off;
    const [width, height] = source.head.size;
    for (const tile of source.head.off) {
      small.fillRect((tile % source.head.tiles[0]) * width, Math.floor(tile / source.head.tiles[0]) * height, width, height);
    }
  }

  /** Lines across the plane, one each `width` columns and `height` rows. */
  drawLines(width, height, color, thick) {
    const { pen, source, side, left, top } = this;
    pen.fillStyle = color;
    const shift = 1 - Math.floor((thick + 1) / 2);
    for (let x = 0; x <= source.columns; x += width) pen.fillRect(left + x * side + shift, 0, thick, this.canvas.height);
    for (let y = 0; y <= source.rows; y += height) pen.fillRect(0, top + y * side + shift, this.canvas.width, thick);
  }

  drawLetters() {
    const { pen, source, looks, side } = this;
    const { firstColumn, endColumn, firstRow, endRow } = this.inSight();
    pen.textAlign = 'center';
    pen.textBaseline = 'middle';
    for (let row = firstRow; row < endRow; row++) {
      for (let column = firstColumn; column < endColumn; column++) {
        const site = row * source.columns + column;
        const color = looks.colorAt(site);
        if (color === null) continue;
        const { symbol } = source.head.elements[source.kindAt(site) - 1];
        pen.font = `600 ${Math.floor(side * (symbol.length > 1 ? 0.46 : 0.6))}px system-ui, sans-serif`;
        pen.fillStyle = inkOn(color);
        pen.fillText(symbol, ...this.middleOf(site));
      }
    }
  }

  /** A dot for each site where attempts were abandoned, bigger for more of them. */
  drawAbandoned() {
    const { pen, source, looks, side } = this;
    const { sites, counts } = source.places;
    pen.fillStyle = looks.theme.dot;
    pen.globalAlpha = side < 5 ? 0.4 : 1;
    sites.forEach((site, i) => {
      const [x, y] = this.middleOf(site);
      const wide = Math.max(1, side * Math.min(0.1 + 0.04 * Math.sqrt(counts[i]), 0.3));
      if (side < 5) pen.fillRect(x - side / 2, y - side / 2, side, side);
      else this.drawDot(x + 0.32 * side, y + 0.32 * side, wide / 2);
    });
    pen.globalAlpha = 1;
  }

  drawDot(x, y, radius) {
    const { pen } = this;
    pen.beginPath();
    pen.arc(x, y, radius, 0, 2 * Math.PI);
    pen.fill();
  }

  /** A frame about so many columns and rows of sites, from one on. */
  drawFrame(site, width, height) {
    const { pen, side } = this;
    const [x, y] = this.middleOf(site);
    const scale = window.devicePixelRatio;
    const far = 2 * scale;
    for (const [color, wide] of [['#fff', 5 * scale], ['#000', 2 * scale]]) {
      pen.strokeStyle = color;
      pen.lineWidth = wide;
      pen.strokeRect(x - side / 2 - far, y - side / 2 - far, width * side + 2 * far, height * side + 2 * far);
    }
  }

  /** The middle of a site, in points of the canvas. */
  middleOf(site) {
    const column = site % this.source.columns;
    const row = Math.floor(site / this.source.columns);
    return [1 + this.left + (column + 0.5) * this.side, 1 + this.top + (row + 0.5) * this.side];
  }

  /** Where the mouse is, in points of the canvas. */
  pointAt(event) {
    const box = this.canvas.getBoundingClientRect();
    return [((event.clientX - box.left) / box.width) * this.canvas.width,
      ((event.clientY - box.top) / box.height) * this.canvas.height];
  }

  /** The site at which the mouse is, or null beside the plane. */
  siteAt(event) {
    const [x, y] = this.pointAt(event);
    const column = Math.floor((x - 1 - this.left) / this.side);
    const row = Math.floor((y - 1 - this.top) / this.side);
    const isInside = column >= 0 && row >= 0 && column < this.source.columns && row < this.source.rows;
    return isInside ? row * this.source.columns + column : null;
  }
}
