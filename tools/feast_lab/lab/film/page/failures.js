/** A red cross on each site where events failed last, and how many there were; where they are known. */
class FailuresView {
  constructor(source, plane, section, changed) {
    this.source = source;
    this.plane = plane;
    if (source.failed === null) return;
    this.box = made('input', '');
    this.box.type = 'checkbox';
    this.box.id = 'failed';
    this.box.checked = true;
    this.box.addEventListener('change', changed);
    const cross = made('span', '\u2715');
    cross.style.cssText = 'color: #c00000; font-weight: 700';
    cross.ariaHidden = 'true';
    this.label = made('span', '');
    this.label.id = 'failed-label';
    const choice = made('label', '', 'choice');
    choice.append(this.box, cross, this.label);
    section.append(choice, made('p', 'An event that fails leaves all as it was, but for its own atom, which is gone.', 'hint'));
  }

  show() {
    const { failed } = this.source;
    if (failed === null) return;
    this.label.textContent = this.source.failedText;
    if (this.box.checked) failed.forEach((site) => this.drawCross(site));
  }

  /** A cross with a white edge, so that it shows on any colour. */
  drawCross(site) {
    const { pen, side } = this.plane;
    const [x, y] = this.plane.middleOf(site);
    const half = Math.max(0.32 * side, 1.5);
    for (const [color, wide] of [['#fff', 0.3], ['#c00000', 0.16]]) {
      pen.strokeStyle = color;
      pen.lineWidth = Math.max(wide * side, 1);
      pen.beginPath();
      for (const [from, to] of [[-half, half], [half, -half]]) {
        pen.moveTo(x - half, y + from);
        pen.lineTo(x + half, y + to);
      }
      pen.stroke();
    }
  }
}
