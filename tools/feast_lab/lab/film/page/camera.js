const SHOTS = 30; // pictures of a recording in a second, at most
const MOVIE = 'video/webm';

/** Saves what the plane shows: as a picture, or as a movie of all that it shows until that is stopped. */
class Camera {
  constructor(canvas, picture, record) {
    this.canvas = canvas;
    this.record = record;
    this.recorder = null;
    const can = typeof MediaRecorder !== 'undefined' && canvas.captureStream !== undefined && MediaRecorder.isTypeSupported(MOVIE);
    record.disabled = !can;
    record.title = can ? '' : 'This browser records no WebM';
    picture.addEventListener('click', () => canvas.toBlob((blob) => save(blob, 'png'), 'image/png'));
    record.addEventListener('click', () => this.turn());
  }

  /** Begins a recording, or ends it and saves it. */
  turn() {
    if (this.recorder !== null) {
      this.recorder.stop();
      return;
    }
    const parts = [];
    this.recorder = new MediaRecorder(this.canvas.captureStream(SHOTS), { mimeType: MOVIE });
    this.recorder.addEventListener('dataavailable', ({ data }) => parts.push(data));
    this.recorder.addEventListener('stop', () => {
      this.recorder.stream.getTracks().forEach((track) => track.stop());
      this.recorder = null;
      this.record.textContent = 'Record WebM';
      save(new Blob(parts, { type: MOVIE }), 'webm');
    });
    this.recorder.start(1000);
    this.record.textContent = 'Stop and save';
  }
}

/** Has the browser save bytes, under the name of the page. */
function save(blob, ending) {
  const link = made('a', '');
  link.href = URL.createObjectURL(blob);
  link.download = `${document.title}.${ending}`;
  link.click();
  setTimeout(() => URL.revokeObjectURL(link.href), 60000);
}
