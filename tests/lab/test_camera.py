"""What pages save of the plane, in Chromium and in Firefox: a picture is what the plane shows, and a recording is a WebM."""
from base64 import b64decode

from firefox import Firefox, firefox
from test_live import ELEMENTS, WORLD
from test_live_page import READY
from two_browsers import TwoBrowsers

# Keeps what is saved; `letters` has the bytes of each as letters, and `isSame` whether a picture is what the plane shows.
KEEP = """(() => {
  window.saved = [];
  const make = URL.createObjectURL;
  URL.createObjectURL = (blob) => {
    const kept = { type: blob.type, letters: '', isSame: null };
    const reader = new FileReader();
    reader.onload = () => (kept.letters = reader.result.split(',')[1]);
    reader.readAsDataURL(blob);
    if (blob.type === 'image/png') createImageBitmap(blob).then((image) => {
      const plane = document.getElementById('plane');
      const other = new OffscreenCanvas(image.width, image.height);
      other.getContext('2d').drawImage(image, 0, 0);
      const dataOf = (canvas) => canvas.getContext('2d').getImageData(0, 0, image.width, image.height).data;
      const [one, two] = [dataOf(plane), dataOf(other)];
      kept.isSame = image.width === plane.width && image.height === plane.height && one.every((part, i) => part === two[i]);
    });
    window.saved.push(kept);
    return make.call(URL, blob);
  };
  HTMLAnchorElement.prototype.click = function () { window.named = this.download; };
})()"""
RECORD = "document.getElementById('record').textContent"


class Camera(TwoBrowsers):
    """The live page and the page of a film, in Chromium."""

    def press(self, part: str) -> None:
        """Presses a button."""
        self.browser.value(f"document.getElementById('{part}').click()")

    def saves(self, step: str) -> None:
        """Saves a picture and a recording, in which a button is pressed some times."""
        self.browser.value(KEEP)
        title = self.browser.value("document.title")
        self.press("picture")
        self.browser.wait("window.saved.length === 1 && window.saved[0].isSame !== null")
        self.assertEqual(self.browser.value("[window.saved[0].isSame, window.named]"), [True, f"{title}.png"])
        self.press("record")
        self.assertEqual(self.browser.value(RECORD), "Stop and save")
        for _ in range(4):
            before = self.text("moment")
            self.press(step)
            self.browser.wait(f"document.getElementById('moment').textContent !== {before!r}")
            self.browser.value("new Promise((over) => setTimeout(over, 300))")
        self.press("record")
        self.browser.wait("window.saved.length === 2 && window.saved[1].letters !== ''")
        data = b64decode(self.browser.value("window.saved[1].letters"))
        self.assertEqual((data[:4].hex(), b"webm" in data[:64], self.browser.value("window.named")), ("1a45dfa3", True, f"{title}.webm"))
        self.assertIn(bytes.fromhex("1f43b675"), data)  # a cluster, which has pictures
        self.assertEqual(self.browser.value(RECORD), "Record WebM")

    def test_live(self) -> None:
        """The live page saves both."""
        live = self.living("--step", self.chain, WORLD, ELEMENTS)
        self.browser.resize(1280, 900)
        self.browser.open(live.address, READY)
        self.saves("leg")

    def test_film(self) -> None:
        """So does the page of a film."""
        world = self.file("w", WORLD.read_text().replace("attempts 40000", "attempts 300"))
        self.passes("chain", self.chain, "--legs", "2", "--step", "--keep", "reports", world, ELEMENTS)
        page = self.room / "film.html"
        self.passes("film", self.chain, "--frames", "20", "-o", page)
        self.browser.resize(1280, 900)
        self.browser.open(page.as_uri(), READY)
        self.saves("on")

    def test_thin(self) -> None:
        """The live page says what the folder takes, and goes on in one that is thinned out."""
        self.browser.open(self.living("--step", self.chain, WORLD, ELEMENTS).address, READY)
        self.assertRegex(self.text("size"), r"^The folder has [\d.]+ kB\.$")
        self.press("leg")
        self.browser.wait("document.getElementById('size').textContent.endsWith('for an event of each site.')")
        self.browser.value("document.getElementById('every').value = '3'")
        self.press("thin")
        self.browser.wait(f"document.title === 'chain-thin1' && {READY}")
        self.assertIn("The chain goes on in chain-thin1, which keeps the atoms of one leg in 3, and no reports.", self.text("said"))


class CameraInFirefox(Camera):
    """The same in Firefox."""

    finds = staticmethod(firefox)
    opens = Firefox
