"""A line of a text with a caret below a place, for a terminal."""
import unicodedata

MOST = 100  # columns of a line that are shown
BEFORE = 60  # columns of a longer line before the caret
CUT = ".."
ROW = 16  # bytes of a file that isn't text


def lines_around(text: str, line: int, column: int, length: int, label: str) -> list[str]:
    """The line of a place, and below it carets and a label.

    `text` has a letter for each byte; `line` and `column` count from 1, columns in bytes; `length` is in bytes.
    If the line is blank, as the end of a file often is, the last line before it that isn't comes first.
    """
    all_lines = text.split("\n")
    shown = all_lines[line - 1] if line <= len(all_lines) else ""
    width = len(str(line))
    found = []
    if not shown.strip():
        before = next((at for at in range(min(line, len(all_lines)) - 1, 0, -1) if all_lines[at - 1].strip()), 0)
        if before:
            found.append(f"{before:>{width}} | {cut_end(visible(all_lines[before - 1].removesuffix(chr(13))))}")
    source, carets = marked(shown.removesuffix("\r"), column, length)
    found.append(f"{line:>{width}} | {source}".rstrip())
    found.append(f"{'':{width}} | {carets}{' ' if label else ''}{label}")
    return found


def bytes_around(data: str, place: int) -> list[str]:
    """The bytes of a row of a file, in hexadecimal digits, and carets below the one at a place, which counts from 1."""
    first = (place - 1) // ROW * ROW
    row = " ".join(f"{ord(byte):02x}" for byte in data[first:first + ROW])
    front = f"bytes from {first + 1} | "
    at = len(front) + (place - 1 - first) * 3
    return [front + row, " " * at + "^^" + (" the file ends here" if place > len(data) else "")]


def marked(line: str, column: int, length: int) -> tuple[str, str]:
    """A line as it is shown, and the carets below it; a long line is cut on both sides of them."""
    front, under = visible(line[:column - 1]), visible(line[column - 1:column - 1 + max(length, 1)])
    back = visible(line[column - 1 + max(length, 1):])
    under, carets = under[:MOST], "^" * max(1, columns(under[:MOST]))
    if columns(front + under + back) > MOST:
        front = front if columns(front) <= BEFORE else CUT + front[-BEFORE:]
        back = cut_end(back, max(MOST - columns(front + under), 0))
    return front + under + back, "".join("\t" if letter == "\t" else " " * columns(letter) for letter in front) + carets


def cut_end(text: str, most: int = MOST) -> str:
    """A text without what goes beyond so many columns."""
    return text if columns(text) <= most else text[:most] + CUT


def visible(data: str) -> str:
    """Bytes as a terminal may show them: what is no text or would move the cursor is a replacement character."""
    text = data.encode("latin-1").decode(errors="replace")
    return "".join(letter if letter == "\t" or letter.isprintable() else "\N{REPLACEMENT CHARACTER}" for letter in text)


def columns(text: str) -> int:
    """How many columns of a terminal a text takes, a tab one."""
    return sum(0 if unicodedata.combining(letter) else 1 + (unicodedata.east_asian_width(letter) in "WF")
               for letter in text)
