"""Pictures for the documents, as SVG. Text is measured, so that a picture is as large as what stands in it.

Nobody knows which font a reader has. The widths are those of DejaVu Sans, which is wider than Arial, Helvetica, Liberation
Sans, Noto Sans and the others that `sans-serif` commonly stands for; so what fits in it fits in those.
"""
import math
from html import escape

FONTS = "Arial, Helvetica, 'Liberation Sans', 'DejaVu Sans', sans-serif"
OURS, PLAIN, THEORY, INK, PALE = "#1f6f8b", "#c9772b", "#6b7f3f", "#222222", "#e4e7ea"
MARGIN = 20

# thousandths of the font's size; a character that is not here counts as 1,000
GROUPS = {
    275: "'", 278: "ijl", 295: "IJ", 318: " ,.·", 337: "/:;\\|", 353: "f", 361: "-", 391: "()[]", 393: "t", 401: "!", 412: "r",
    460: '"', 500: "*_`–", 521: "s", 525: "z", 531: "?", 550: "c", 558: "L", 576: "F", 580: "k", 592: "vxy", 604: "P", 611: "TY",
    612: "o", 613: "a", 616: "e", 632: "E", 634: "hnu", 635: "Sbdgpq", 637: "$0123456789{}µ", 656: "K", 660: "α", 685: "AV",
    686: "XZ", 687: "B", 695: "R", 699: "C", 732: "U", 749: "N", 752: "H", 771: "D", 775: "G", 780: "&", 788: "OQ", 818: "w",
    838: "#+<=>^~−×", 863: "M", 951: "%", 975: "m", 989: "W",
}
WIDTHS = {letter: width for width, letters in GROUPS.items() for letter in letters}
ASCENT, DESCENT = 0.93, 0.24


def text_width(words, size):
    return sum(WIDTHS.get(letter, 1000) for letter in words) * size / 1000


def text_box(x, y, words, size, anchor):
    """Left, top, right and bottom of a text whose baseline is at y."""
    width = text_width(words, size)
    left = x - {"start": 0, "middle": width / 2, "end": width}[anchor]
    return left, y - ASCENT * size, left + width, y + DESCENT * size


class Drawing:
    """A picture with its title, which is a line of text at the top, and a second line below it."""

    def __init__(self, title, below=""):
        self.title, self.parts, self.right, self.bottom = title, [], 0, 0
        self.text(MARGIN, 26, title, 15)
        if below:
            self.text(MARGIN, 46, below, 12)

    def holds(self, right, bottom):
        self.right, self.bottom = max(self.right, right), max(self.bottom, bottom)

    def box(self, x, y, width, height, fill, more=""):
        self.holds(x + width, y + height)
        self.parts.append(f'<rect x="{x:g}" y="{y:g}" width="{width:g}" height="{height:g}" fill="{fill}"{more}/>')

    def text(self, x, y, words, size=12, anchor="start", fill=INK):
        left, top, right, bottom = text_box(x, y, words, size, anchor)
        if left < 0 or top < 0:
            raise ValueError(f"the text leaves the picture: {words}")
        self.holds(right, bottom)
        self.parts.append(f'<text x="{x:g}" y="{y:g}" font-size="{size}" text-anchor="{anchor}" fill="{fill}">{escape(words, quote=False)}</text>')

    def line(self, x1, y1, x2, y2, stroke, more=""):
        self.holds(max(x1, x2), max(y1, y2))
        self.parts.append(f'<line x1="{x1:g}" y1="{y1:g}" x2="{x2:g}" y2="{y2:g}" stroke="{stroke}"{more}/>')

    def legend(self, x, y, entries):
        """Small boxes side by side, each with its words."""
        for fill, words in entries:
            self.box(x, y, 14, 14, fill)
            self.text(x + 20, y + 12, words)
            x += 20 + text_width(words, 12) + 24

    def done(self):
        width, height = math.ceil(self.right) + MARGIN, math.ceil(self.bottom) + MARGIN
        head = f'<svg xmlns="http://www.w3.org/2000/svg" viewBox="0 0 {width} {height}" width="{width}" height="{height}" font-family="{FONTS}">'
        ground = [f"<title>{escape(self.title, quote=False)}</title>", f'<rect width="{width}" height="{height}" fill="white"/>']
        return "\n".join([head, *ground, *self.parts, "</svg>", ""])
