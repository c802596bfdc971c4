"""The pictures of docs/, which scripts draw of data: SVG that is readable in light and dark."""
from html import escape

# by name: in light, in dark
COLOURS = {
    "ground": ("#ffffff", "#0d1117"),
    "ink": ("#1f2328", "#e6edf3"),
    "soft": ("#59636e", "#9198a1"),
    "box": ("#eef3f8", "#16202c"),
    "line": ("#7d93a8", "#4a6078"),
    "own": ("#1a6fc4", "#58a6ff"),
    "other": ("#b4bec9", "#4b5662"),
    "changed": ("#fbd9a4", "#6b4410"),
}


class Picture:
    def __init__(self, width, title):
        self.width, self.title, self.shapes = width, title, []

    def box(self, x, y, width, height, fill="box", line="line", round_by=4):
        edge = f" e-{line}" if line else ""
        self.shapes.append(
            f'<rect class="f-{fill}{edge}" x="{x:.1f}" y="{y:.1f}"'
            f' width="{width:.1f}" height="{height:.1f}" rx="{round_by}"/>')

    def text(self, x, y, text, style="", fill="ink", size=12, anchor="start"):
        words = " ".join(f"t-{it}" for it in style.split())
        at = "" if anchor == "start" else f' text-anchor="{anchor}"'
        self.shapes.append(
            f'<text class="f-{fill} {words}" x="{x:.1f}" y="{y:.1f}" font-size="{size}"{at}>'
            f"{escape(text)}</text>")

    def path(self, points, fill="box"):
        joined = " ".join(f"{x:.1f},{y:.1f}" for x, y in points)
        self.shapes.append(f'<polygon class="f-{fill}" opacity="0.7" points="{joined}"/>')

    def done(self, height):
        """The text of the file."""
        light = "".join(self.rules(0))
        dark = "".join(self.rules(1))
        return "\n".join([
            f'<svg xmlns="http://www.w3.org/2000/svg" viewBox="0 0 {self.width} {height:.0f}"'
            ' font-family="Helvetica, Arial, DejaVu Sans, sans-serif">',
            f"<title>{escape(self.title)}</title>",
            f"<style>{light}.t-bold{{font-weight:bold}}"
            ".t-mono{font-family:DejaVu Sans Mono,Menlo,Consolas,monospace}"
            f"@media (prefers-color-scheme: dark){{{dark}}}</style>",
            f'<rect class="f-ground" width="{self.width}" height="{height:.0f}"/>',
            *self.shapes, "</svg>", ""])

    @staticmethod
    def rules(which):
        for name, colours in COLOURS.items():
            yield f".f-{name}{{fill:{colours[which]}}}.e-{name}{{stroke:{colours[which]}}}"


def told_apart(path, text, check):
    """Writes a file, or with `check` looks whether it is as it would be written; whether it was."""
    same = path.is_file() and path.read_text(encoding="utf-8") == text
    if not same and not check:
        path.write_text(text, encoding="utf-8")
    return same
