"""The pictures of the pages: each is drawn from a table or from a program's lines."""
import drawing

from .printed import Fault, rows, section

FLAGS = {"cross-trainer": 3}


def article(kind):
    """`a treadmill`, `an indoor bike`."""
    name = kind.replace("-", " ")
    return ("an " if name[0] in "aeiou" else "a ") + name


class Pictures:
    """Draws by the words of a directive; what was drawn is in `made`, by file name."""

    def __init__(self, tables):
        self.tables = tables
        self.made = {}

    def rows(self, name):
        if name not in self.tables:
            raise Fault(f"fttables prints no table {name}")
        return rows(self.tables[name])

    def part_rows(self, name):
        """The rows of a table of parts; a cross trainer's are those for forward."""
        return [{("flags" if column == "flags, forward" else column): cell for column, cell in row.items()} for row in self.rows(name)]

    def flags(self, kind):
        title = f"The flags of {article(kind)}"
        return title, drawing.flags_picture(title, self.rows(kind + "/flags"), FLAGS.get(kind, 2))

    def whole(self, kind):
        fields = self.rows(kind + "/fields")
        title = f"The notification of {article(kind)} with all groups present"
        return title, drawing.whole_picture(title, fields, FLAGS.get(kind, 2))

    def cut_parts(self, kind, payload, table):
        title = f"The record of {article(kind)} with all groups, at payload {payload}"
        fields = self.rows(kind + "/fields")
        return title, drawing.parts_picture(title, self.part_rows(table), fields, int(payload), FLAGS.get(kind, 2), int(payload) <= 20, int(payload) > 20,
                                           ", forward" if kind in FLAGS else "")

    def parts(self, kind):
        return self.cut_parts(kind, "20", kind + "/parts-at-payload-20")

    def payload(self, payload):
        return self.cut_parts("indoor-bike", payload, "splitting/parts-at-payload-" + payload)

    def cut(self):
        title = "How an indoor bike's record with all groups is cut at payload 20"
        steps, parts = self.rows("splitting/the-cut-at-payload-20"), self.part_rows("indoor-bike/parts-at-payload-20")
        return title, drawing.cut_picture(title, steps, parts, self.rows("indoor-bike/fields"), 20, 2)

    def lost(self, mode):
        title = {"open": "An open collection with parts lost", "fixed": "A fixed collection with the same parts lost"}[mode]
        return title, drawing.lost_picture(title, section("crates/roundtrip/stdout", "a lost part, " + mode).splitlines())

    def feature(self, word):
        title = {"features": "Octets 0 to 3 of the Feature value: the features", "target-settings": "Octets 4 to 7 of the Feature value: the target settings"}[word]
        return title, drawing.feature_picture(title, self.rows("feature-value/" + word), 0 if word == "features" else 4)

    def first(self):
        """Document 01's sample of a capture, without its kind and length."""
        title = "Document 01's notification of an indoor bike, octet by octet"
        with open("examples/bike.capture", "rb") as file:
            octets = file.read()[3:]
        return title, drawing.first_picture(title, self.rows("indoor-bike/fields"), octets, 2)

    def way(self):
        title = "From the console to the app, and back"
        return title, drawing.way_picture(title)

    def states(self):
        title = "The states of a machine, and the writes that change them"
        return title, drawing.modes_picture(title, self.rows("machine/states"))

    def session(self):
        title = "A session of two clients"
        lines = section("crates/session/stdout", "").splitlines()
        if not lines[0].startswith("Feature value:"):
            raise Fault("session does not begin with the Feature value")
        return title, drawing.sequence_pictures(title, lines[1:], 900)

    def coast(self):
        title = "A run through both targets"
        return title, drawing.coast_picture(title, section("crates/spindown/stdout", "a run through both targets").splitlines())

    def runs(self):
        title = "The states of a run, and the calls that change them"
        return title, drawing.runs_picture(title, self.rows("spin-down/runs"))

    def name(self, what, arguments):
        """`treadmill-flags` of a kind, `lost-open` of others."""
        if arguments and arguments[0] + "/flags" in self.tables:
            return f"{arguments[0]}-{what}"
        return "-".join([what, *arguments])

    def draw(self, words):
        """Draws what a directive asks for; returns the lines that show it on a page."""
        what, *arguments = words
        try:
            title, made = getattr(self, what.replace("-", "_"))(*arguments)
        except ValueError as fault:
            raise Fault(f"the picture {' '.join(words)}: {fault}") from None
        pictures = made if isinstance(made, list) else [made]
        lines = []
        for i, picture in enumerate(pictures):
            name = self.name(what, arguments) + (f"-{i + 1}" if len(pictures) > 1 else "") + ".svg"
            self.made[name] = picture
            lines += [f"![{title}{f', {i + 1} of {len(pictures)}' if len(pictures) > 1 else ''}]({name})", ""]
        return lines[:-1]
