"""Text markers and ranges of the second model.

A marker is a pair of a text and an offset in characters. Boundaries are those of breaks.py.
"""
import breaks
from texts import least_holding, quoted

REQUESTS = ("compare", "next_char", "prev_char", "next_word", "line", "text", "bounds")
LONGEST_RANGE = 4096
FIRST, PAST, LINE = 0, 1, 2


class Order:
    """The texts of a tree in preorder. A place counts them from 0; a spot is a place and an offset."""

    def __init__(self, objects):
        objects = list(objects)
        self.ids = [id for id, _ in objects]
        self.texts, self.runs = [record.text for _, record in objects], [record.runs for _, record in objects]
        self.places = {id: place for place, id in enumerate(self.ids)}

    def spots_after(self, spot, offsets):
        """The spots after one, at these offsets of each text."""
        for place in range(spot[0], len(self.ids)):
            yield from ((place, offset) for offset in offsets(self.texts[place]) if (place, offset) > spot)

    def next_char(self, spot):
        return next(self.spots_after(spot, breaks.grapheme_stops), None)

    def prev_char(self, spot):
        for place in range(spot[0], -1, -1):
            below = [(place, offset) for offset in breaks.grapheme_stops(self.texts[place]) if (place, offset) < spot]
            if below:
                return below[-1]
        return None

    def next_word(self, spot):
        return next(self.spots_after(spot, word_stops), None)

    def all_runs(self):
        """The runs of all texts in order, each with its place."""
        return [(place, run) for place, runs in enumerate(self.runs) for run in runs]

    def line(self, spot):
        """The first and the last of the runs that make the line of a spot, each with its place; None where its text has no runs."""
        place, offset = spot
        if not self.runs[place]:
            return None
        own = next((run for run in self.runs[place] if run[FIRST] <= offset < run[PAST]), self.runs[place][-1])
        runs = self.all_runs()
        first = last = next(index for index, (each, run) in enumerate(runs) if each == place and run is own)
        while first > 0 and runs[first - 1][1][LINE] == own[LINE]:
            first -= 1
        while last + 1 < len(runs) and runs[last + 1][1][LINE] == own[LINE]:
            last += 1
        return runs[first], runs[last]

    def parts(self, low, high):
        """Of each text of a range its place, and where the range begins and ends in it."""
        for place in range(low[0], high[0] + 1):
            yield place, low[1] if place == low[0] else 0, high[1] if place == high[0] else len(self.texts[place])

    def stays_on_line(self, place):
        """Whether the last line of a text goes on in the next one."""
        before, after = self.runs[place], self.runs[place + 1]
        return bool(before and after) and before[-1][LINE] == after[0][LINE]

    def range_text(self, low, high):
        text = ""
        for place, first, past in self.parts(low, high):
            text += "\n" if place > low[0] and not self.stays_on_line(place - 1) else ""
            text += self.texts[place][first:past]
        return text

    def range_rects(self, low, high):
        """The rectangles of the runs that share a character with a range."""
        return [run[3:] for place, first, past in self.parts(low, high) for run in self.runs[place]
                if max(first, run[FIRST]) < min(past, run[PAST])]


def word_stops(text):
    """The grapheme boundaries of a text at which a word begins."""
    return sorted(set(breaks.word_starts(text)) & set(breaks.grapheme_stops(text)))


def refusal(tree, given):
    """`stale` or `out`, where one of the markers is, or None."""
    if any(id not in tree.records for id, _ in given):
        return "stale"
    records = [(tree.records[id], offset) for id, offset in given]
    if any(record.role != "text" or offset > len(record.text) for record, offset in records):
        return "out"
    return None


def spot_told(order, word, spot):
    """A spot with its text's id."""
    return "%s %d %d" % (word, order.ids[spot[0]], spot[1])


def answer_at(order, word, spot):
    """The reply to a request about one marker."""
    if word == "line":
        runs = order.line(spot)
        if runs is None:
            return "none"
        (first_place, first), (last_place, last) = runs
        return "range %d %d %d %d" % (order.ids[first_place], first[FIRST], order.ids[last_place], last[PAST])
    found = {"next_char": order.next_char, "prev_char": order.prev_char, "next_word": order.next_word}[word](spot)
    return "none" if found is None else spot_told(order, "marker", found)


def answer(tree, request):
    """The reply to a request about one marker or two."""
    given = [request[key] for key in ("at", "a", "b") if key in request]
    order, word, refused = tree.order(), request["q"], refusal(tree, given)
    if refused:
        return refused
    spots = [(order.places[id], offset) for id, offset in given]
    if word == "compare":
        return "same" if spots[0] == spots[1] else "before" if spots[0] < spots[1] else "after"
    if len(spots) == 1:
        return answer_at(order, word, spots[0])
    low, high = sorted(spots)
    if word == "bounds":
        rects = order.range_rects(low, high)
        return "bounds %d %d %d %d" % tuple(least_holding(rects)) if rects else "none"
    text = order.range_text(low, high)
    return "long" if len(text) > LONGEST_RANGE else "text " + quoted(text)
