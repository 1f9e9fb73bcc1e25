"""The hit test of the second model: which object holds a point."""


def holds(frame, x, y):
    """Left and top edges belong to a frame, right and bottom edges do not."""
    left, top, width, height = frame
    return left <= x < left + width and top <= y < top + height


def answer(records, x, y):
    """The last object in preorder whose frame holds the point."""
    hit = [id for id, record in records.items() if holds(record.frame, x, y)]
    return "hit %d" % hit[-1] if hit else "none"
