"""The random choices of all parts of the generator, and how often they break what they make."""
import random

MISSING = [0x2000, 0x1FFF, 0, 0x1, 0x7FFFFFFF]  # indices that are never or rarely defined
FUNCTION_NAMES = ["f", "g", "P", "Q", "C::get", "", "?q", "ns::h", "größe", "?", "foo", "f\"x\\", "a b",
                  "n\nl", "0\x00"]


class Choices:
    """A source of random choices that depends only on the seed."""

    def __init__(self, seed):
        self.random = random.Random(seed)
        # The main subject of the file, and how often things are broken in each area.
        self.mode = self.choose(["mixed"] * 4 + ["signatures"] * 4 + ["walks"] * 3)
        wild = self.choose([0, 0, 0.4, 1, 1, 2])
        calm = self.choose([0, 0.1, 0.3])
        self.areas = {"mixed": {"layout": wild, "types": wild, "symbols": wild},
                      "signatures": {"layout": calm / 3, "types": wild, "symbols": calm},
                      "walks": {"layout": calm / 3, "types": calm, "symbols": wild}}[self.mode]
        self.bad_nesting = self.choose([0, 0, 0.1, 0.3, 0.6, 1])  # how often the end of a symbol is wrong
        self.enter("layout")

    def enter(self, area):
        """From here on, things are broken as often as in this area."""
        self.wildness = self.areas[area]

    def chance(self, probability):
        return self.random.random() < probability

    def broken(self, probability):
        """Decides whether to break something. The probability is multiplied by the area's wildness."""
        return self.random.random() < probability * self.wildness

    def choose(self, items):
        return self.random.choice(items)

    def times(self, low, high):
        """Returns a range of random length."""
        return range(self.random.randint(low, high))

    def number(self):
        """Returns the number of an error."""
        return self.choose([0, 1, 2, 3, 7, 9, 0x1000, 2**32 - 1])

    def failed(self):
        """Returns a stream that failed."""
        return {"error": self.number(), **({"x": 1} if self.chance(0.2) else {})}

    def stream(self, probability, value):
        """Returns the value, or sometimes a stream that failed."""
        return self.failed() if self.broken(probability) else value

    def reading(self, probability, items):
        """Returns the items as a list in one of its forms: an array or an object, sometimes with a fault."""
        if self.broken(probability):
            return {"items": items, "fault": self.number()}
        if self.chance(0.1):
            return {"items": items, **self.choose([{}, {"fault": None}, {"other": 1}])}
        return items
