"""Reads the kept traces. Their form is told in `trace`."""


class Frame:
    """One frame: its elements by name, where the last one starts, ffmpeg's sum."""

    def __init__(self):
        self.fields = {}
        self.last_bit = 0
        self.sum = None

    def get(self, name, default=0):
        return self.fields.get(name, default)

    def has(self, name):
        return name in self.fields


class Packet:
    def __init__(self, size):
        self.size = size
        self.index = None
        self.frames = []

    def places(self):
        """Offset and size of each frame, by the index if there is one."""
        if self.index is None:
            return [(0, self.size)]
        count = self.index["frames_in_superframe_minus_1"] + 1
        sizes = [self.index[f"frame_sizes[{i}]"] for i in range(count)]
        return [(sum(sizes[:i]), sizes[i]) for i in range(count)]


def add_element(target, bit, name, value):
    if isinstance(target, Frame):
        target.fields[name] = value
        target.last_bit = bit
    else:
        target[name] = value


def read_trace(path):
    packets, target = [], None
    for line in open(path):
        words = line.split()
        if words[0] == "packet":
            packets.append(Packet(int(words[2])))
        elif words[0] == "index":
            target = packets[-1].index = {}
        elif words[0] == "frame":
            target = Frame()
            packets[-1].frames.append(target)
        elif words[0] == "sum":
            target.sum = tuple(map(int, words[1:]))
        elif words[0].isdigit():
            add_element(target, int(words[0]), words[1], int(words[2]))
        else:
            raise ValueError(f"{path}: {line.strip()}")
    return packets
