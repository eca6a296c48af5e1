"""A second reading of a trace and its transcript, for tests/figures.py: it keeps each line and each value, and knows no
shortcut. It has no program of its own."""

from trace_text import room_of

WRONG_FREES = ("ended", "no-block", "size-differs", "outside", "unaligned")


class Second:
    """The second reading: each line's requests, blocks and pages, all kept."""

    def __init__(self, trace, transcript):
        self.trace = [line.split() for line in trace.splitlines() if line.split() and line[0] != "#"]
        self.lines = [line.split() for line in transcript.splitlines()]
        self.lines = self.lines[:self.lines.index(["report"])]
        self.version, self.threads = int(self.trace[0][1]), int(self.trace[0][5])
        guards = [int(words[1]) for words in self.trace if words[0] == "guard"]
        raised = {words[-1] for words in self.lines if words[1:2] == ["guarded"]}
        self.due, self.requests = 0, {}
        for thread in range(1, self.threads + 1):
            wholes = 0
            for words in self.trace:
                if words[0] in "am" and words[1] == str(thread):
                    is_large = words[0] == "a" and int(words[4]) > 2048
                    wholes += is_large
                    self.due += bool(guards) and is_large and wholes % guards[0] == 0
                    actor = thread + self.threads * (words[2] in raised)
                    self.requests.setdefault(str(actor), []).append((words[2], int(words[-2]), int(words[-1])))
        self.values = self.follow()

    def follow(self):
        """Of each line what holds after it: the pages with memory, what is asked for and what is given."""
        backed, live, refused, values, ended = set(), {}, set(), [], {(w[2], w[4]) for w in self.lines if w[1:2] == ["freed"]}
        early, self.again, ever, self.skipped = set(), 0, set(), [0, 0]
        self.rooms_are_right, pages = True, 0
        for words in self.lines:
            word = words[1] if len(words) > 2 else words[0]
            block = (words[2], words[4]) if word in ("give", "freed", "kept") else None
            if word == "give":
                name, size, align = self.requests[words[0]].pop(0)
                self.rooms_are_right &= room_of(self.version, size, align).bytes == int(words[6])
                if block not in early:
                    live[block] = size, int(words[6])
            elif word == "freed":
                early |= {block} - set(live)
                live.pop(block, None)
            elif word == "kept":
                name, size, _ = self.requests[words[0]].pop(0)
                self.rooms_are_right &= name == words[-1]
                live |= {block: (size, live[block][1])} if block in live else {}
            elif word in ("no-space", "held", "skipped"):
                is_free = words[-1] in refused
                self.skipped[is_free] += word == "skipped"
                self.rooms_are_right &= is_free or self.requests[words[0]].pop(0)[0] == words[-1]
                refused.add(words[-1])
            elif word == "back":
                pages += 1
                self.again += words[3] in ever
                ever.add(words[3])
            pages -= word == "unback"
            values.append((pages, sum(size for size, _ in live.values()), sum(room for _, room in live.values())))
        return values

    def figures(self):
        count = lambda word: sum(words[1:2] == [word] for words in self.lines)
        rows = {"backed": [each[0] for each in self.values], "asked": [each[1] for each in self.values],
                "given": [each[2] for each in self.values], "rounding": [each[2] - each[1] for each in self.values]}
        said = {}
        for name, row in rows.items():
            peak = max([0, *row])
            said |= {f"{name}_peak": peak, f"{name}_peak_line": row.index(peak) + 1 if peak else 0, f"{name}_mean": sum(row) / len(row), f"{name}_end": row[-1]}
        most = max((pages, given, -line) for line, (pages, _, given) in enumerate([(0, 0, 0), *self.values]))
        asked = ([0] + rows["asked"])[-most[2]]
        said |= {"backed_peak_line": -most[2], "at_peak_given": most[1], "at_peak_asked": asked}
        said["fragmentation"] = 100 - 100 * asked / 4096 / most[0] if most[0] else 0
        kinds = [words[6] for words in self.lines if words[1:2] == ["deed"]]
        said |= {f"deeds_{kind}": kinds.count(kind) for kind in ("class", "shared", "bitfit", "large")}
        said |= {word.replace("-", "_"): count(word) for word in ("kept", "no-space", "held", "freed", *WRONG_FREES)}
        return said | {
            "operations": sum(words[0] not in ("pas", "phase", "shared", "guard") for words in self.trace), "lines": len(self.lines), "given": count("give"),
            "returned": count("unback"), "backed_again": self.again, "skipped": self.skipped[0], "skipped_frees": self.skipped[1], "ticks": count("tick"),
            "passes": count("pass"), "stopped": count("stopped"), "guards_raised": count("guarded"), "guards_due": self.due}
