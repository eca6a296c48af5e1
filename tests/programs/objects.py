"""Objects, texts and tables of all sizes that come and go."""
import json
import random

rng = random.Random(1)
kept = {}
for turn in range(6):
    rows = [{"name": f"row {number}", "values": [rng.random() for _ in range(rng.randrange(8))]} for number in range(1200)]
    text = json.dumps(rows)
    kept[turn % 5] = json.loads(text)
    print(turn, len(text), sum(len(row["values"]) for row in kept[turn % 5]))
