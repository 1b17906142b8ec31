"""Writes what the model has behind some steps of each sample, for tables.js."""
import json
import pathlib
import sys

from given import samples
from view.replay_model import replay_model

found = []
for name, plan, _ in samples(sys.argv[1]):
    model = replay_model(name, plan)
    # The same changes again and again, so that tables are kept on the way.
    model["changes"] = model["changes"] * 12
    steps = [len(model["changes"]), 0, 1, 400, 255, 256, 257, 40, 512, 3]
    tables = {}
    for step in steps:
        table = dict(model["opening"])
        for changes in model["changes"][:step]:
            table |= changes
        tables[step] = {key: texts for key, texts in table.items() if texts is not None}
    found.append({"name": name, "opening": model["opening"], "changes": model["changes"], "tables": tables, "steps": steps})
pathlib.Path(sys.argv[2]).write_text(json.dumps(found))
