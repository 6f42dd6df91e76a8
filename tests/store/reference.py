"""An image from share files without the program: the reader of share files, and the independent implementation of the code."""
import importlib.util
from pathlib import Path

import share_reader

PATH = Path(__file__).resolve().parents[1] / "reference" / "balanced.py"
spec = importlib.util.spec_from_file_location("reference_code", PATH)
code = importlib.util.module_from_spec(spec)
spec.loader.exec_module(code)


def image_of(paths):
    """The image that k or more share files hold, by docs/SHARE-FILE.md."""
    shares = [path.read_bytes() for path in paths]
    headers = [share_reader.header(data) for data in shares]
    newest = max(headers, key=lambda head: head["generation"])
    held = {}
    for head, data in zip(headers, shares):
        if head["writes"][head["node"]] == newest["writes"][head["node"]]:
            held[head["node"]] = share_reader.blocks(data)
    record, image = newest["record"], b""
    nodes = sorted(held)[:newest["k"]]
    assert len(nodes) == newest["k"], "fewer than k share files belong together"
    plan = code.plan_of(*code.read(list(record)))
    # what takes the symbols of these nodes to the message
    matrix = code.inverse_matrix(plan.field, [plan.column(node) for node in nodes])
    for block in range(len(held[nodes[0]])):
        size = min(share_reader.capacity(record, newest["lanes"]), newest["size"] - len(image))
        rows = [plan.symbols(held[node][block]) for node in nodes]
        message = [symbol for line in matrix for symbol in code.combine(plan.field, line, rows)]
        image += share_reader.carried(record, message, size)
    assert share_reader.digest(image, record, newest["lanes"]).to_bytes(32, "big") == newest["digest"]
    return image
