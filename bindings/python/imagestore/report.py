"""What a command says to a person, and its exit status."""


def number(count):
    return f"{count:,}"


def several(count, thing):
    return f"{number(count)} {thing}" + ("" if count == 1 else "s")


def listed(nodes):
    return " ".join(map(str, nodes))


def with_reasons(word, reasons):
    """A line for each node that something is to be said of."""
    return [f"  {word} node {node}: {why}" for node, why in sorted(reasons.items())]


def about(name, sentence):
    """A sentence on an image, which may begin with the name already."""
    return sentence.removeprefix(f"{name}: ")


def total(result, figure):
    return sum(node[figure] for node in result["traffic"].values())


def moved(result):
    """The bytes that went to nodes and came from them, and how much of them is share."""
    return (f"  sent {number(total(result, 'sent'))} bytes (of shares {number(total(result, 'shares_sent'))}), "
            f"received {number(total(result, 'received'))} (of shares {number(total(result, 'shares_received'))})")


def plan(result):
    low, high = result["symbols_a_node_depends_on"]
    reads = str(low) if low == high else f"{low} or {high}"
    return 0, [
        f"record {listed(result['record'])}",
        f"{result['nodes']} nodes, any {result['needed']} of which give an image back: {result['may_be_lost']} may be lost",
        f"wrong symbols that are set right where no checksum tells: {result['wrong_set_right']} in each lane",
        f"storage: {result['storage']:.2f} bytes for each byte",
        f"a changed byte writes {result['nodes_written_by_a_change']} nodes; a node depends on {reads} of {result['needed']} symbols",
        f"a rebuild reads {result['shares_read_by_a_rebuild']:g} shares for the one that it makes" + by_traces(result)]


def by_traces(result):
    """How a rebuild by traces reads."""
    if not result["bits_read_by_a_rebuild"]:
        return ""
    bits, nodes = result["bits_read_by_a_rebuild"], result["nodes_read_by_a_rebuild"]
    return f": {several(bits, 'bit')} of each symbol of {nodes} nodes, where {result['needed']} whole shares would do"


def init(result):
    return 0, [f"made {result['store']}", *plan(result)[1]]


def put(result):
    nodes = len(result["nodes"])
    return 0, [
        f"{result['image']}: {several(result['length'], 'byte')} on {several(nodes, 'node')}, generation {result['generation']}",
        moved(result), *with_reasons("without", result["absent"])]


def get(result):
    return 0, [
        f"{result['image']}: {several(result['length'], 'byte')}, generation {result['generation']}, digest right",
        moved(result), *with_reasons("absent", result["absent"]), *with_reasons("wrong", result["wrong"])]


def list_images(result):
    lines, status = [], 0
    for one in result["images"]:
        if "length" not in one:
            lines.append(f"{one['image']}: {about(one['image'], one.get('lost') or one.get('doubt'))}")
            status = 3 if "lost" in one else 1
            continue
        right = f"right at {several(len(one['right']), 'node')}" + (", a write is unfinished" if one["unsettled"] else "")
        lines.append(f"{one['image']}: {several(one['length'], 'byte')}, generation {one['generation']}, {right}")
        lines += with_reasons("wrong", one["wrong"])
    return status, [*(lines or ["no images"]), *with_reasons("absent", result["absent"])]


def check(result):
    lines, wrong, lost = [], bool(result["absent"] or result["failed"]), bool(result["lost"])
    for one in result["images"]:
        left = one["wrong"] or one["doubts"] or one["lost"]
        wrong, lost = wrong or bool(left), lost or bool(one["lost"])
        word = "wrong" if left else "right" if not one["corrected"] else "set right"
        what = "removed" if one["removed"] else f"{several(one['length'], 'byte')}, generation {one['generation']}"
        lines.append(f"{one['image']}: {what}: {word}")
        lines += [f"  set right node {node}: {one['found'][node]}" for node in one["corrected"] if node not in one["wrong"]]
        lines += with_reasons("wrong", one["wrong"]) + [f"  {why}" for why in one["doubts"] + one["lost"]]
    lines += [f"{name}: lost: {about(name, why)}" for name, why in result["lost"].items()] + list(result["failed"].values())
    lines += with_reasons("absent", result["absent"]) + [moved(result)]
    return 3 if lost else int(wrong), lines


def rm(result):
    return 0, [f"{result['image']}: removed at {several(len(result['nodes']), 'node')}", *with_reasons("without", result["absent"])]


def update(result):
    name, generation = result["image"], result["generation"]
    if result["changed"] is None:
        return 0, [
            f"{name}: another length, {several(result['length'], 'byte')}: written anew at {several(len(result['nodes']), 'node')}, "
            f"generation {generation}", moved(result), *with_reasons("without", result["absent"])]
    if not result["changed"]:
        return 0, [f"{name}: nothing differs, generation {generation}"]
    lines = [
        f"{name}: {several(result['changed'], 'byte')} changed, generation {generation}",
        f"  {several(len(result['nodes']), 'node')} written: {listed(result['nodes'])}",
        f"  symbols sent: {several(result['symbols_sent'], 'byte')}; a whole rewrite sends {number(result['whole_sent'])}",
        f"  the plain layout is sent {several(result['plain_sent'], 'byte')} at {several(len(result['plain_nodes']), 'node')}, "
        f"{result['sums']} of which it writes at every change",
        moved(result)]
    if result["told"]:
        lines.append(f"  told of the new generation: {listed(result['told'])}")
    return 0, lines + with_reasons("without", result["absent"])


def rebuild(result):
    lines = []
    for one in result["rebuilt"]:
        lines.append(f"node {one['node']}, {one['image']}: a share of {several(one['share'], 'byte')} made anew")
        lines.append(f"  {several(one['read'], 'byte')} read; {result['needed']} whole shares are {number(one['whole'])}")
    if not (result["rebuilt"] or result["lost"] or result["failed"]):
        lines.append(f"{'nodes' if len(result['nodes']) > 1 else 'node'} {listed(result['nodes'])}: of the store; there is no image to be made anew")
    lines += [moved(result), *[f"{name}: lost: {about(name, why)}" for name, why in result["lost"].items()], *result["failed"].values()]
    lines += with_reasons("wrong", result["wrong"]) + with_reasons("absent", result["absent"])
    return 3 if result["lost"] else int(bool(result["failed"])), lines


def event(result):
    present, needed = result["present"], result["needed"]
    lines = [f"{several(len(present), 'node')} present, {needed} needed: {listed(present)}"]
    if len(present) < needed:
        lines.append("  these are too few: no image can be had or put until another returns")
    return 0, lines


def nodes(result):
    lines = [f"{several(result['images'], 'image')}, {result['needed']} nodes needed"]
    for one in result["nodes"]:
        wrong = f", wrong {one['wrong']}" if one["wrong"] else ""
        why = f": {one['why']}" if one["why"] else ""
        lines.append(f"  {one['node']:3} {one['state']:5} right {one['right']}{wrong}  {one['place']}{why}")
    return 0, lines


REPORTS = {"plan": plan, "init": init, "put": put, "get": get, "list": list_images, "check": check, "rm": rm, "update": update,
           "rebuild": rebuild, "leave": event, "return": event, "nodes": nodes}


def report(command, result):
    """The exit status, and the lines."""
    return REPORTS[command](result)
