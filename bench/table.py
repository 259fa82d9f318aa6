"""Tables of what `run` measured, in Markdown: table.py RESULTS. Of several runs, each number is the median."""
import pathlib
import statistics
import sys

RESULTS = pathlib.Path(sys.argv[1])
PEERS = ["Rust crate", "here", "here, Document", "here, Outline", "here, is_der", "here, departures", "here, C",
         "here, C, all values", "der-parser", "libtasn1", "OpenSSL tree", "OpenSSL types"]
# whose instructions alone are counted
CALLS = [f"here, C, {call}" for call in ("outline", "three values", "check", "departures", "signed")]
OPERATIONS = ["Read", "Strict", "Write", "Rewrite"]
RUNS = sorted(RESULTS.glob("time.*"))
MACHINE = (RESULTS / "machine").read_text().rstrip(", ")
DATE, COMMIT, *_ = MACHINE.split(", ")


def rows(file):
    return [line.split("\t") for line in file.read_text().splitlines()] if file.exists() else []


def number(x):
    return f"{x:.0f}" if x >= 100 else f"{x:.1f}" if x >= 10 else f"{x:.2f}"


def table(title, head, lines):
    lines = [line for line in lines if any(line[1:])]
    if not lines:
        return
    print(f"### {title} ({DATE}, {COMMIT})\n")
    print("| " + " | ".join(head) + " |\n|---" + "|---:" * (len(head) - 1) + "|")
    for line in lines:
        print("| " + " | ".join(line) + " |")
    print()


def medians(column):
    found = {}
    for item, size, _, _, peer, operation, *values in (row for run in RUNS for row in rows(run)):
        found.setdefault((item, int(size), peer, operation), []).append(float(values[column]))
    return {key: statistics.median(values) for key, values in found.items()}


TIME, RATIO, GROWTH = medians(0), medians(1), medians(2)
ITEMS = list(dict.fromkeys(item for item, *_ in TIME))
SIZES = {item: (int(octets), int(blocks)) for item, size, octets, blocks, *_ in rows(RUNS[0]) if size == "4"}


def cell(item, peer, operation):
    key = item, 4, peer, operation
    if key not in TIME:
        return ""
    per_octet = TIME[key] / SIZES[item][0]
    if peer == "Rust crate":
        return f"**{number(per_octet)}**"
    if per_octet < 0.02 or RATIO[key] <= 0:
        return ""  # within the noise
    return f"{number(per_octet)} ({number(RATIO[key]) if operation == 'Strict' else number(1 / RATIO[key])})"


def operation_table(title, operation):
    peers = [peer for peer in PEERS if any((item, 4, peer, operation) in TIME for item in ITEMS)]
    sizes = {item: [f"{octets:,}", f"{blocks:,}"] for item, (octets, blocks) in SIZES.items()}
    cells = {item: [cell(item, peer, operation) for peer in peers] for item in ITEMS}
    lines = ([item, *sizes[item], *cells[item]] for item in ITEMS if any(cells[item]))
    table(title, ["item", "octets", "blocks", *peers], lines)


def growth_cell(item, peer, operation):
    keys = [(item, size, peer, operation) for size in (2, 4)]
    if any(key not in TIME or TIME[key] < 1000 for key in keys):
        return ""
    return ", ".join(f"{GROWTH[key]:.2f}" for key in keys)


print(f"{MACHINE}.\n")
loads = "; ".join((RESULTS / "load").read_text().splitlines())
print(f"Runs: {len(RUNS)}. Load over 1, 5 and 15 minutes before each, and after the last: {loads}.\n")
print((RESULTS / "same").read_text())
operation_table("Read: nanoseconds an octet (how many times as fast as the Rust crate)", "Read")
operation_table("Read strictly: nanoseconds an octet (how many times as long as its own reading otherwise)", "Strict")
operation_table("Write: nanoseconds an octet (how many times as fast as the Rust crate)", "Write")
operation_table("Rewrite: nanoseconds an octet (how many times as fast as the Rust crate)", "Rewrite")

columns = [(peer, operation) for operation in OPERATIONS for peer in PEERS]
columns = [it for it in columns if any(growth_cell(item, *it) for item in ITEMS)]
table("Growth: how many times as long for twice the size, and for twice that",
      ["item", *(f"{operation}, {peer}" for peer, operation in columns)],
      [[item, *(growth_cell(item, *it) for it in columns)] for item in ITEMS])

memory = {(item, peer): (int(calls), int(most)) for item, peer, calls, most in rows(RESULTS / "memory")}


def memory_cell(item, peer):
    if (item, peer) not in memory:
        return ""
    calls, most = memory[item, peer]
    octets, blocks = SIZES[item]
    return f"{calls / blocks:.2f}, {number(most / octets)}"


table("Memory of reading: allocations a block, and the most octets that are live for each octet read",
      ["item", *PEERS], [[item, *(memory_cell(item, peer) for peer in PEERS)] for item in ITEMS])

counts = {(peer, operation): int(count) for peer, operation, count in rows(RESULTS / "instructions") if int(count) > 0}
table("Instructions for a certificate, on the mean", ["", "read", "read strictly", "write", "rewrite"],
      [[peer, *(f"{counts[peer, it]:,}" if (peer, it) in counts else "" for it in OPERATIONS)]
       for peer in PEERS + CALLS])
