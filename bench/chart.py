"""A chart of what `run` measured, as SVG: chart.py RESULTS. Nanoseconds an octet of reading, on a logarithmic scale."""
import math
import pathlib
import statistics
import sys

RESULTS = pathlib.Path(sys.argv[1])
ITEMS = {"certificates": "Certificates", "list_of_revoked": "A list of revoked certificates"}
OWNS, BORROWS, TYPES = "owns a tree", "borrows", "goes by types"
PEERS = {
    "here, Outline": ("simple_asn1 here, Outline", BORROWS),
    "here": ("simple_asn1 here", OWNS),
    "der-parser": ("der-parser", BORROWS),
    "Rust crate": ("simple_asn1, the Rust crate", OWNS),
    "OpenSSL tree": ("OpenSSL, ASN1_TYPE", OWNS),
    "libtasn1": ("libtasn1", TYPES),
    "OpenSSL types": ("OpenSSL, X509 and X509_CRL", TYPES),
}
COLORS = {OWNS: "#2b6cb0", BORROWS: "#2f855a", TYPES: "#b7791f"}
WIDTH, LEFT, RIGHT, BAR, STEP, HEAD = 760, 230, 70, 16, 24, 34


def measured():
    """Nanoseconds an octet of each item and peer: the median of the runs."""
    found = {}
    for run in sorted(RESULTS.glob("time.*")):
        for line in run.read_text().splitlines():
            item, size, octets, _, peer, operation, nanoseconds, *_ = line.split("\t")
            if operation == "Read" and size == "4" and float(nanoseconds) > 0:
                found.setdefault((item, peer), []).append(float(nanoseconds) / int(octets))
    return {key: statistics.median(values) for key, values in found.items()}


def number(x):
    return f"{x:.0f}" if x >= 100 else f"{x:.1f}" if x >= 10 else f"{x:.2f}"


def main():
    times = {key: x for key, x in measured().items() if key[0] in ITEMS and key[1] in PEERS}
    low, high = (math.log10(it) for it in (min(times.values()) / 1.5, max(times.values()) * 1.1))

    def across(x):
        return LEFT + (math.log10(x) - low) / (high - low) * (WIDTH - LEFT - RIGHT)

    marks = [m * 10.0**e for e in range(-3, 5) for m in (1, 2, 5) if low < math.log10(m * 10.0**e) < high]
    parts, y = [], 56
    for kind, x in zip(COLORS, (LEFT, LEFT + 140, LEFT + 240)):
        parts.append(f'<rect x="{x}" y="34" width="12" height="12" fill="{COLORS[kind]}"/>')
        parts.append(f'<text x="{x + 18}" y="44">{kind}</text>')
    top = y
    for item, title in ITEMS.items():
        rows = [(times[item, peer], *PEERS[peer]) for peer in PEERS if (item, peer) in times]
        if not rows:
            continue
        parts.append(f'<text x="16" y="{y + 20}" font-weight="bold">{title}</text>')
        y += HEAD
        for x, label, kind in sorted(rows):
            parts.append(f'<text x="{LEFT - 10}" y="{y + 12}" text-anchor="end">{label}</text>')
            width = f"{across(x) - LEFT:.1f}"
            parts.append(f'<rect x="{LEFT}" y="{y}" width="{width}" height="{BAR}" fill="{COLORS[kind]}"/>')
            parts.append(f'<text x="{across(x) + 6:.1f}" y="{y + 12}">{number(x)}</text>')
            y += STEP
    grid = [f'<path d="M{across(m):.1f} {top + 8}V{y}" stroke="#d5d9de"/>'
            f'<text x="{across(m):.1f}" y="{y + 16}" text-anchor="middle" fill="#555">{m:g}</text>' for m in marks]
    date = ",".join((RESULTS / "machine").read_text().split(",")[:2])
    print(f'<svg xmlns="http://www.w3.org/2000/svg" width="{WIDTH}" height="{y + 30}" viewBox="0 0 {WIDTH} {y + 30}" '
          'font-family="sans-serif" font-size="13">')
    print(f'<rect width="{WIDTH}" height="{y + 30}" fill="#fff"/>')
    print(f'<text x="16" y="22" font-weight="bold">Reading: nanoseconds an octet, logarithmic ({date})</text>')
    print("\n".join(grid + parts))
    print("</svg>")


main()
