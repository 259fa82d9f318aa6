"""Each row of a dump has an offset that --extract takes, and the block that it writes is the row's."""
import concurrent.futures
import subprocess

# documents of more rows are left out, since each row is a run
MOST_ROWS = 40


def is_end(row, around):
    """Whether a row is of end-of-contents octets, by the row of the encoding that it stands in: they have no value.
    Other encodings with the tag 0 have one, or are constructed."""
    inside_indefinite = around is not None and around["size"] is None
    return row["type"] == "end-of-contents" and inside_indefinite and not row["constructed"] and row["value"] is None


def blocks_of(octets, rows):
    """The offset of each row, and the octets of its block; None for a row that is of no whole block."""
    opened, wanted = [], {}
    for row in rows:
        depth, offset = row["depth"] - rows[0]["depth"], row["offset"]
        del opened[depth:]
        around = opened[depth - 1] if depth else None
        if is_end(row, around):
            if row["header"]:
                wanted[around["offset"]] = octets[around["offset"]:offset + 2]
                wanted[offset] = None
        elif row["class"] is None or row["size"] is None or row.get("shown", "").startswith("truncated"):
            wanted[offset] = None
        else:
            wanted[offset] = octets[offset:offset + row["size"]]
        opened.append(row)
        wanted.update(blocks_of(octets, row.get("blocks", [])))
    return wanted


def check_extracted(dump, documents, lines):
    """What is wrong, and how many blocks were extracted, and how many rows were told to have none."""
    runs = []
    for number, (octets, read) in enumerate(zip(documents, lines)):
        wanted = blocks_of(octets, read[0].get("blocks", []))
        if len(wanted) <= MOST_ROWS:
            (dump.folder / f"{number:05}.extracted").write_text(octets.hex() + "\n")
            runs += ((number, offset, block) for offset, block in wanted.items())

    def run(it):
        words = [dump.program, "--extract", str(it[1]), f"{it[0]:05}.extracted"]
        ran = subprocess.run(words, cwd=dump.folder, capture_output=True)
        return (ran.returncode, ran.stdout) == ((1, b"") if it[2] is None else (0, it[2]))

    with concurrent.futures.ThreadPoolExecutor() as pool:
        right = list(pool.map(run, runs))
    says = "does not write the block of that row, or why there is none"
    wrong = [f"{documents[it[0]].hex()[:80]}: --extract {it[1]} {says}" for it, good in zip(runs, right) if not good]
    return wrong, sum(it[2] is not None for it in runs), sum(it[2] is None for it in runs)
