"""A page that shows lines as a terminal does: terminal_page.py reads what a program wrote with colors, and writes it.

Of escape sequences it knows those of der_dump: each sets one look, until the sequence of none (ECMA-48, 8.3.117).
"""
import html
import re
import sys

LOOKS = {"1": "bold", "2": "dim", "31": "red", "36": "cyan"}
STYLE = """
body { margin: 0; padding: 12px 16px; background: #16191d; color: #e3e6ea; font: 14px/20px monospace }
pre { margin: 0; font: inherit }
.bold { font-weight: bold }
.dim { color: #8b929a }
.red { color: #ff7b72 }
.cyan { color: #56d4dd }
"""


def spans(text):
    """The text with an element for each part that has a look."""
    is_open = False
    for part in re.split(r"(\x1b\[\d+m)", text):
        code = re.fullmatch(r"\x1b\[(\d+)m", part)
        if not code:
            yield html.escape(part)
            continue
        if is_open:
            yield "</span>"
        is_open = code[1] != "0"
        if is_open:
            yield f'<span class="{LOOKS[code[1]]}">'


def main():
    text = "".join(spans(sys.stdin.read()))
    print(f'<!DOCTYPE html><meta charset="utf-8"><style>{STYLE}</style><pre>{text}</pre>')


if __name__ == "__main__":
    main()
