"""What `der_dump --text` says of documents is what openssl says of them: of each certificate of a folder, and of
certificates, requests, lists, keys, parameters, messages of CMS and PKCS #7, files of PKCS #12, OCSP and time stamps
that openssl makes (openssl_says.py). Each line is compared.

    checks/run accounts [-- FOLDER]    /etc/ssl/certs unless given
"""
import pathlib
import re
import subprocess
import sys
import tempfile

from builds import program as built
from certificates import certificates
from openssl_says import Room, certificate_lines, documents

sys.path.append(str(pathlib.Path(__file__).parent / "growth"))
from shapes import REVOKED, revoked  # noqa: E402

# how many characters the label of a line takes, behind two spaces
LABEL = 20
# how many lines of one label an account has
MOST_ALIKE = 50_000


def account_of(program, file):
    """The texts of the lines of the first account of a file, by their labels."""
    said = subprocess.run([program, "--text", file], capture_output=True).stdout.decode()
    lines = {}
    for line in re.split(r"^(?=\S)", said, flags=re.M)[1].splitlines()[1:]:
        lines.setdefault(line[2:2 + LABEL].strip(), []).append(line[2 + LABEL:])
    return lines


def have(texts, wanted):
    """Whether the texts are as many as there are lists of words, and each has its words in order."""
    return len(texts) == len(wanted) and all(
        re.search(".*".join(map(re.escape, words)), text) for words, text in zip(wanted, texts))


def compare(name, account, lines):
    """How many labels of an account do not have what openssl says, or stand in one of them alone."""
    wrong = [label for label in account.keys() | lines.keys() if not have(account.get(label, []), lines.get(label, []))]
    for label in sorted(wrong):
        print(f"{name}: {label}: {account.get(label)!r}, and openssl says {lines.get(label)!r}")
    return len(wrong)


def compare_documents(program, room):
    """How many labels of accounts of documents that openssl makes are not as it has them."""
    count = wrong = 0
    for name, lines in documents(Room(room, program)):
        count += 1
        wrong += compare(name, account_of(program, room / name), lines)
    print(f"accounts: {count} documents that openssl makes, {wrong} lines not as openssl has them")
    return wrong


def compare_certificates(program, room, folder):
    """How many certificates a folder has, and how many labels of accounts of them are not as openssl has them."""
    count = wrong = 0
    openssl = Room(room, program)
    for octets in certificates(folder):
        (room / "certificate").write_bytes(octets)
        lines = certificate_lines(openssl, "certificate")
        count += 1
        wrong += compare(lines["subject"], account_of(program, room / "certificate"), lines)
    print(f"accounts: {count} certificates, {wrong} lines not as openssl has them")
    return count, wrong


def count_revoked(program, room):
    """Whether an account of a long list shows as many revoked certificates as it may, and says how many more there
    are: 1 if it is wrong."""
    (room / "list").write_bytes(revoked((MOST_ALIKE + 2) * len(REVOKED)))
    said = subprocess.run([program, "--text", room / "list"], capture_output=True, check=True).stdout.decode()
    lines = re.findall(r"^  revoked certificate (.*)$", said, re.M)
    is_right = len(lines) == MOST_ALIKE + 1 and lines[-1] == "and 2 more"
    if not is_right:
        print(f"accounts: {len(lines)} lines of revoked certificates, the last is {lines[-1:]}")
    return int(not is_right)


def main(words):
    program, folder = built("der_dump"), words[0] if words else ""
    with tempfile.TemporaryDirectory() as name:
        room = pathlib.Path(name)
        wrong = compare_documents(program, room) + count_revoked(program, room)
        count, more = compare_certificates(program, room, folder)
    return 1 if wrong + more or not count else 0


if __name__ == "__main__":
    sys.exit(main(sys.argv[1:]))
