"""Documents that openssl makes, and what it says of each in the words of accounts, for accounts.py.

Each document has a name, and by label what the lines of its account have to have: for each line the words, in order.
What is known by openssl under another name is asked for by its identifier.
"""
import base64
import datetime
import hashlib
import re
import subprocess

NAMES = "-nameopt RFC2253,utf8,-esc_msb"
NEW_KEY = "-newkey ec -pkeyopt ec_paramgen_curve:prime256v1 -nodes"
SECRET = "000102030405060708090A0B0C0D0E0F"
# the bits of KeyUsage, and the reasons of a list, as openssl has them (RFC 5280, 4.2.1.3 and 5.3.1)
USAGES = {
    "Digital Signature": "digitalSignature", "Non Repudiation": "nonRepudiation",
    "Key Encipherment": "keyEncipherment", "Data Encipherment": "dataEncipherment", "Key Agreement": "keyAgreement",
    "Certificate Sign": "keyCertSign", "CRL Sign": "cRLSign", "Encipher Only": "encipherOnly",
    "Decipher Only": "decipherOnly",
}
REASONS = {"Key Compromise": "keyCompromise", "CA Compromise": "cACompromise", "Superseded": "superseded"}
# what services are called by openssl and by RFC 5280
SERVICES = {"OCSP - ": "ocsp ", "CA Issuers - ": "caIssuers ", "CA Repository - ": "caRepository "}
FAILURES = {"the requested TSA policy is not supported by the TSA": "unacceptedPolicy"}

CONFIGURATION = """[req]
distinguished_name = d
prompt = no
[d]
CN = asked
O = Example
[asked]
attributes = attributes
distinguished_name = d
req_extensions = some
prompt = no
[attributes]
challengePassword = secret word
unstructuredName = a name
[some]
subjectAltName = DNS:a.example,email:x@example.org,IP:192.0.2.1
keyUsage = critical,digitalSignature,keyEncipherment
extendedKeyUsage = serverAuth
basicConstraints = CA:FALSE
[all]
certificatePolicies = 1.2.3.4,@policy
nameConstraints = permitted;DNS:.example,permitted;IP:192.0.2.0/255.255.255.0,excluded;email:.bad.example
crlDistributionPoints = URI:http://a.example/1.crl,point
authorityInfoAccess = OCSP;URI:http://o.example/,caIssuers;URI:http://c.example/ca.der
subjectInfoAccess = caRepository;URI:http://r.example/
issuerAltName = DNS:issuer.example,RID:1.2.3
subjectAltName = DNS:a.example,IP:192.0.2.1,RID:1.2.3.4,URI:urn:x,otherName:1.3.6.1.4.1.311.20.2.3;UTF8:me@example.org
keyUsage = critical,keyCertSign,cRLSign
extendedKeyUsage = clientAuth,codeSigning,1.2.3.4.5
basicConstraints = critical,CA:TRUE,pathlen:3
subjectKeyIdentifier = hash
1.3.6.1.4.1.11129.2.4.2 = DER:{timestamps}
[policy]
policyIdentifier = 1.2.3.5
CPS.1 = http://p.example/
userNotice.1 = @notice
[notice]
explicitText = A notice
organization = Org
noticeNumbers = 1,2
[point]
fullname = URI:http://b.example/2.crl
reasons = keyCompromise,CACompromise
[ca]
default_ca = c
[c]
database = index.txt
crlnumber = crlnumber
default_md = sha256
default_crl_days = 30
certificate = ca.pem
private_key = ca.key
crl_extensions = e
[e]
authorityKeyIdentifier = keyid
[tsa]
default_tsa = t
[t]
serial = ./serial
signer_cert = tsa.pem
signer_key = tsa.key
signer_digest = sha256
default_policy = 1.2.3.4
digests = sha256
"""
# a list of a signed certificate timestamp: version 1, a log, 2026-01-02T03:04:05.678Z, no extensions, a signature by
# SHA-256 and ECDSA (RFC 6962, 3.2 and 3.3)
TIMESTAMP = (bytes([0]) + bytes(range(32)) + (1767323045678).to_bytes(8, "big") + bytes([0, 0, 4, 3, 0, 8])
             + bytes.fromhex("3006020101020102"))
INDEX = """R\t351231235959Z\t250101000000Z,keyCompromise\t1234\tunknown\t/CN=a
V\t351231235959Z\t\t1235\tunknown\t/CN=b
R\t351231235959Z\t260101000000Z\t1236\tunknown\t/CN=c
"""


def moment(text):
    """A date as openssl has it, `May  5 09:37:37 2011 GMT`, as accounts have it."""
    return datetime.datetime.strptime(text.strip(), "%b %d %H:%M:%S %Y GMT").strftime("%Y-%m-%dT%H:%M:%SZ")


def service(line):
    """A service as accounts have it."""
    for word, name in SERVICES.items():
        line = line.replace(word, name, 1)
    return line


def found(pattern, text):
    """What the groups of a pattern take in each place of a text."""
    return re.findall(pattern, text, re.M)


class Room:
    """A folder in which openssl works, and the program whose names for identifiers are wanted."""

    def __init__(self, path, program):
        self.path = path
        self.program = program
        self.names = {}

    def says(self, words, status=0):
        """What openssl prints with these words, on both streams."""
        ran = subprocess.run(["openssl", *words.split()], cwd=self.path, capture_output=True)
        if ran.returncode != status:
            raise ValueError(f"openssl {words}: {ran.stderr.decode()}")
        return (ran.stdout + ran.stderr).decode()

    def ours(self, name):
        """The name in accounts of an object identifier that openssl knows by a name of its own."""
        if name not in self.names:
            command = ["openssl", "asn1parse", "-noout", "-out", "name.der", "-genstr", "OID:" + name]
            subprocess.run(command, cwd=self.path, capture_output=True, check=True)
            told = subprocess.check_output([self.program, "--get", "0", "name.der"], cwd=self.path)
            self.names[name] = told.decode().rstrip("\n")
        return self.names[name]

    def digest(self, name):
        """SHA-256 of what the first object of a PEM file has."""
        lines = (self.path / name).read_text().split("-----")[2]
        return hashlib.sha256(base64.b64decode(lines)).hexdigest().upper()

    def key_kind(self, text, parsed=""):
        """The kind of a key, of which openssl says this, and asn1parse that."""
        curve = found(r"ASN1 OID: (\S+)$", text)
        if curve:
            return ["EC", self.ours(curve[0])]
        sizes = [f"{size} bits" for size in found(r"(?:Private|Public)-Key: \((\d+) bit", text)]
        if "modulus:" in text.lower():
            return ["RSA", *sizes]
        return [self.ours(found(r"OBJECT +:(.*)$", parsed)[0]), *sizes]


def sections(text):
    """The lines of each extension that openssl prints, by its title, which ends with a colon. They stand further to the
    right."""
    titles, title, depth = {}, None, 0
    for line in text.splitlines():
        indent = len(line) - len(line.lstrip())
        if title and indent > depth and line.strip():
            titles[title].append(line.strip())
            continue
        is_title = re.fullmatch(r" *((?:X509v3|Authority|Subject|CT) [A-Z].*?): *(?:critical)?", line)
        title, depth = (is_title.group(1).removeprefix("X509v3 ") if is_title else None), indent
        if title:
            titles[title] = []
    return titles


def one(items):
    return [[", ".join(items)]]


def extension_lines(room, text):
    """The lines of extensions by what openssl says of them."""
    told = sections(text)
    lines = {}
    for title, label in (("Subject Alternative Name", "alternative names"),
                         ("Issuer Alternative Name", "issuer's names")):
        if title in told:
            names = told[title][0].replace("othername: UPN::", "othername:userPrincipalName:")
            # openssl has the names of directories in another form here
            lines[label] = [re.split("(?<=DirName:)/.*?(?=, [A-Za-z ]+:|$)", names)]
    if "Key Usage" in told:
        lines["key usage"] = one(USAGES[word] for word in told["Key Usage"][0].split(", "))
    if "Extended Key Usage" in told:
        lines["extended key usage"] = one(map(room.ours, told["Extended Key Usage"][0].split(", ")))
    if "Basic Constraints" in told:
        authority = told["Basic Constraints"][0].split(", ")
        lines["authority"] = [["yes" if authority[0] == "CA:TRUE" else "no"] + [
            part.removeprefix("pathlen:") for part in authority[1:]]]
    for title, label in (("Subject Key Identifier", "key identifier"), ("Authority Key Identifier", "issuer's key")):
        key = told.get(title, [""])[0].removeprefix("keyid:").replace(":", "")
        if re.fullmatch("[0-9A-F]+", key):
            lines[label] = [[key]]
    if "CRL Number" in told:
        lines["number"] = [[f"{int(told['CRL Number'][0]):X}"]]
    for title, label in (("Authority Information Access", "issuer's service"),
                         ("Subject Information Access", "subject's service")):
        if title in told:
            lines[label] = [[service(line)] for line in told[title]]
    if "Certificate Policies" in told:
        policies = re.split(r"^Policy: ", "\n".join(told["Certificate Policies"]), flags=re.M)[1:]
        qualifier = r"^(?:CPS|Organization|Explicit Text): (.*)$"
        lines["policy"] = [[room.ours(text.split("\n")[0]), *found(qualifier, text)] for text in policies]
    if "Name Constraints" in told:
        kinds = re.split(r"^(Permitted|Excluded):$", "\n".join(told["Name Constraints"]), flags=re.M)[1:]
        lines["name constraint"] = [
            [kind.lower(), *re.sub("^IP:", "IP Address:", name).split(" ")]
            for kind, names in zip(kinds[::2], kinds[1::2]) for name in names.split()]
    if "CRL Distribution Points" in told:
        points = re.split(r"^Full Name:$", "\n".join(told["CRL Distribution Points"]), flags=re.M)[1:]
        lines["revocation list"] = [
            found(r"^(URI:\S+)", point) + [REASONS[word] for reasons in found(r"Reasons:\n(.*)$", point)
                                           for word in reasons.split(", ")] for point in points]
    if "CT Precertificate SCTs" in told:
        said = "\n".join(told["CT Precertificate SCTs"])
        times = [datetime.datetime.strptime(time, "%b %d %H:%M:%S.%f %Y GMT").strftime("%Y-%m-%dT%H:%M:%S.%f")[:-3]
                 for time in found(r"Timestamp *: (.*)$", said)]
        logs = [re.sub(r"[^0-9A-F]", "", log) for log in found(r"Log ID *: ((?:[0-9A-F:]+\s+){2})", said)]
        lines["timestamp"] = [[time, "log " + log] for log, time in zip(logs, times)]
    return lines


def make(room):
    """Keys, certificates and what else the documents are made of."""
    stamps = (len(TIMESTAMP) + 2).to_bytes(2, "big") + len(TIMESTAMP).to_bytes(2, "big") + TIMESTAMP
    stamps = bytes([4, len(stamps)]) + stamps
    (room.path / "o.cnf").write_text(CONFIGURATION.format(timestamps=stamps.hex()))
    (room.path / "serial").write_text("01")
    (room.path / "crlnumber").write_text("1F")
    (room.path / "index.txt").write_text(INDEX)
    (room.path / "data").write_text("text")
    (room.path / "refused.ocsp").write_bytes(bytes.fromhex("30030A0106"))
    subject = "-config o.cnf -subj"
    room.says(f"req -x509 {NEW_KEY} -keyout ca.key -out ca.pem {subject} /CN=Root -set_serial 0x0A1B"
              " -addext subjectKeyIdentifier=hash -addext basicConstraints=CA:TRUE")
    room.says(f"req -newkey rsa:2048 -nodes -keyout a.key -out a.csr {subject} /CN=a")
    room.says("x509 -req -in a.csr -CA ca.pem -CAkey ca.key -set_serial 0x1234 -out a.pem")
    purpose = "-addext extendedKeyUsage=critical,timeStamping"
    room.says(f"req -x509 {NEW_KEY} -keyout tsa.key -out tsa.pem {subject} /CN=TSA {purpose} -set_serial 0x77")
    room.says(f"req -x509 -key a.key -out named.pem {subject} /CN=named -addext subjectKeyIdentifier=hash")


def certificate_lines(room, name):
    """The lines of a certificate in a file of PEM or DER."""
    said = room.says(f"x509 -in {name} -noout -text -serial {NAMES} -fingerprint -sha256")
    signature = found(r"Signature Algorithm: (\S+)", said)[0]
    salt = found(r"Hash Algorithm: (\S+)", said)[:1] + [
        f"salt of {int(size, 16)} bytes" for size in found(r"Salt Length: (?:0x)?(\w+)", said)[:1]]
    return {
        "subject": [found(r"^ +Subject: (.*)$", said)],
        "issuer": [found(r"^ +Issuer: (.*)$", said)],
        "serial number": [found(r"^serial=(.*)$", said)],
        "not before": [[moment(found(r"Not Before: (.*)$", said)[0])]],
        "not after": [[moment(found(r"Not After : (.*)$", said)[0])]],
        "public key": [room.key_kind(said)],
        "signature": [[room.ours(signature), *salt]],
        "SHA-256": [[found(r"Fingerprint=(.*)$", said)[0].replace(":", "")]],
    } | extension_lines(room, said)


def certificates(room):
    """Certificates with extensions of all kinds, and with a signature of RSASSA-PSS."""
    room.says("req -x509 -config o.cnf -extensions all -key ca.key -out all.pem -set_serial 5")
    room.says("req -x509 -config o.cnf -subj /CN=pss -key a.key -out pss.pem -set_serial 6 -sha384"
              " -sigopt rsa_padding_mode:pss -sigopt rsa_pss_saltlen:32")
    for name in "all.pem", "pss.pem":
        yield name, certificate_lines(room, name)


def requests(room):
    """A certification request, and a signed public key and challenge."""
    room.says("req -new -key a.key -config o.cnf -section asked -out b.csr")
    said = room.says(f"req -in b.csr -noout -text {NAMES}")
    yield "b.csr", {
        "subject": [found(r"Subject: (.*)$", said)],
        "public key": [room.key_kind(said)],
        "attribute": [list(pair) for pair in found(r"^ {12}(\w+) +:(.*)$", said)],
        "signature": [[room.ours(found(r"Signature Algorithm: (\S+)", said)[0])]],
        "SHA-256": [[room.digest("b.csr")]],
    } | extension_lines(room, said)
    room.says("spkac -key a.key -challenge hello -digest sha256 -out a.spkac")
    said = room.says("spkac -in a.spkac")
    yield "a.spkac", {
        "public key": [room.key_kind(said)],
        "challenge": [found(r"Challenge String: (.*)$", said)],
        "signature": [[room.ours(found(r"Signature Algorithm: (\S+)", said)[0])]],
    }


def lists(room):
    """A list of revoked certificates."""
    room.says("ca -config o.cnf -gencrl -out list.crl")
    said = room.says(f"crl -in list.crl -noout -text {NAMES} -fingerprint -sha256")
    revoked = re.split(r"^ +Serial Number: ", said.partition("Revoked Certificates:")[2], flags=re.M)[1:]
    yield "list.crl", {
        "issuer": [found(r"Issuer: (.*)$", said)],
        "this update": [[moment(found(r"Last Update: (.*)$", said)[0])]],
        "next update": [[moment(found(r"Next Update: (.*)$", said)[0])]],
        "revoked": [[str(len(revoked))]],
        "revoked certificate": [
            ["serial " + text.split()[0], moment(found(r"Revocation Date: (.*)$", text)[0])]
            + [REASONS[reason] for reason in found(r"Reason Code: \n *(.*)$", text)] for text in revoked],
        "signature": [[room.ours(found(r"Signature Algorithm: (\S+)", said)[0])]],
        "SHA-256": [[found(r"Fingerprint=(.*)$", said)[0].replace(":", "")]],
    } | extension_lines(room, said)


def keys(room):
    """Private and public keys in each form, and parameters."""
    room.says("dsaparam -out dsa.param 1024")
    room.says("dhparam -dsaparam -out dh.param 512")
    room.says("ecparam -name secp384r1 -out ec.param")
    room.says("ecparam -name secp384r1 -param_enc explicit -out ecx.param")
    for name in "dsa", "dh":
        room.says(f"genpkey -paramfile {name}.param -out {name}.key")
    room.says("genpkey -algorithm ed25519 -out ed.key")
    room.says("ec -in ca.key -out traditional.key")
    room.says("rsa -in a.key -traditional -out rsa.key")
    for name in "ca", "a", "dsa", "dh", "ed", "traditional", "rsa":
        kind = room.key_kind(room.says(f"pkey -in {name}.key -noout -text"), room.says(f"asn1parse -in {name}.key"))
        yield f"{name}.key", {"key": [kind]}
        if name not in ("traditional", "rsa"):
            room.says(f"pkey -in {name}.key -pubout -outform DER -out {name}.pub")
            yield f"{name}.pub", {"key": [kind]}
    room.says("dsa -in dsa.key -out plain_dsa.key")
    size = found(r"\((\d+) bit", room.says("dsa -in plain_dsa.key -noout -text"))[0]
    yield "plain_dsa.key", {"key": [["DSA", f"{size} bits"]]}
    room.says("rsa -in a.key -RSAPublicKey_out -out plain.pub")
    yield "plain.pub", {"key": [room.key_kind(room.says("rsa -RSAPublicKey_in -in plain.pub -noout -text"))]}
    for name, command in ("dsa", "dsaparam"), ("dh", "dhparam"):
        size = found(r"\((\d+) bit\)", room.says(f"{command} -in {name}.param -noout -text"))[0]
        yield f"{name}.param", {"kind": [[name.upper(), f"{size} bits"]]}
    said = room.says("ecparam -in ec.param -noout -text")
    yield "ec.param", {"kind": [["EC", room.ours(found(r"ASN1 OID: (\S+)$", said)[0])]]}
    said = room.says("ecparam -in ecx.param -noout -text")
    size = found(r"\((\d+) bit\)", said)[0]
    yield "ecx.param", {"kind": [["EC", found(r"Field Type: (\S+)", said)[0], f"{size} bits"]]}


def encrypted_keys(room):
    """Private keys that are encrypted, by the identifiers and numbers of asn1parse."""
    for words in "", "-scrypt", "-v2 des3 -v2prf hmacWithSHA1 -iter 5000", "-v1 PBE-SHA1-3DES":
        room.says(f"pkcs8 -topk8 -in ca.key -passout pass:x {words} -outform DER -out sealed.key")
        said = room.says("asn1parse -inform DER -in sealed.key")
        parts = [room.ours(text) if kind == "OBJECT" else str(int(text, 16))
                 for kind, text in found(r"prim: +(OBJECT|INTEGER) +:(.*)$", said)]
        yield "sealed.key", {"encryption": [parts]}


def certified(text, before):
    """By whom, and with which number, what stands behind a word of `cms -cmsout -print` is certified."""
    issuer, number = found(before + r"[\s\S]*?issuer: (.*)\n\s+serial(?:Number)?: (\S+)", text)[0]
    return [issuer, "serial " + f"{int(number, 0):02X}"]


def octets_in(text, before):
    """The octets that stand in hex digits behind a word, in upper case."""
    lines = found(before + r" *\n((?:\s+[0-9a-f]{4} - .*\n)+)", text)[0].splitlines()
    return "".join(re.sub("[^0-9a-f]", "", line.split(" - ")[1][:47]) for line in lines).upper()


def signed_messages(room):
    """Messages of CMS and PKCS #7 that are signed, and one of a digest."""
    room.says("cms -sign -signer a.pem -inkey a.key -in data -outform DER -out signed.der")
    room.says("cms -sign -keyid -signer named.pem -inkey a.key -in data -outform DER -out named.der")
    room.says("smime -sign -signer a.pem -inkey a.key -certfile ca.pem -in data -outform DER -out seven.der")
    for name in "signed.der", "named.der", "seven.der":
        said = room.says(f"cms -cmsout -print -inform DER -in {name}")
        signers = said.partition("signerInfos:")[2]
        who = (["key " + octets_in(signers, "subjectKeyIdentifier:")] if name == "named.der"
               else certified(signers, "issuerAndSerialNumber:"))
        yield name, {
            "type": [[room.ours(found(r"contentType: \S+ \((.*)\)", said)[0])]],
            "content": [[room.ours(found(r"eContentType: \S+ \((.*)\)", said)[0])]],
            "signer": [[*who, room.ours(found(r"digestAlgorithm: \n\s+algorithm: \S+ \((.*)\)", signers)[0]),
                        "signed " + moment(found(r"UTCTIME:(.*)$", signers)[0]),
                        room.ours(found(r"signatureAlgorithm: \n\s+algorithm: \S+ \((.*)\)", signers)[0])]],
        }
    room.says("crl2pkcs7 -in list.crl -certfile a.pem -certfile ca.pem -outform DER -out some.p7b")
    said = room.says("pkcs7 -inform DER -in some.p7b -print -noout")
    yield "some.p7b", {"type": [[room.ours(found(r"type: \S+ \((.*)\)", said)[0])]],
                       "content": [[room.ours(found(r"contents: \n\s+type: \S+ \((.*)\)", said)[0])]]}
    room.says("cms -digest_create -md sha256 -in data -outform DER -out digest.der")
    said = room.says("cms -cmsout -print -inform DER -in digest.der")
    yield "digest.der", {
        "type": [[room.ours(found(r"contentType: \S+ \((.*)\)", said)[0])]],
        "digest": [[room.ours(found(r"digestAlgorithm: \n\s+algorithm: \S+ \((.*)\)", said)[0])]],
        "digest value": [[octets_in(said, "digest:")]],
    }


def sealed_messages(room):
    """Messages of CMS that are encrypted, to each kind of recipient."""
    recipients = {
        "ktri": "-aes-128-cbc {} a.pem", "kari": "-aes-256-cbc {} tsa.pem", "pwri": "-aes-256-cbc -pwri_password x {}",
        "kekri": f"-aes-128-cbc -secretkey {SECRET} -secretkeyid C0FFEE {{}}", "gcm": "-aes-128-gcm {} a.pem",
        "kekgcm": f"-aes-128-gcm -secretkey {SECRET} -secretkeyid C0FFEE {{}}",
    }
    for kind, words in recipients.items():
        room.says(f"cms -encrypt {words.format(f'-in data -outform DER -out {kind}.der')}")
        said = room.says(f"cms -cmsout -print -inform DER -in {kind}.der")
        around, _, content = said.partition("ncryptedContentInfo:")
        wrap = room.ours(found(r"keyEncryptionAlgorithm: \n\s+algorithm: \S+ \((.*)\)", around)[0])
        if "d.kekri" in around:
            lines = ["key " + octets_in(around, "keyIdentifier:"), wrap]
        elif "d.pwri" in around:
            lines = ["password", room.ours(found(r"keyDerivationAlgorithm: \n\s+algorithm: \S+ \((.*)\)", around)[0]),
                     str(int(found(r"INTEGER +:(\w+)", around)[0], 16)) + " iterations", wrap]
        elif "d.kari" in around:
            lines = [wrap, *certified(around, "recipientEncryptedKeys:")]
        else:
            lines = [*certified(around, "issuerAndSerialNumber:"), wrap]
        yield f"{kind}.der", {
            "type": [[room.ours(found(r"contentType: \S+ \((.*)\)", said)[0])]],
            "recipient": [lines],
            "encryption": [[room.ours(found(r"contentEncryptionAlgorithm: \n\s+algorithm: \S+ \((.*)\)", content)[0])]],
        }
    room.says(f"cms -EncryptedData_encrypt -secretkey {SECRET} -aes128 -in data -outform DER -out held.der")
    said = room.says("cms -cmsout -print -inform DER -in held.der")
    yield "held.der", {
        "type": [[room.ours(found(r"contentType: \S+ \((.*)\)", said)[0])]],
        "encryption": [[room.ours(found(r"contentEncryptionAlgorithm: \n\s+algorithm: \S+ \((.*)\)", said)[0])]],
    }


def archives(room):
    """Files of PKCS #12: as openssl makes them, as it made them, and without encryption."""
    kinds = {"new": "", "old": "-keypbe PBE-SHA1-3DES -certpbe PBE-SHA1-3DES -macalg SHA1 -iter 3000",
             "open": "-keypbe NONE -certpbe NONE -nomac"}
    for name, words in kinds.items():
        room.says(f"pkcs12 -export -in a.pem -inkey a.key -passout pass:x -name me {words} -out {name}.p12")
        said = room.says(f"pkcs12 -info -noout -passin pass:x -in {name}.p12")
        lines = {"bag": [], "encrypted": []}
        is_open = True
        for line in said.splitlines():
            word, _, rest = line.partition(": ")
            names, _, rounds = rest.partition(", Iteration ")
            cipher = [room.ours(name) for name in names.split(", ") if rounds]
            cipher[2:2] = [number + " iterations" for number in found(r"^\d+", rounds)]
            if word == "MAC":
                lines["integrity"] = [cipher]
            elif word == "PKCS7 Encrypted data":
                is_open = False
                lines["encrypted"].append(cipher)
            elif word == "PKCS7 Data":
                is_open = True
            elif word == "Shrouded Keybag":
                lines["bag"].append([room.ours("pkcs8ShroudedKeyBag"), *cipher, "me"])
            elif word in ("Certificate bag", "Key bag") and is_open:
                lines["bag"].append([{"Certificate bag": "certBag", "Key bag": "keyBag"}[word], "me"])
        yield f"{name}.p12", {label: texts for label, texts in lines.items() if texts}


def statuses(room):
    """Requests and responses of OCSP, also a refusal."""
    room.says("ocsp -issuer ca.pem -cert a.pem -serial 0x1235 -serial 0x99 -reqout a.ocsp")
    said = room.says("ocsp -reqin a.ocsp -req_text")
    yield "a.ocsp", {"certificate": [["key of its issuer " + key, "serial " + serial] for key, serial in found(
        r"Issuer Key Hash: (\S+)\n +Serial Number: (\S+)", said)]}
    room.says("ocsp -index index.txt -CA ca.pem -rsigner ca.pem -rkey ca.key -reqin a.ocsp -respout b.ocsp -ndays 3")
    said = room.says("ocsp -respin b.ocsp -text -noverify")
    said = said.partition("\nCertificate:")[0]
    certificates = []
    for text in re.split(r"^ +Certificate ID:", said, flags=re.M)[1:]:
        certificates.append([
            "serial " + found(r"Serial Number: (\S+)", text)[0], found(r"Cert Status: (\S+)", text)[0],
            *map(moment, found(r"Revocation Time: (.*)$", text)), *found(r"Revocation Reason: (\S+)", text),
            "this update " + moment(found(r"This Update: (.*)$", text)[0]),
            "next update " + moment(found(r"Next Update: (.*)$", text)[0])])
    yield "b.ocsp", {
        "status": [found(r"Response Status: (\S+)", said)],
        "responder": [[found(r"Responder Id: (.*)$", said)[0].replace(" = ", "=")]],
        "produced": [[moment(found(r"Produced At: (.*)$", said)[0])]],
        "certificate": certificates,
        "signature": [[room.ours(found(r"Signature Algorithm: (\S+)", said)[0])]],
    }
    said = room.says("ocsp -respin refused.ocsp -text", 1)
    yield "refused.ocsp", {"status": [found(r"Responder Error: (\S+)", said)]}


def time_stamps(room):
    """Requests and responses of time stamps, also a rejection."""
    for name, words in ("good", ""), ("bad", "-tspolicy 1.2.3.9"):
        room.says(f"ts -query -data data -sha256 -out {name}.tsq {words} -cert")
        said = room.says(f"ts -query -in {name}.tsq -text")
        imprint = [[room.ours(found(r"Hash Algorithm: (\S+)", said)[0]), octets_in(said, "Message data:")]]
        policy = [[name] for name in found(r"Policy OID: ([\d.]+)$", said)]
        nonce = [found(r"Nonce: 0x(\S+)", said)]
        yield f"{name}.tsq", {"imprint": imprint, "nonce": nonce} | ({"policy": policy} if policy else {})
        room.says(f"ts -reply -config o.cnf -queryfile {name}.tsq -out {name}.tsr")
        said = room.says(f"ts -reply -text -in {name}.tsr")
        if name == "bad":
            reasons = {"status": [["rejection"]] if "Status: Rejected." in said else [],
                       "reason": [found(r"Status description: (.*)$", said)],
                       "failure": [[FAILURES[text] for text in found(r"Failure info: (.*)$", said)]]}
            yield "bad.tsr", reasons
            continue
        yield "good.tsr", {
            "status": [[found(r"^Status: (\w+)", said)[0].lower()]],
            "time": [[moment(found(r"Time stamp: (.*)$", said)[0])]],
            "imprint": [[room.ours(found(r"Hash Algorithm: (\S+)", said)[0]), octets_in(said, "Message data:")]],
            "policy": [found(r"Policy OID: (\S+)", said)],
            "serial number": [found(r"Serial number: 0x(\w+)", said)],
            "nonce": [found(r"Nonce: 0x(\S+)", said)],
            "signer": [["CN=TSA", "serial 77", "sha256", "ecdsa-with-SHA256"]],
        }


def documents(room):
    """All documents, each with its lines."""
    make(room)
    for kind in (certificates, requests, lists, keys, encrypted_keys, signed_messages, sealed_messages, archives,
                 statuses, time_stamps):
        yield from kind(room)
