"""Tests of simple_asn1: python3 -m unittest, in this folder."""
import array
import base64
import concurrent.futures
import copy
import ctypes
import datetime
import pickle
import random
import re
import shutil
import subprocess
import tempfile
import tracemalloc
import unittest
import unittest.mock

import simple_asn1
from simple_asn1 import Builder, Moment, NoSuchValue, Paths, PemObject, Refused, Rule, Status

DOCUMENT = bytes.fromhex("30 09 02 01 05 A0 04 0C 02 C3 A4 05 00")

# a certificate that the package `cryptography` made; the offsets in the test are those of `openssl asn1parse`
CERTIFICATE = bytes.fromhex(
    "308201063081B9A00302010202021234300506032B65703019310B3009060355040613024348310A300806035504030C01653020170D"
    "3236303130323033303430355A180F32303536303130323033303430355A3019310B3009060355040613024348310A30080603550403"
    "0C0165302A300506032B657003210003A107BFF3CE10BE1D70DD18E74BC09967E4D6309BA50D5F1DDC8664125531B8A3233021300F06"
    "03551D130101FF040530030101FF300E0603551D11040730058203652E78300506032B6570034100CA8392A0AEF788963C2BA366CED2"
    "C8C180AA9F07C398DA3637C96D8A7A38414962269433865B558217208F1209C497D96049D9286FB99621F1D5561171F18B01"
)

# a certification request and a list of revoked certificates, made and looked at in the same way
REQUEST = bytes.fromhex(
    "3081D230818502010030143112301006035504030C09612E6578616D706C65302A300506032B657003210003A107BFF3CE10BE1D70DD18"
    "E74BC09967E4D6309BA50D5F1DDC8664125531B8A03E301506092A864886F70D01090731080C06736563726574302506092A864886F70D"
    "01090E3118301630140603551D11040D300B8209622E6578616D706C65300506032B65700341001808C93FC63D0231951D7C0DF2E0A43A"
    "CFA31C593F802FEB01E08B5933DA122650973B01FEAF321130CCD10089F75162878A261C46E0C8450F93CB6AE2995A03"
)
LIST = bytes.fromhex(
    "3081E0308193020101300506032B657030143112301006035504030C09612E6578616D706C65170D3236303130323033303430355A180F"
    "32303536303130323033303430355A3041301302021234170D3236303130313033303430355A302A020B0099887766554433221100170D"
    "3236303130323033303430355A300C300A0603551D1504030A0101A00E300C300A0603551D140403020107300506032B6570034100A136"
    "F1292179B61B7EADCB9DA4E151A17ECF6686444959943EA107D2FA5BF66CB6CA6E55CDE0DCAD62466135C4E105433CBBCE860C68113778"
    "CF57D2B80E070F"
)


def only(octets):
    return simple_asn1.read(bytes.fromhex(octets)).blocks[0]


class Reading(unittest.TestCase):
    def test_blocks_are_walked_over_in_order(self):
        document = simple_asn1.read(DOCUMENT)
        self.assertEqual([block.tag for block in document.blocks], [16, 5])
        number, tagged = document.blocks[0].items
        self.assertEqual(number.integer, 5)
        self.assertEqual((tagged.tag_class, tagged.tag, tagged.record.depth), (2, 0, 1))
        self.assertEqual(tagged.items[0].text, "ä")
        self.assertEqual(tagged.octets, DOCUMENT[5:11])
        self.assertEqual([block.offset for block in document.all_blocks], [0, 2, 5, 7, 11])

    def refused(self, call, *arguments):
        with self.assertRaises(Refused) as why:
            call(*arguments)
        return why.exception.status, why.exception.offset

    def test_faults_say_what_and_where(self):
        cut = bytes.fromhex("30 04 02 01 05 01")
        self.assertEqual(self.refused(simple_asn1.read, cut), (Status.INCOMPLETE, 5))
        self.assertEqual(self.refused(simple_asn1.read, b""), (Status.EMPTY, 0))
        self.assertEqual(self.refused(simple_asn1.read_strict, b"\x05\x00\x01\x01\x2a"), (Status.NOT_CANONICAL, 2))
        self.assertEqual(self.refused(lambda: only("05 00").text), (Status.NO_SUCH_VALUE, 0))
        self.assertEqual(self.refused(simple_asn1.Signed, DOCUMENT)[0], Status.NOT_SIGNED)

    def test_an_outline_is_walked_past_a_leaf_at_fault(self):
        octets = bytes.fromhex("30 07 1E 02 00 E4 02 01 05")
        self.assertEqual(self.refused(simple_asn1.read, octets), (Status.UTF8, 2))
        document = pickle.loads(pickle.dumps(simple_asn1.outline(octets)))
        text, number = document[0]
        self.assertEqual((text.tag, text.contents, number.integer), (30, b"\x00\xe4", 5))
        self.assertEqual(self.refused(lambda: text.text), (Status.UTF8, 2))
        self.assertEqual(self.refused(simple_asn1.outline, bytes.fromhex("30 04 02 01 05 01")), (Status.INCOMPLETE, 5))

    def test_views_of_a_block_copy_nothing(self):
        # X.690, 8.1.1: what is inside a SEQUENCE stands in its contents octets
        octets = bytes.fromhex("30 06 04 02 AB CD 05 00")
        block = simple_asn1.read(octets)[0]
        string, null = block
        self.assertEqual((block.octets_view, block.contents_view), (octets, octets[2:]))
        self.assertEqual((string.octets_view, string.contents_view), (b"\x04\2\xab\xcd", b"\xab\xcd"))
        self.assertEqual((bytes(null.octets_view), bytes(null.contents_view)), (b"\5\0", b""))
        self.assertIs(string.contents_view.obj, octets)
        self.assertTrue(string.octets_view.readonly)
        self.assertEqual(string.contents_view.tobytes(), string.contents)

    def test_paths_lead_to_blocks_and_nowhere(self):
        octets = bytes.fromhex("30 18 02 02 FF 7F 1E 02 00 E4 A0 03 0C 01 41 02 09 01 00 00 00 00 00 00 00 00 06 01 2A")
        paths = Paths((0, 0), (0, 1), (0, 2, 0), (0, 3), (1,), (2,), (1, 0), (0, 2**64 - 1), ())
        paths = pickle.loads(pickle.dumps(paths))
        number, text, inside, wide, oid, *nowhere = paths.values(octets)
        self.assertEqual((number.integer, wide.integer, inside.text, oid.oid), (-129, 2**64, "A", "1.2"))
        self.assertEqual((text.tag, text.contents, text.offset, inside.octets), (30, b"\0\xe4", 6, b"\x0c\1A"))
        self.assertEqual(self.refused(lambda: text.text), (Status.UTF8, 6))
        self.assertEqual(self.refused(lambda: text.integer), (Status.NO_SUCH_VALUE, 6))
        self.assertEqual(nowhere, [None] * 4)
        self.assertEqual(self.refused(paths.values, octets[:-1]), (Status.INCOMPLETE, 26))
        self.assertEqual(Paths().values(octets), [])
        self.assertEqual(len(Paths(*[(0, 0)] * 5000).values(octets)), 5000)
        for number in (-1, 2**64):
            self.assertRaises(ValueError, Paths, (0, number))

    def test_departures_say_which_rule_is_broken_where(self):
        octets = bytes.fromhex("30 81 03 01 01 2A 31 06 04 01 41 02 01 05 30 02 05 01 05 00")
        found = simple_asn1.departures(octets)
        rules = [Rule.LONG_LENGTH, Rule.BOOLEAN_VALUE, Rule.ORDER, Rule.NOT_ENCODINGS]
        self.assertEqual([(departure.offset, departure.rule) for departure in found], list(zip((0, 3, 6, 14), rules)))
        self.assertEqual(found[1].rule.name, "BOOLEAN_VALUE")
        self.assertEqual((found[1].section, found[1].text), ("8.2.2, 11.1", "BOOLEAN neither 00 nor FF"))
        self.assertEqual(str(found[2]), "SET out of order (10.3, 11.6), at 6")
        self.assertEqual(pickle.loads(pickle.dumps(found)), found)
        self.assertEqual(simple_asn1.departures(DOCUMENT), [])
        many = b"\1\1\x2a" * 5000
        self.assertEqual([departure.offset for departure in simple_asn1.departures(many)], list(range(0, 15000, 3)))
        self.assertEqual(self.refused(simple_asn1.departures, many[:-1]), (Status.INCOMPLETE, 14997))
        self.assertEqual(self.refused(simple_asn1.departures, b""), (Status.EMPTY, 0))

    def test_text_in_decimal_has_a_bound(self):
        # 1,024 contents octets, and one more: 2.5, and components of an octet each
        most, more = (bytes([6, 0x82, 4, size, 0x55]) + bytes(1023 + size) for size in (0, 1))
        found = simple_asn1.read(most + more)
        self.assertEqual(found[0].oid, "2.5" + ".0" * 1023)
        self.assertEqual(self.refused(lambda: found[1].oid), (Status.TOO_LONG, len(most)))
        self.assertEqual(found[1].contents, more[4:])
        self.assertEqual(Builder().add_oid(found[0].oid).finish(), most)
        self.assertEqual(self.refused(Builder().add_oid, "2.5" + ".0" * 2048), (Status.TOO_LONG, 0))
        signed = bytes.fromhex("30 82 04 12 30 03 02 01 01 30 82 04 05") + more + bytes.fromhex("03 02 00 99")
        self.assertEqual(self.refused(simple_asn1.Signed, signed), (Status.TOO_LONG, 13))

    def test_an_outline_has_no_bits_where_more_are_unused_than_there_are(self):
        # X.690 8.6.2.2: from 0 to 7 bits are unused. Here 7 of none, 9 of 8, and 255 of 16 are
        for octets in ("03 01 07", "03 02 09 00", "03 03 FF 01 02"):
            block = simple_asn1.outline(bytes.fromhex(octets))[0]
            self.assertEqual(self.refused(lambda: block.bits), (Status.BIT_STRING_LENGTH, 0))
        null, unused, empty = simple_asn1.outline(bytes.fromhex("05 00 03 02 08 FF 03 00"))
        self.assertEqual(self.refused(lambda: null.bits), (Status.NO_SUCH_VALUE, 0))
        self.assertEqual((unused.bits, empty.bits), ((b"\xff", 0), (b"", 0)))

    @unittest.skipUnless(shutil.which("openssl"), "there is no openssl")
    def test_the_outline_of_a_certificate_with_an_odd_name_is_that_of_openssl(self):
        config = "[req]\ndistinguished_name=dn\nstring_mask=MASK:0x0800\nprompt=no\nutf8=yes\n[dn]\nCN=ä\n"
        make = "openssl req -x509 -newkey ec -pkeyopt ec_paramgen_curve:P-256 -nodes -keyout k"
        written = "-utf8 -config c -outform DER"
        with tempfile.TemporaryDirectory() as folder:
            with open(f"{folder}/c", "w", encoding="utf-8") as file:
                file.write(config)
            made = subprocess.run([*make.split(), *written.split()], cwd=folder, check=True, capture_output=True)
            octets = made.stdout
        command = ["openssl", "asn1parse", "-inform", "DER"]
        listed = subprocess.run(command, input=octets, check=True, capture_output=True)
        rows = re.findall(rb"^ *(\d+):d=(\d+) +hl=(\d+) +l= *(\d+)", listed.stdout, re.M)
        self.assertEqual(self.refused(simple_asn1.read, octets)[0], Status.UTF8)
        records = [block.record for block in simple_asn1.outline(octets).all_blocks]
        found = [(record.offset, record.depth, record.header, record.contents) for record in records]
        self.assertEqual(found, [tuple(map(int, row)) for row in rows])

    def test_values_are_those_of_their_blocks(self):
        self.assertEqual(only("03 02 04 B0").bits, (b"\xb0", 4))
        self.assertEqual(only("03 00").bits, (b"", 0))
        self.assertEqual(only("02 09 01 00 00 00 00 00 00 00 00").integer, 2**64)
        self.assertEqual(only("02 01 FF").integer, -1)
        self.assertEqual(only("06 06 2A 86 48 86 F7 0D").oid, "1.2.840.113549")
        self.assertEqual((only("0C 00").text, only("16 01 E9").text), ("", "é"))
        time = simple_asn1.read(b"\x18\x1320261123070322.125Z").blocks[0].moment
        self.assertEqual(str(time), "2026-11-23T07:03:22.125000000Z")

    def test_a_check_names_the_first_fault(self):
        self.assertIsNone(simple_asn1.check(bytes.fromhex("30 03 01 01 FF")))
        with self.assertRaises(simple_asn1.Refused) as refused:
            simple_asn1.check(bytes.fromhex("30 05 05 00 01 02 FF"))
        self.assertEqual((refused.exception.status, refused.exception.offset), (simple_asn1.Status.INCOMPLETE, 4))

    def test_what_is_read_is_written(self):
        loose, canonical = bytes.fromhex("30 81 03 01 01 2A"), bytes.fromhex("30 03 01 01 FF")
        self.assertEqual(simple_asn1.rewrite(loose), canonical)
        records = simple_asn1.read(loose).records
        self.assertEqual(simple_asn1.write(loose, records), canonical)
        records[0] = records[0]._replace(items=2)
        self.assertEqual(self.refused(simple_asn1.write, loose, records), (Status.BAD_RECORD, 0))
        records[1] = records[1]._replace(tag_class=4)
        self.assertEqual(self.refused(simple_asn1.write, loose, records), (Status.BAD_RECORD, 1))

    def test_signed_parts_are_octets_of_the_document(self):
        triple = bytes.fromhex("30 0E 30 03 02 01 01 30 03 06 01 2A 03 02 00 99")
        signed = simple_asn1.Signed(triple)
        self.assertEqual((signed.content, signed.algorithm, signed.signature), (triple[2:7], "1.2", b"\x99"))
        self.assertEqual((signed.algorithm_identifier, signed.parameters), (triple[7:12], b""))
        self.assertEqual(signed.unused_bits, 0)
        self.assertEqual(signed, simple_asn1.Signed(bytearray(triple)))

    def test_parameters_and_unused_bits_of_signed_parts_are_kept(self):
        triple = bytes.fromhex("30 11 30 00 30 08 06 01 2A 30 03 02 01 20 03 03 03 AB C8")
        signed = simple_asn1.Signed(triple)
        self.assertEqual(signed.parameters, bytes.fromhex("30 03 02 01 20"))
        self.assertEqual(signed.algorithm_identifier, bytes.fromhex("30 08 06 01 2A 30 03 02 01 20"))
        self.assertEqual((signed.signature, signed.unused_bits), (b"\xab\xc8", 3))

    def test_a_certificate_has_its_fields(self):
        certificate = simple_asn1.Certificate(CERTIFICATE)
        self.assertEqual(certificate.octets, CERTIFICATE)
        self.assertEqual(certificate.tbs_certificate, CERTIFICATE[4:192])
        self.assertEqual((certificate.version, certificate.serial_number), (2, 0x1234))
        self.assertEqual(certificate.tbs_signature, CERTIFICATE[16:23])
        self.assertEqual((certificate.issuer, certificate.subject), (CERTIFICATE[23:50], CERTIFICATE[84:111]))
        self.assertEqual(str(certificate.not_before), "2026-01-02 03:04:05+00:00")
        self.assertEqual(str(certificate.not_after), "2056-01-02 03:04:05+00:00")
        self.assertEqual([str(moment) for moment in certificate.validity],
                         ["2026-01-02T03:04:05Z", "2056-01-02T03:04:05Z"])
        self.assertEqual(certificate.subject_public_key_info, CERTIFICATE[111:155])
        self.assertEqual(certificate.public_key_algorithm, "1.3.101.112")
        self.assertEqual(certificate.public_key_algorithm_identifier, CERTIFICATE[113:120])
        self.assertEqual(certificate.subject_public_key, (CERTIFICATE[123:155], 256))
        self.assertEqual((certificate.issuer_unique_id, certificate.subject_unique_id), (None, None))
        self.assertEqual(
            certificate.extensions,
            [("2.5.29.19", True, bytes.fromhex("30 03 01 01 FF")),
             ("2.5.29.17", False, bytes.fromhex("30 05 82 03 65 2E 78"))])
        self.assertEqual(certificate.signature_algorithm, "1.3.101.112")
        self.assertEqual(certificate.signature_algorithm_identifier, CERTIFICATE[192:199])
        self.assertEqual(certificate.signature, (CERTIFICATE[202:266], 512))
        self.assertEqual(certificate, simple_asn1.Certificate(CERTIFICATE + b"\x05\x00"))
        self.assertEqual(repr(certificate), "<Certificate of 266 bytes: serial number 4660>")

    def test_another_document_is_no_certificate(self):
        refused = self.refused(simple_asn1.Certificate, bytes.fromhex("30 03 02 01 05"))
        self.assertEqual(refused, (Status.NOT_CERTIFICATE, 0))
        self.assertEqual(self.refused(simple_asn1.Certificate, CERTIFICATE[:-1]), (Status.INCOMPLETE, 0))

    def test_a_request_has_its_fields(self):
        request = simple_asn1.CertificationRequest(REQUEST)
        self.assertEqual(request.octets, REQUEST)
        self.assertEqual(request.certification_request_info, REQUEST[3:139])
        self.assertEqual((request.version, request.subject), (0, REQUEST[9:31]))
        self.assertEqual(request.subject_public_key_info, REQUEST[31:75])
        self.assertEqual(request.public_key_algorithm, "1.3.101.112")
        self.assertEqual(request.public_key_algorithm_identifier, REQUEST[33:40])
        self.assertEqual(request.subject_public_key, (REQUEST[43:75], 256))
        self.assertEqual(
            request.attributes,
            [("1.2.840.113549.1.9.7", [REQUEST[92:100]]), ("1.2.840.113549.1.9.14", [REQUEST[115:139]])])
        self.assertEqual(request.extensions, [("2.5.29.17", False, b"0\x0b\x82\x09b.example")])
        self.assertEqual(request.signature_algorithm, "1.3.101.112")
        self.assertEqual(request.signature_algorithm_identifier, REQUEST[139:146])
        self.assertEqual(request.signature, (REQUEST[149:], 512))
        self.assertEqual(request, simple_asn1.CertificationRequest(REQUEST + b"\x05\x00"))
        self.assertNotEqual(request, simple_asn1.Certificate(CERTIFICATE))
        self.assertEqual(repr(request), "<CertificationRequest of 213 bytes>")

    def test_a_request_may_have_no_attributes_or_odd_ones(self):
        def request(attributes):
            tagged = b"\xa0" + bytes([len(attributes)]) + attributes
            info = b"\x30" + bytes([69 + len(tagged)]) + REQUEST[6:75] + tagged
            signed = info + REQUEST[139:]
            return simple_asn1.CertificationRequest(b"\x30\x81" + bytes([len(signed)]) + signed)

        self.assertEqual((request(b"").attributes, request(b"").extensions), ([], []))
        for value in "05 00", "30 02 05 00", "30 06 30 04 05 00 05 00":
            value = bytes.fromhex(value)
            values = b"\x31" + bytes([len(value)]) + value
            odd = request(b"\x30" + bytes([11 + len(values)]) + REQUEST[102:113] + values)
            self.assertEqual(odd.attributes, [("1.2.840.113549.1.9.14", [value])])
            with self.assertRaises(NoSuchValue):
                odd.extensions  # noqa: B018

    def test_a_list_has_its_fields(self):
        issued = simple_asn1.RevocationList(LIST)
        self.assertEqual(issued.octets, LIST)
        self.assertEqual((issued.tbs_cert_list, issued.tbs_signature), (LIST[3:153], LIST[9:16]))
        self.assertEqual((issued.version, issued.issuer), (1, LIST[16:38]))
        self.assertEqual(str(issued.this_update), "2026-01-02 03:04:05+00:00")
        self.assertEqual(str(issued.next_update), "2056-01-02 03:04:05+00:00")
        self.assertEqual([str(moment) for moment in issued.updates], ["2026-01-02T03:04:05Z", "2056-01-02T03:04:05Z"])
        self.assertEqual(issued.extensions, [("2.5.29.20", False, b"\x02\x01\x07")])
        self.assertEqual(issued.signature_algorithm, "1.3.101.112")
        self.assertEqual(issued.signature_algorithm_identifier, LIST[153:160])
        self.assertEqual(issued.signature, (LIST[163:], 512))
        first, second = issued.revoked_certificates
        self.assertEqual((first.serial_number, first.extensions), (0x1234, []))
        self.assertEqual(str(first.revocation_date), "2026-01-01 03:04:05+00:00")
        self.assertEqual((second.serial_number, str(second.moment)), (0x99887766554433221100, "2026-01-02T03:04:05Z"))
        self.assertEqual(second.extensions, [("2.5.29.21", False, b"\x0a\x01\x01")])
        self.assertEqual(repr(first), "<RevokedCertificate: serial number 4660>")
        self.assertEqual(repr(issued), "<RevocationList of 227 bytes: 2 revoked certificates>")

    def test_another_document_is_no_request_or_list(self):
        self.assertEqual(self.refused(simple_asn1.CertificationRequest, LIST), (Status.NOT_REQUEST, 0))
        self.assertEqual(self.refused(simple_asn1.RevocationList, REQUEST), (Status.NOT_REVOCATION_LIST, 0))
        self.assertEqual(self.refused(simple_asn1.CertificationRequest, REQUEST[:-1]), (Status.INCOMPLETE, 0))
        self.assertEqual(self.refused(simple_asn1.RevocationList, LIST[:-1]), (Status.INCOMPLETE, 0))


class Numbered:
    """An object that is taken for a number where a list is asked for an item."""

    def __init__(self, number):
        self.number = number

    def __index__(self):
        return int(self.number)


class LiesOfItsLength:
    """An object whose `len` is not that of its octets."""

    def __init__(self, octets, length):
        self.octets, self.length = octets, length

    def __bytes__(self):
        return self.octets

    def __len__(self):
        return self.length


class LyingBytes(bytes):
    def __len__(self):
        return 66


class Octets(unittest.TestCase):
    CALLS = (
        simple_asn1.read,
        simple_asn1.read_strict,
        simple_asn1.check,
        simple_asn1.rewrite,
        simple_asn1.Signed,
        lambda octets: simple_asn1.write(octets, [simple_asn1.Record(4, 0, 2, 64, 0, 1, 0, 0, 0)]),
    )

    def test_no_octet_behind_those_given_is_read(self):
        cut = bytes.fromhex("04 40")
        lying = [LiesOfItsLength(cut, length) for length in (0, 66, 0x40000006)]
        for source in (*lying, LiesOfItsLength(LyingBytes(cut), 66), LyingBytes(cut)):
            for call in self.CALLS:
                with self.assertRaises(Refused) as why:
                    call(source)
                self.assertIn(why.exception.status, (Status.INCOMPLETE, Status.BAD_RECORD))

    def test_all_octets_of_wide_elements_are_read(self):
        document = bytes.fromhex("04 06 01 02 03 04 05 06")
        wide = array.array("H", document)
        for source in (wide, memoryview(wide), memoryview(document), bytearray(document), list(document)):
            self.assertEqual(simple_asn1.rewrite(source), document)
            self.assertEqual(simple_asn1.read(source).octets, document)

    def test_a_number_and_text_are_no_octets(self):
        for source in (4, True, "30 00", None):
            for call in self.CALLS:
                with self.assertRaises(TypeError):
                    call(source)

    def test_memory_goes_with_the_blocks_and_not_with_the_octets(self):
        octets = bytes.fromhex("04 84 00 80 00 00") + bytes(0x800000)
        tracemalloc.start()
        document = simple_asn1.read(octets)
        held, most = tracemalloc.get_traced_memory()
        tracemalloc.stop()
        self.assertLess(most, 1_000_000)
        self.assertEqual(len(document.all_blocks), 1)

    def test_more_blocks_than_are_tried_first_are_read(self):
        document = simple_asn1.read(b"\x05\x00" * 3000)
        self.assertEqual((len(document), len(document.all_blocks)), (3000, 3000))
        self.assertEqual(simple_asn1.write(document.octets, document.records), document.octets)


class Objects(unittest.TestCase):
    def test_an_error_crosses_to_other_processes(self):
        for octets, kind in (("30 04 02 01", Refused), ("05 00", NoSuchValue)):
            with self.assertRaises(kind) as why:
                only(octets).text
            for other in (pickle.loads(pickle.dumps(why.exception)), copy.copy(why.exception)):
                self.assertIs(type(other), kind)
                self.assertEqual((other.status, other.offset), (why.exception.status, why.exception.offset))
                self.assertEqual(str(other), str(why.exception))

    def test_a_status_of_a_later_library_is_its_number(self):
        answer = simple_asn1._calls.Outcome(99, 3, 0)
        with unittest.mock.patch.object(simple_asn1._calls._LIBRARY, "simple_asn1_check", lambda *_: answer):
            with self.assertRaises(Refused) as why:
                simple_asn1.check(DOCUMENT)
        for error in (why.exception, pickle.loads(pickle.dumps(why.exception))):
            self.assertEqual((error.status, error.status.name, error.offset), (99, "UNKNOWN_99", 3))
            self.assertEqual(str(error), "unknown status 99, at 3")
            self.assertEqual(error.status, Status(99))
        for number in (-1, "99"):
            self.assertRaises(ValueError, Status, number)

    def test_a_rule_of_a_later_library_is_its_number(self):
        with unittest.mock.patch.object(simple_asn1._calls, "departures", lambda _: [(3, 99)]):
            found = simple_asn1.departures(DOCUMENT)
        self.assertEqual(pickle.loads(pickle.dumps(found)), found)
        self.assertEqual(found, [(3, 99, "", "unknown rule 99")])
        self.assertEqual((found[0].rule.name, found[0].rule.value), ("UNKNOWN_99", 99))
        self.assertEqual(str(found[0]), "unknown rule 99, at 3")
        for number in (-1, "99"):
            self.assertRaises(ValueError, Rule, number)

    def test_a_block_crosses_to_other_processes_with_its_document(self):
        block = pickle.loads(pickle.dumps(simple_asn1.read(DOCUMENT)[0]))
        self.assertEqual((block.document.octets, block[1][0].text), (DOCUMENT, "ä"))
        triple = bytes.fromhex("30 0E 30 03 02 01 01 30 03 06 01 2A 03 02 00 99")
        signed = simple_asn1.Signed(triple)
        self.assertEqual(pickle.loads(pickle.dumps(signed)), signed)

    def test_records_do_not_change(self):
        document = simple_asn1.read(DOCUMENT)
        with self.assertRaises(AttributeError):
            document.records[0].next = 0
        document.records.clear()
        self.assertEqual([block.tag for block in document.blocks], [16, 5])

    def test_numbers_that_do_not_fit_a_record_are_refused(self):
        record = simple_asn1.read(DOCUMENT).records[-1]
        for wrong in ({"items": -1}, {"offset": 2**64}, {"tag_class": 256}):
            with self.assertRaises(Refused) as why:
                simple_asn1.write(DOCUMENT, [record, record._replace(**wrong)])
            self.assertEqual((why.exception.status, why.exception.offset), (Status.BAD_RECORD, 1))

    def test_equal_moments_are_equal(self):
        first, second = (only("17 0D 32 36 31 31 32 33 30 37 30 33 32 32 5A").moment for _ in range(2))
        self.assertEqual(first, second)
        self.assertEqual(first, Moment(2026, 11, 23, 7, 3, 22, 0))
        self.assertEqual(len({first, second}), 1)
        self.assertLess(first, first._replace(nanosecond=1))

    def test_a_moment_is_a_datetime(self):
        block = simple_asn1.read(b"\x18\x1320261123070322.125Z").blocks[0]
        wanted = datetime.datetime(2026, 11, 23, 7, 3, 22, 125000, datetime.timezone.utc)
        self.assertEqual(block.datetime, wanted)
        with self.assertRaises(ValueError):
            simple_asn1.read(b"\x18\x0f00000101000000Z").blocks[0].datetime

    def test_a_value_of_another_kind_is_no_attribute(self):
        for name in ("text", "integer", "moment", "datetime", "oid", "bits"):
            self.assertIsNone(getattr(only("05 00"), name, None))
            self.assertFalse(hasattr(only("05 00"), name))

    def test_an_integer_of_any_size_is_an_int(self):
        for number in (0, 127, -128, 2**64, -(2**8000), 10**3000):
            size = number.bit_length() // 8 + 1
            octets = b"\x02\x82" + size.to_bytes(2, "big") + number.to_bytes(size, "big", signed=True)
            self.assertEqual(simple_asn1.read(octets)[0].integer, number)
        self.assertEqual(only("02 00").integer, 0)

    def test_blocks_are_gone_over(self):
        document = simple_asn1.read(DOCUMENT)
        self.assertEqual((len(document), len(document[0]), len(document[1])), (2, 2, 0))
        self.assertEqual([block.tag for block in document], [16, 5])
        self.assertEqual([item.tag for item in document[0]], [2, 0])
        self.assertEqual(document[0][-1][0].text, "ä")
        self.assertTrue(document[1])
        with self.assertRaises(IndexError):
            document[2]

    def test_items_are_taken_by_their_number_as_of_a_list(self):
        item = bytes.fromhex("30 03 02 01 05")
        document = simple_asn1.read((b"\x30\x81\x96" + item * 30) * 12)
        for blocks, listed in ((document, document.blocks), (document[3], document[3].items)):
            count = len(listed)
            self.assertEqual(len(blocks), count)
            for number in (*range(-count, count), True):
                self.assertEqual(blocks[number], listed[number])
                self.assertEqual(blocks[Numbered(number)], listed[number])
            for cut in (slice(2, 5), slice(None, None, -3), slice(-4, None), slice(40, 50)):
                self.assertEqual(blocks[cut], listed[cut])
            for number in (count, count + 1, -count - 1):
                with self.assertRaises(IndexError):
                    blocks[number]
            for number in ("0", None, 0.0, 1.0, 10.0, -1.0):
                with self.assertRaises(TypeError):
                    blocks[number]
        with self.assertRaises(IndexError):
            document[0][0][0][0]

    def test_calls_at_once_do_not_share_memory(self):
        texts = ["ä" * size for size in range(60)]
        octets = Builder()
        with octets.open(0, 16):
            for text in texts:
                octets.add_text(12, text)
        block = simple_asn1.read(octets.finish())[0]
        with concurrent.futures.ThreadPoolExecutor(8) as pool:
            self.assertEqual(list(pool.map(lambda item: item.text, block.items * 20)), texts * 20)

    def test_no_type_is_made_for_a_size(self):
        # ctypes keeps the type of an array for each size
        def types():
            return len(ctypes.Array.__subclasses__())

        before = types()
        for size in (1, 5, 70, 700, 7000):
            document = simple_asn1.read(b"\x05\x00" * size)
            self.assertEqual(simple_asn1.write(document.octets, document.records), document.octets)
            found = Paths(*[(index,) for index in range(size)]).values(document.octets)
            self.assertEqual([value.offset for value in found], [2 * index for index in range(size)])
            self.assertEqual(only(f"04 82 {size:04X} {'78' * size}").contents, b"x" * size)
            self.assertEqual(only(f"0C 82 {size:04X} {'78' * size}").text, "x" * size)
        self.assertEqual(types(), before)

    def test_they_are_shown(self):
        document = simple_asn1.read(DOCUMENT)
        self.assertEqual(repr(document), "<Document of 13 bytes: 2 blocks>")
        self.assertEqual(repr(document[1]), "<NULL at 11>")
        self.assertEqual(repr(document[0]), "<SEQUENCE at 0: 2 items>")
        self.assertEqual(repr(document[0].items), "[<INTEGER at 2: 05>, <[0] at 5: 1 item>]")
        self.assertEqual(repr(only("44 12" + "01" * 18)), f"<[APPLICATION 4] at 0: {'01 ' * 15}01.. of 18 bytes>")


class Grammar(unittest.TestCase):
    """Where what is read is not X.690's, as docs/BINDINGS.md and simple_asn1.h list it."""

    def test_values_that_are_others(self):
        self.assertEqual(only("06 02 88 37").oid, "2.56.55")
        for tag in ("14", "1C", "1E"):
            self.assertEqual(only(tag + "02 C3 A4").text, "ä")
        self.assertEqual([len(block) for block in simple_asn1.read(bytes.fromhex("30 80 00 00"))], [0, 0])
        self.assertEqual(only("24 03 04 01 05").contents, bytes.fromhex("04 01 05"))
        self.assertEqual([len(only("A0 03 02 01 05")), len(only("A0 06 02 01 05 02 01 06"))], [1, 2])
        for tag in ("07", "12", "15", "19", "1A", "1B", "1D"):
            self.assertFalse(hasattr(only(tag + "01 41"), "text"))

    def test_times_that_are_faults(self):
        for text in ("2611230703+0100", "20261123070322,5Z", "261123070360Z", "2611230703Z", "202611230703Z"):
            octets = bytes([24 if text.startswith("2026") else 23, len(text)]) + text.encode()
            with self.assertRaises(Refused) as why:
                simple_asn1.read(octets)
            self.assertEqual(why.exception.status, Status.DATE)

    def test_no_bits_have_another_canonical_form(self):
        no_bits = bytes.fromhex("03 01 00")
        self.assertEqual(simple_asn1.rewrite(no_bits), bytes.fromhex("03 00"))
        with self.assertRaises(Refused) as why:
            simple_asn1.read_strict(no_bits)
        self.assertEqual(why.exception.status, Status.NOT_CANONICAL)

    def test_what_strict_reading_lets_pass(self):
        for octets in (
            "03 02 04 BF", "03 03 0A FF FF", "16 01 E9", "31 06 02 01 02 02 01 01", "30 03 01 01 00", "80 02 02 81",
            "A0 07 02 81 01 05 02 01 06", "0A 00", "09 01 FF", "1A 01 FF",
        ):  # fmt: skip
            self.assertEqual(len(simple_asn1.read_strict(bytes.fromhex(octets))), 1)


class Pem(unittest.TestCase):
    BODY = base64.b64encode(DOCUMENT).decode()
    TEXT = (
        f"of somebody\r\n-----BEGIN CERTIFICATE-----\r\n{BODY}\r\n-----END CERTIFICATE-----\r\n"
        "-----BEGIN X-----\nBQ\nA=\n-----END X-----"
    )

    def test_objects_are_taken_in_order(self):
        for text in (self.TEXT, self.TEXT.encode()):
            self.assertEqual(
                simple_asn1.pem_objects(text), [PemObject("CERTIFICATE", DOCUMENT), PemObject("X", b"\x05\x00")]
            )
            self.assertEqual(simple_asn1.read_pem(text).octets, DOCUMENT)

    def test_a_number_is_no_text(self):
        for text in (10**10, True, None):
            for call in (simple_asn1.pem_objects, simple_asn1.read_pem):
                with self.assertRaises(TypeError):
                    call(text)

    def test_what_is_none_is_refused(self):
        for text in ("", "BQA=", "-----BEGIN X-----\nBQA=", "-----BEGIN X-----\nB?A=\n-----END X-----"):
            with self.assertRaises(ValueError):
                simple_asn1.pem_objects(text)


MOMENT = Moment(2026, 11, 25, 9, 8, 7, 0)


class Building(unittest.TestCase):
    """Documents that are made of values."""

    def test_integers_are_in_the_shortest_twos_complement(self):
        powers = [sign * 2**k + more for k in range(300) for sign in (1, -1) for more in (-1, 0, 1)]
        source = random.Random(1)
        wanted = set(range(-70000, 70000, 7)) | set(powers) | {source.getrandbits(64) - 2**63 for _ in range(5000)}
        for number in wanted:
            least = (number if number >= 0 else ~number).bit_length() // 8 + 1
            contents = number.to_bytes(least, "big", signed=True)
            self.assertEqual(Builder().add_integer(number).finish(), bytes([2, least]) + contents)

    # as `openssl asn1parse -genstr` writes them
    VALUES = (
        ("BOOL:TRUE", lambda b: b.add_boolean(True)),
        ("BOOL:FALSE", lambda b: b.add_boolean(False)),
        ("NULL", lambda b: b.add_null()),
        ("INTEGER:-129", lambda b: b.add_integer(-129)),
        ("INTEGER:0x80", lambda b: b.add_octets(0, 2, bytes.fromhex("000080"))),
        ("INTEGER:0xFFFFFFFFFFFFFFFFFFFFFFFFFF", lambda b: b.add_integer(2**104 - 1)),
        ("ENUM:7", lambda b: b.add_octets(0, 10, [7])),
        ("OID:1.2.840.113549", lambda b: b.add_oid("1.2.840.113549")),
        ("OID:0.39", lambda b: b.add_oid("0.39")),
        ("OID:2.5.4.3", lambda b: b.add_oid("2.5.4.3")),
        ("OID:2.25.340282366920938463463374607431768211455", lambda b: b.add_oid(f"2.25.{2**128 - 1}")),
        ("UTF8:Test", lambda b: b.add_text(12, "Test")),
        ("PRINTABLE:Test A-1", lambda b: b.add_text(19, "Test A-1")),
        ("IA5:a@b", lambda b: b.add_text(22, "a@b")),
        ("UTCTIME:261125090807Z", lambda b: b.add_time(23, MOMENT)),
        ("GENTIME:21261125090807Z", lambda b: b.add_time(24, MOMENT._replace(year=2126))),
        ("FORMAT:HEX,OCT:01FF", lambda b: b.add_octets(0, 4, b"\x01\xff")),
        ("FORMAT:HEX,BITSTR:B080", lambda b: b.add_bits(b"\xb0\x80", 16)),
        ("FORMAT:BITLIST,BITSTR:1,3", lambda b: b.add_bits(b"\x50", 4)),
        ("EXPLICIT:3A,NULL", lambda b: b.open(1, 3).add_null().close()),
        ("IMPLICIT:40P,FORMAT:HEX,OCT:01", lambda b: b.add_octets(3, 40, b"\1")),
    )

    @unittest.skipUnless(shutil.which("openssl"), "there is no openssl")
    def test_values_are_as_openssl_writes_them(self):
        for text, add in self.VALUES:
            with tempfile.NamedTemporaryFile() as file:
                command = ["openssl", "asn1parse", "-genstr", text, "-noout", "-out", file.name]
                subprocess.run(command, check=True, capture_output=True)
                self.assertEqual(add(Builder()).finish().hex(), file.read().hex(), text)

    def test_values_are_read_back(self):
        moment = Moment(9999, 12, 31, 23, 59, 59, 999999999)
        made = Builder().add_time(24, moment).add_text(30, "ä😀").add_oid("2.175.128").add_bits(b"", 0).finish()
        time, text, oid, bits = simple_asn1.read_strict(made)
        self.assertEqual((time.moment, text.text, oid.oid, bits.bits), (moment, "ä😀", "2.175.128", (b"", 0)))

    def test_long_values_are_octets_and_text_as_short_ones_are(self):
        text, components, zeros = "ä" * 100_000, "2.5." + ".".join(["300"] * 511), bytes(100_000)
        made = Builder().add_text(12, text).add_oid(components).add_bits(zeros, 800_000).finish()
        for octets in made, simple_asn1.rewrite(made), simple_asn1.write(made, simple_asn1.read(made).records):
            self.assertEqual((type(octets), octets), (bytes, made))
        texts, oid, bits = simple_asn1.read(made)
        self.assertEqual((texts.text, oid.oid, bits.bits), (text, components, (zeros, 800_000)))

    def test_blocks_are_in_those_that_are_open(self):
        key = only("31 81 06 A1 04 02 02 00 07")
        builder = Builder()
        with builder.open(0, 16):
            builder.add_block(key)
            with builder.open(2, 0):
                pass
        made = builder.add_null().finish()
        self.assertEqual(made.hex(), "30093105a103020107a0000500")
        self.assertEqual([block.depth for block in simple_asn1.read_strict(made).all_blocks], [0, 1, 2, 3, 1, 0])

    REFUSED = (
        (Status.NOT_OID, lambda b: b.add_oid("")),
        (Status.NOT_OID, lambda b: b.add_oid("1.02")),
        (Status.NOT_OID, lambda b: b.add_oid("1.ä")),
        (Status.RANGE, lambda b: b.add_oid("1")),
        (Status.RANGE, lambda b: b.add_oid("3.1")),
        (Status.RANGE, lambda b: b.add_oid("1.40")),
        (Status.RANGE, lambda b: b.add_oid("2.999")),
        (Status.RANGE, lambda b: b.add_bits(b"ab", 8)),
        (Status.RANGE, lambda b: b.add_bits(b"ab", 17)),
        (Status.RANGE, lambda b: b.add_bits(b"ab", 2**64 + 16)),
        (Status.RANGE, lambda b: b.add_bits(b"ab", -1)),
        (Status.PRINTABLE, lambda b: b.add_text(19, "a*")),
        (Status.RANGE, lambda b: b.add_text(22, "é")),
        (Status.NO_SUCH_VALUE, lambda b: b.add_text(4, "a")),
        (Status.NO_SUCH_VALUE, lambda b: b.add_text(2**64 + 12, "a")),
        (Status.NO_SUCH_VALUE, lambda b: b.add_time(-1, MOMENT)),
        (Status.DATE, lambda b: b.add_time(23, MOMENT._replace(year=1949))),
        (Status.DATE, lambda b: b.add_time(23, MOMENT._replace(nanosecond=1))),
        (Status.DATE, lambda b: b.add_time(24, MOMENT._replace(month=2, day=29))),
        (Status.DATE, lambda b: b.add_time(24, MOMENT._replace(year=2**32 + 2026))),
        (Status.DATE, lambda b: b.add_time(24, MOMENT._replace(month=-1))),
        (Status.BAD_RECORD, lambda b: b.close()),
        (Status.BAD_RECORD, lambda b: b.open(0, 16).finish()),
        (Status.BAD_RECORD, lambda b: b.add_octets(0, 2**64 - 1, b"").finish()),
    )

    def test_what_is_no_value_is_refused(self):
        for number, (status, add) in enumerate(self.REFUSED):
            builder = Builder().add_null()
            with self.assertRaises(Refused, msg=number) as why:
                add(builder)
            self.assertEqual((why.exception.status, why.exception.offset), (status, 1), number)
        with self.assertRaises(Refused) as why:
            Builder().finish()
        self.assertEqual(why.exception.status, Status.EMPTY)
        for source in (4, "30 00", None):
            with self.assertRaises(TypeError):
                Builder().add_octets(0, 4, source)

    def test_nothing_is_added_by_what_is_refused(self):
        builder = Builder().add_null()
        with self.assertRaises(Refused):
            builder.add_oid("x")
        self.assertEqual(builder.add_boolean(False).finish(), b"\5\0\1\1\0")


if __name__ == "__main__":
    unittest.main()
