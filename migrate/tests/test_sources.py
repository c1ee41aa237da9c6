"""Sources that can't be read give a clear error and no stack; and thousands of broken ones do."""

import json
import os
import random
import unittest
from typing import Callable, List

from migrate import xml_tree
from migrate.convert import convert
from migrate.dump_stack import read_dump
from migrate.json_stack import read_json
from migrate.old import BadSource
from migrate.tests.helpers import DATA, Folder, bring
from migrate.texts import mac_roman
from migrate.xml_stack import of_roots

LEAST_JSON = {"format": "yarvekko-stack", "version": 1, "backgrounds": [{"id": 1}],
              "cards": [{"id": 2, "background": 1}]}


def data_of(name: str) -> bytes:
    with open(os.path.join(DATA, name), "rb") as file:
        return file.read()


class Refused(Folder):
    """Each error names what is wrong and where."""

    def refused(self, data: bytes, said: str) -> None:
        """Sees that this file is refused with these words, and that no stack is written."""
        status, _, err = bring(self.put("source", data), "-o", self.at("made.stack"))
        self.assertEqual(status, 1)
        self.assertIn(said, err)
        self.assertFalse(os.path.exists(self.at("made.stack")))

    def changed(self, said: str, **change: object) -> None:
        """Sees that the least stack with this change is refused."""
        self.refused(json.dumps(dict(LEAST_JSON, **change)).encode(), said)

    def test_least_stack_is_taken(self) -> None:
        status, _, err = bring(self.put("source", json.dumps(LEAST_JSON).encode()), "-o", self.at("made.stack"))
        self.assertEqual((status, err), (0, ""))
        self.assertIn(b"cards 1\ncard 2 1\n", self.get("made.stack"))

    def test_no_source(self) -> None:
        self.refused(b"hello", "neither XML, nor JSON, nor a text of stacks/export.txt")
        self.refused(b"", "neither XML, nor JSON")
        self.assertEqual(bring(self.at("missing"))[0], 1)

    def test_json(self) -> None:
        self.refused(b"{", "line 1, column 2: no JSON")
        self.refused(b"[]", "isn't an object")
        self.refused(b'{"a": NaN}', "NaN is no value of JSON")
        self.refused(b'{"a": 1, "a": 2}', 'the key "a" stands twice')
        self.refused(b'{"a": "\xff"}', "no UTF-8 at byte 7")
        self.refused(b'{"a": ' + b"[" * 100000, "nests too deep")
        self.changed('"format" isn\'t', format="other")
        self.changed('"version" isn\'t 1', version=2)
        self.changed('"version" isn\'t 1', version=True)
        self.changed('"name" isn\'t a text', name=3)
        self.changed('"cards" isn\'t a list', cards={})
        self.changed("there is no card", cards=[])
        self.changed('number 1 of "cards" isn\'t an object', cards=[1])
        self.changed("card number 1: there is no \"id\"", cards=[{}])
        self.changed("there is no background with the id 5", cards=[{"id": 2, "background": 5}])
        self.changed("two cards have the id 2", cards=[{"id": 2, "background": 1}] * 2)
        self.changed("neither button nor field", cards=[{"id": 2, "background": 1, "parts": [{"id": 1, "kind": "x"}]}])
        part = {"id": 1, "kind": "button"}
        self.changed("two parts have the id 1", cards=[{"id": 2, "background": 1, "parts": [part, part]}])

    def test_xml(self) -> None:
        self.refused(b"<stack>", "no XML")
        self.refused(b"<other/>", "no file has the root")
        self.refused(b"<stack><name>A</name></stack>", "there is no card")
        self.refused(b'<!DOCTYPE a [<!ENTITY x "y">]><stack>&x;</stack>', "an entity is declared (x)")
        self.refused(b'<!DOCTYPE a [<!ENTITY % x SYSTEM "file:///etc/passwd">%x;]><stack/>', "an entity is declared")
        self.refused(b'<!DOCTYPE a PUBLIC "b" ""><stack>&x;</stack>', "the entity &x; isn't known")
        self.refused(b"<stack>" * 50 + b"</stack>" * 50, "nest more than 40 deep")
        self.refused(b'<stack><card id="3"/></stack>', "there is no file for card 3")
        card = b"<stack><background><id>1</id></background><card><id>%b</id><owner>1</owner>%b</card></stack>"
        self.refused(card % (b"x", b""), "<id> isn't a whole number")
        self.refused(card % (b"2", b"<cantDelete>maybe</cantDelete>"), "neither true nor false")
        self.refused(card % (b"2", b"<part><id>1</id></part>"), "neither button nor field")
        self.refused(card % (b"2", b"<content><id>1</id></content>"), "neither card nor background")

    def test_entities_outside_are_never_read(self) -> None:
        bomb = b"<!DOCTYPE a [" + b"".join(b'<!ENTITY e%d "%b">' % (n, b"&e%d;" % (n - 1) * 10) for n in range(1, 9))
        self.refused(bomb + b"]><stack>&e8;</stack>", "an entity is declared")

    def test_dump(self) -> None:
        head = b"yarvekko export 1\rstack\r"
        self.refused(b"yarvekko export 1\r", "ends before the line `end`")
        self.refused(head, "ends before the line `end`")
        self.refused(head + b"end\r", "there is no card")
        self.refused(head + b"name\r|A\rend\r", "line 4: a text ends with a dot")
        self.refused(head + b"field 1\rend\r", "line 3: a field stands before the first background")
        self.refused(head + b"background x\rend\r", "line 3: 'x' isn't a whole number")
        self.refused(head + b"background 1\rcantDelete maybe\rend\r", "line 4: 'maybe' is neither true nor false")
        self.refused(head + b"background 1\rcard 2 1\rend\rmore\r", "line 6: something stands behind `end`")

    def test_stack_that_is_there_stays(self) -> None:
        source, made = self.put("source", json.dumps(LEAST_JSON).encode()), self.put("made.stack", b"mine")
        self.assertEqual(bring(source, "-o", made)[0], 1)
        self.assertEqual(self.get("made.stack"), b"mine")
        self.assertEqual(bring(source, "-o", made, "--force")[0], 0)
        self.assertTrue(self.get("made.stack").startswith(b"htstack 2\n"))

    def test_too_long_and_too_many(self) -> None:
        card = {"id": 2, "background": 1, "script": "x" * 30001}
        self.changed("card id 2: the script has 30001 bytes", cards=[card])
        cards = [{"id": number, "background": 1} for number in range(2, 10002)]
        self.changed("there are 10001 backgrounds, cards, buttons and fields", cards=cards)

    def test_cut(self) -> None:
        source = dict(LEAST_JSON, cards=[{"id": 2, "background": 1, "name": "y" * 30001}])
        status, out, _ = bring(self.put("source", json.dumps(source).encode()), "--cut", "-o", self.at("made.stack"))
        self.assertEqual(status, 0)
        self.assertIn("the name has 30001 bytes, and a text has at most 30000; what is past them is left out", out)
        self.assertIn(b"\nname |" + b"y" * 30000 + b"\n", self.get("made.stack"))


class Texts(unittest.TestCase):
    """Texts become Mac Roman, and nothing is lost unsaid."""

    def test_mac_roman(self) -> None:
        self.assertEqual(mac_roman("Zoë\r\nÅ\n\u00ac"), (b"Zo\x91\r\x81\r\xc2", 0))
        self.assertEqual(mac_roman("e\u0301\u2126"), (b"\x8e\xbd", 0))
        self.assertEqual(mac_roman("日本?"), (b"???", 2))
        self.assertEqual(mac_roman(bytes(range(128, 256)).decode("mac_roman")), (bytes(range(128, 256)), 0))

    def test_control_bytes_of_xml(self) -> None:
        root = xml_tree.read(b"<a>\x01&#2;&#x1F;&amp;\t</a>", "a.xml")
        self.assertEqual(mac_roman(root.text), (b"\x01\x02\x1f&\t", 0))

    def test_line_ends_and_encodings_of_a_dump(self) -> None:
        data = data_of("left_out.txt").replace(b"One", "Zoë".encode("mac_roman"))
        whole = read_dump(data, "a")
        self.assertEqual(whole.cards[0].name, b"Zo\x91")
        for end in (b"\r", b"\r\n"):
            self.assertEqual(read_dump(data.replace(b"\n", end), "a"), whole)
        told = read_dump(data.decode("mac_roman").encode("utf-8"), "a")
        self.assertEqual(told.cards, whole.cards)
        self.assertIn(("the file", "it is in UTF-8, and was turned into Mac Roman"), told.notes)


class Broken(Folder):
    """Thousands of sources with a change or two: each is read, or is refused with BadSource."""

    def broken(self, data: bytes, dice: random.Random) -> bytes:
        """The bytes with one to three changes."""
        for _ in range(dice.randint(1, 3)):
            at, to = sorted(dice.randrange(len(data) + 1) for _ in range(2))
            kind = dice.randrange(6)
            if kind == 0:
                data = data[:at]
            elif kind == 1:
                data = data[:at] + data[min(to, at + 40) :]
            elif kind == 2:
                data = data[:at] + data[at : at + 60] + data[at:]
            elif kind == 3:
                data = data[:at] + bytes(dice.randrange(256) for _ in range(3)) + data[at + dice.randrange(3) :]
            elif kind == 4:
                data = data[:at] + dice.choice((b"<", b">", b"&", b'"', b"{", b"]", b",", b"true", b"-1", b"9" * 20,
                                                b"null", b"&x;", b"&#0;", b"<![CDATA[", b"|", b".")) + data[at:]
            else:
                data = data.replace(data[at : at + 8], data[to : to + 8], 1) if data[at : at + 8] else data
            data = data or b" "
        return data

    def fuzz(self, data: bytes, times: int, read: Callable[[bytes], object]) -> List[int]:
        """Reads so many broken forms; how many were taken, and how many refused."""
        dice = random.Random(47)
        counts = [0, 0]
        for _ in range(times):
            try:
                read(self.broken(data, dice))
                counts[0] += 1
            except BadSource as wrong:
                self.assertTrue(str(wrong).strip())
                counts[1] += 1
        return counts

    def test_json(self) -> None:
        taken, refused = self.fuzz(data_of("quiz.json"), 5000, lambda data: convert(read_json(data, "a.json")))
        self.assertGreater(refused, 3000)
        self.assertGreater(taken, 20)

    def test_xml(self) -> None:
        """A file with its cards within it, and a card's file beside whole ones."""
        names = ("stack_-1.xml", "background_2790.xml", "card_3400.xml", "card_3034.xml", "card_3501.xml")
        bodies = [data_of("address_book.xstk/" + name).partition(b'"" >\n')[2] for name in names]
        whole = bodies[0].replace(b"</stack>", b"".join(bodies[1:]) + b"</stack>")

        def read(data: bytes) -> object:
            return convert(of_roots([("a.xml", xml_tree.read(data, "a.xml"))], "a", "test"))

        others = [(name, xml_tree.read(body, name)) for name, body in zip(names, bodies)]

        def read_card(data: bytes) -> object:
            return convert(of_roots([*others[:2], ("b.xml", xml_tree.read(data, "b.xml")), *others[3:]], "a", "test"))

        for data, of_data, times in ((whole, read, 4000), (bodies[2], read_card, 1200)):
            of_data(data)
            taken, refused = self.fuzz(data, times, of_data)
            self.assertGreater(refused, times // 2)
            self.assertGreater(taken, 3)

    def test_dump(self) -> None:
        taken, refused = self.fuzz(data_of("left_out.txt"), 2000, lambda data: convert(read_dump(data, "a.txt")))
        self.assertGreater(refused, 300)
        self.assertGreater(taken, 20)

    def test_no_stack_is_written(self) -> None:
        dice = random.Random(4)
        for _ in range(60):
            source = self.put("source", self.broken(data_of("quiz.json"), dice)[:-2])
            status, _, err = bring(source, "-o", self.at("made.stack"))
            self.assertEqual((status, os.path.exists(self.at("made.stack"))), (1, False), err)


if __name__ == "__main__":
    unittest.main()
