"""Three imports: an address book from XML, a quiz with radio buttons from JSON, and a stack whose scripts use what is
left out, from a text of the exporter. Each opens, its report names each loss, and its scripts that read run."""

import os
from typing import List, Tuple

from front.program import HERE
from front.stack_text import read
from migrate.tests.helpers import DATA, Folder, bring


class Imports(Folder):
    """Each import, with its report, its stack, and a session on it."""

    def bring(self, name: str, *words: str) -> Tuple[str, bytes]:
        """Imports a source of the tests: the report and the stack."""
        status, out, err = bring(os.path.join(DATA, name), "-o", self.at("made.stack"), *words)
        self.assertEqual((status, err), (0, ""))
        return out, self.get("made.stack")

    def told(self, report: str, *said: str) -> None:
        """Sees that each of these stands in the report."""
        for each in said:
            self.assertIn(each, report)

    def session(self, stack: bytes, *lines: Tuple[str, List[str]]) -> None:
        """Runs lines, each with what it is to answer."""
        got = self.run_stack(stack, [line for line, _ in lines])
        self.assertEqual(got, [answer for _, answers in lines for answer in answers])

    def test_address_book(self) -> None:
        report, stack = self.bring("address_book.xstk", "--ids")
        self.told(report, "1 background, 3 cards, 3 buttons, 3 fields", "scripts that read: 4 of 4",
                  "handlers that would run: 5 of 5", "what blocks most: nothing",
                  "fonts and text styles 8, looks of parts 8, places and sizes 6, pictures and icons 4, "
                  "protection of the stack 1, marks of cards 1",
                  'card button "Kind" (id 6), card "Ada" (id 3400): a button holds no text here; these 9 bytes are '
                  "left out: Home / Work",
                  'card "Zoë" (id 3501): something is kept for the part 9, which isn\'t there: left behind',
                  "<hologram> in <part> | 1 | card button \"Kind\"", "line 2 | card field id 1 | 5")
        self.assertEqual([card.id for card in read(stack).cards], [3400, 3034, 3501])
        self.session(
            stack, (".open", ["> 3 people", "> Ada", "ok"]), ('search "zo"', ["> Zo\\91", "ok"]),
            ('put field "Name" & the hilite of bg button "Friend"', ["> Zo\\91 M\\9fllerfalse", "ok"]),
            ('put field "Motto"', ["> All people, one book \\d1 in Mac Roman", "ok"]),
            ('put field "Name" of card id 3034', ["> Grace Hopper\\0d3 River Road", "ok"]),
            ('put the hilite of bg button "Friend" of card id 3034', ["> true", "ok"]),
            ('.click bg button "Next"', ["> Ada", "ok"]), ('.click button "Kind"', ["> 555 0101", "ok"]),
            ('put the visible of card field "Private" && the lockText of field "Motto"', ["> false true", "ok"]),
            ("put the cantDelete of this bg", ["> true", "ok"]))

    def test_quiz(self) -> None:
        report, stack = self.bring("quiz.json", "--rewrite")
        self.told(report, "1 background, 2 cards, 5 buttons, 1 field", "scripts that read: 7 of 7",
                  "handlers that would run: ", "places and sizes 5, fonts and text styles 1, pictures and icons 1",
                  '"sound" | 1 | card "Sea" (id 8)', "visual effect scroll left | visual -- effect scroll left",
                  'bkgnd button "Hint" (id 6)')
        lit = 'put the hilite of bg button "A" && the hilite of bg button "B" && the hilite of bg button "C"'
        self.session(
            stack, (".open", ["> Who walked on the moon first?\\0dA: Gagarin\\0dB: Armstrong\\0dC: Glenn", "ok"]),
            (lit, ["> false true false", "ok"]), ('.click bg button "A"', ["> A", "ok"]),
            (lit, ["> true false false", "ok"]), ('.click bg button "B"', ["> B is pressed", "> B", "ok"]),
            ('.click bg button "Hint"', ["> true", "ok"]), ('.click bg button "Hint"', ["> false", "ok"]),
            ('.click bg button "Next"', ["> Which ocean is the largest?", "ok"]), (lit, ["> false false false", "ok"]))

    def test_left_out(self) -> None:
        report, stack = self.bring("left_out.txt")
        self.told(report, "visual effect", "a decimal number", "sort of cards", "go back", "answer file", "mark",
                  "an `if` of two forms", "push card", "wait", "ask .. with", "sort of lines", "date and time",
                  "a property of looks", "print", "select", "speech | 1 | line", "Now / Later", "it was disabled",
                  "idle: the stack, line 11", "mouseWithin: card \"One\" (id 3001), line 1", "marks of cards 1",
                  "The script of the stack doesn't read")
        self.assertEqual(self.run_stack(stack, [".open"]), ["fault 1"])

    def test_left_out_as_far_as_it_goes(self) -> None:
        report, stack = self.bring("left_out.txt", "--rewrite", "--set-aside")
        self.told(report, "WriteFile: the stack, line", "Shuffle: the stack, line", "These handlers were set aside",
                  "a decimal number", "sort of cards", "go back", "answer file", "mark", "print", "select")
        for gone in ("visual effect (", "wait (", "push card (", "ask .. with ("):
            self.assertNotIn(gone, report)
        self.session(
            stack, (".open", ["ok"]), ('put field "Today"', ["> 1/1/90 9:00 AM", "ok"]),
            ("tour", ["> One", "> Two", "> card id 3003", "ok"]), ("put the short name of this card", ["> One", "ok"]),
            ("greet", ["> Who are you?", "> Hello, Ada", "ok"]),
            ('put "Grace" & return & "Hello" into replies', ["ok"]),
            ("greet", ["> Who are you?", "> Hello, Grace", "ok"]), ("put average3(1, 2, 6)", ["> 3", "ok"]),
            ("countCards", ["> 3", "ok"]), ("put half(3)", ["fault 2"]), ("report", ["fault 2"]),
            ('.click bg button "Find"', ["> Find what?", "ok"]), ('put "note 2" into replies', ["ok"]),
            ('.click bg button "Find"', ["> Find what?", "ok"]), ('put field "Note"', ["> note 2", "ok"]),
            ('put card field "Own" of card 1', ["> of this card\\0d", "ok"]),
            ("put the name of last card", ["> card id 3003", "ok"]),
            ('put the hilite of bg button "Mark" of card 1', ["> true", "ok"]))

    def test_one_file(self) -> None:
        """A stack file with its cards whole within it, its XCMDs told."""
        source = self.put("one.xml", b"""<stack><name>One</name><xcmd name="WriteFile" file="x.data"/>
            <background><id>1</id><name>B</name><part><id>1</id><type>field</type><rect>1</rect></part></background>
            <card><id>2</id><owner>1</owner><content><layer>background</layer><id>1</id><text>a</text></content></card>
            </stack>""")
        self.put("card_9.xml", b"<card>")
        status, out, err = bring(source, "-o", self.at("made.stack"))
        self.assertEqual((status, err), (0, ""))
        self.told(out, "one.xml: the xcmd WriteFile isn't brought", "they stand in the order of their ids",
                  'bkgnd field id 3, background "B" (id 1): places and sizes 1')
        self.session(self.get("made.stack"), ("put field 1", ["> a", "ok"]))

    def test_nothing_is_dropped_unsaid(self) -> None:
        """What the reader of XML doesn't know is told, wherever it stands."""
        source = self.put("one.xml", b"""<stack colour="red"><background><id>1</id></background>
            <card><id>2</id><owner>1</owner><name lang="en">A<b>C</b></name><script>a</script><script>b</script>
            stray<content kind="x"><layer>card</layer><id>9</id><text>t</text></content></card></stack>""")
        _, out, _ = bring(source)
        self.told(out, "the attribute colour of <stack>", "the attribute lang of <name>", "<b> in <name>",
                  "a second <script> in <card>", "text in <card>", "the attribute kind of <content>",
                  "something is kept for the part 9, which isn't there: t")

    def test_the_example_of_the_page(self) -> None:
        """The JSON in docs/MIGRATING.md is imported without a word about it."""
        with open(os.path.join(HERE, "docs", "MIGRATING.md"), encoding="utf-8") as file:
            example = file.read().partition("```json\n")[2].partition("```")[0]
        status, out, err = bring(self.put("a.json", example.encode()), "-o", self.at("made.stack"), "--compat")
        self.assertEqual((status, err), (0, ""))
        self.told(out, "Nothing was left out that the source names.", "scripts that read: 1 of 1", "Light")
        self.session(self.get("made.stack"), ("put field 1", ["> Water the basil.\\0dBuy bread.", "ok"]),
                     ('.click bg button "Light"', ["> false", "ok"]))
