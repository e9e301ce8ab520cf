"""The documents of examples/, and what the program prints of them."""

import unittest
from pathlib import Path

from pickbracken import Refused, document

EXAMPLES = Path(__file__).resolve().parents[3] / "examples"
# Each command by the end of the names of what it prints.
CALLS = {
    ".plan.txt": document.plan,
    ".check.txt": document.check,
    ".judge.txt": document.judge,
    ".draw.svg": document.draw_svg,
    ".draw.txt": document.draw_text,
    ".audit.txt": document.audit,
}


def example(name: str) -> bytes:
    return (EXAMPLES / name).read_bytes()


class Examples(unittest.TestCase):
    def test_says_what_the_program_prints(self) -> None:
        tried = 0
        for end, call in CALLS.items():
            for wanted in sorted(EXAMPLES.glob(f"*{end}")):
                with self.subTest(wanted.name):
                    read = example(f"{wanted.name[: -len(end)]}.json")
                    try:
                        answer = call(read)
                    except Refused as why:
                        answer = f"refused {why}\n"
                    self.assertEqual(answer, wanted.read_text())
                    tried += 1
        self.assertGreater(tried, 20)

    def test_a_planned_document_is_checked(self) -> None:
        planned = document.plan_document(example("settings.json"))
        self.assertEqual(document.check(planned.encode()), "cost 16\n")

    def test_refusals_have_a_name_and_a_place(self) -> None:
        with self.assertRaises(Refused) as caught:
            document.judge(example("stock-let-go-early.json"))
        why = caught.exception
        self.assertEqual((why.name, why.place), ("parent-not-held", "step 7"))
        self.assertEqual((why.text, str(why)), ("step 7 parent-not-held", "step 7 parent-not-held"))

    def test_bytes_that_are_no_document(self) -> None:
        long = b" " * 4_194_305
        for call, read, text in [
            (document.plan, b"", "bad-json"),
            (document.plan, b"\0{}", "bad-json"),
            (document.plan, b"\xff", "bad-json"),
            (document.plan, b"[]", "shape whole"),
            (document.plan, long, "limit whole"),
            (document.audit, long, "bad-json"),
        ]:
            with self.assertRaises(Refused) as caught:
                call(read)
            self.assertEqual(caught.exception.text, text)


if __name__ == "__main__":
    unittest.main()
