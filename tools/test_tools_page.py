"""Tests that docs/TOOLS.md shows what the script prints: each indented block that begins with `$ tools/pozhiqas`."""
import unittest

from for_tests import TOOLS, needs_program, pozhiqas

ROOT = TOOLS.parent
PROMPT = "    $ tools/pozhiqas "


def shown_blocks(page):
    """The arguments and the output of each block of a page. A block ends before the next line that is not indented."""
    blocks, is_inside = [], False
    for line in page.splitlines():
        if line.startswith(PROMPT):
            blocks.append((line[len(PROMPT):], []))
            is_inside = True
        elif line and not line.startswith("    "):
            is_inside = False
        elif is_inside:
            blocks[-1][1].append(line[4:])
    return blocks


@needs_program
class Page(unittest.TestCase):
    def test_outputs(self):
        blocks = shown_blocks((ROOT / "docs/TOOLS.md").read_text(encoding="utf-8"))
        self.assertGreater(len(blocks), 7)
        for arguments, lines in blocks:
            with self.subTest(arguments):
                words = [str(ROOT / word) if "/" in word else word for word in arguments.split()]
                output, errors, _ = pozhiqas(*words)
                printed = (output + errors).replace(f"{ROOT}/", "")
                self.assertEqual("\n".join(lines).rstrip("\n"), printed.rstrip("\n"))


if __name__ == "__main__":
    unittest.main()
