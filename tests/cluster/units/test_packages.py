"""What the programs say without the packages that they need."""
import subprocess
import sys
import unittest
from pathlib import Path

FILES = (Path(__file__).resolve().parents[3] / "cluster").iterdir()
PROGRAMS = sorted(path for path in FILES if path.is_file() and not path.suffix)
# A Python that finds no packages but its own.
ALONE = [sys.executable, "-B", "-E", "-S"]
SAYS = "{}: needs the Python packages grpcio and protobuf (No module named 'google')\n"


class Packages(unittest.TestCase):
    def test_without_them_each_says_so_by_a_line_and_status_3(self):
        self.assertEqual(len(PROGRAMS), 9)
        for program in PROGRAMS:
            ran = subprocess.run([*ALONE, program], capture_output=True, text=True, check=False)
            self.assertEqual((ran.returncode, ran.stdout, ran.stderr), (3, "", SAYS.format(program.name)))

    def test_without_them_each_says_how_it_is_called(self):
        for program in PROGRAMS:
            ran = subprocess.run([*ALONE, program, "--help"], capture_output=True, text=True, check=False)
            self.assertEqual((ran.returncode, ran.stderr), (0, ""))
            self.assertIn(f"usage: cluster/{program.name} [--members HOST:PORT,..]", ran.stdout)


if __name__ == "__main__":
    unittest.main()
