"""The demonstration (`make demo`): it ends well, and shows what it should."""
import subprocess
import unittest

from support import TOP


class Demonstration(unittest.TestCase):
    def test_demo(self):
        seen = subprocess.run([TOP / "examples" / "demo.sh"], capture_output=True, text=True)
        self.assertEqual(seen.returncode, 0, seen.stdout + seen.stderr)
        for line in ("firmware: 5,000,000 bytes on 15 nodes, generation 1", "  wrong node 7: block 48 is damaged",
                     "  set right node 7: block 48 is damaged", "node 12, firmware: a share of 556,361 bytes made anew",
                     "firmware: 100 bytes changed, generation 2", "  7 nodes written: 0 1 2 3 4 13 14",
                     "firmware: 5,000,000 bytes, generation 2: right", "firmware: 5,000,000 bytes on 6 nodes, generation 1",
                     "node 7, firmware: a share of 167,380 bytes made anew",
                     "  3,751,965 bytes read; 30 whole shares are 5,004,930"):
            self.assertIn(line + "\n", seen.stdout)
        self.assertRegex(seen.stdout, r"  symbols sent: 700 bytes; a whole rewrite sends 8,345,415\n")
        self.assertRegex(seen.stdout, r"the plain layout is sent 700 bytes at 7 nodes, 6 of which it writes at every change\n")
        self.assertEqual(seen.stdout.count("copy.bin is firmware.bin, byte for byte\n"), 3)


if __name__ == "__main__":
    unittest.main()
