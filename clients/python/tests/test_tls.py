"""Tests of the front in examples/tls, where stunnel4 and openssl are installed."""
import shutil
import subprocess
import sys
import unittest

from serving import EXAMPLES, PROGRAM

MISSING = [name for name in ("stunnel4", "openssl") if not shutil.which(name)]


class Tls(unittest.TestCase):
    def setUp(self):
        if MISSING:
            print(f"examples/tls is not tried: {' and '.join(MISSING)} not installed", file=sys.stderr)
            self.skipTest("not installed")

    def test_certificates_alone_let_clients_in(self):
        ran = subprocess.run([sys.executable, f"{EXAMPLES}/tls/try_it.py", PROGRAM], capture_output=True, text=True,
                             timeout=120)
        self.assertEqual((ran.returncode, ran.stderr), (0, ""))
        self.assertEqual(ran.stdout.splitlines(), [
            "a node manager with a certificate is answered: it is node 1",
            "a client without a certificate is not answered: peer did not return a certificate",
            "a client with another authority's certificate is not answered: certificate verify failed",
            "an operator with a certificate is answered: 1 node",
            "the daemon has accepted two connections, and ends: closed epochs=1 entries=2"])

    def test_a_program_that_is_none(self):
        ran = subprocess.run([sys.executable, f"{EXAMPLES}/tls/try_it.py", "/bin/false"], capture_output=True,
                             text=True, timeout=120)
        self.assertEqual((ran.returncode, ran.stdout), (1, ""))
        self.assertIn("try_it.py: listening is expected", ran.stderr)


if __name__ == "__main__":
    unittest.main()
