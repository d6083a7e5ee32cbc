"""Tests of the way over from Hadoop, on the configurations in examples/hadoop."""
import subprocess
import sys
import tempfile
import unittest

from serving import EXAMPLES, PROGRAM, read


def run(*words, text=None):
    return subprocess.run(words, input=text, capture_output=True, text=True, timeout=60)


STAY = ("percentages are amounts of {} now, which stay as they are when the cluster grows: "
        "convert again with the new --total")


class Case(unittest.TestCase):
    def convert(self, *names, total=None):
        """Converts files of examples/hadoop, or of whole paths."""
        files = [name if "/" in name else f"{EXAMPLES}/hadoop/{name}" for name in names]
        return run(sys.executable, "-m", "capsched.from_hadoop", *files, *(["--total", total] if total else []))

    def assert_opens(self, lines):
        checked = run(PROGRAM, "check", text=lines)
        self.assertEqual((checked.returncode, checked.stderr), (0, ""))

    def write(self, *properties):
        """A file with these properties."""
        file = tempfile.NamedTemporaryFile("w", suffix=".xml")
        self.addCleanup(file.close)
        said = "".join(f"<property><name>{name}</name><value>{value}</value></property>" for name, value in properties)
        file.write(f"<configuration>{said}</configuration>")
        file.flush()
        return file.name


class FromHadoop(Case):

    def test_absolute_resources_are_all_said(self):
        ran = self.convert("absolute.xml", "yarn-site.xml")
        self.assertEqual((ran.returncode, ran.stderr), (0, ""))
        self.assertEqual(ran.stdout, read("hadoop/absolute.conf"))
        checked = run(PROGRAM, "check", text=ran.stdout)
        self.assertEqual((checked.returncode, checked.stderr), (0, ""))
        self.assertIn("maximum applications: 5000", checked.stdout)

    def test_what_is_left_out_is_named(self):
        ran = self.convert("default.xml")
        self.assertEqual(ran.returncode, 1)
        self.assertEqual(ran.stdout, read("hadoop/default.conf"))
        self.assertEqual(ran.stderr, read("hadoop/default.left"))

    def test_other_files_are_no_configuration(self):
        with tempfile.NamedTemporaryFile("w", suffix=".xml") as file:
            for text in ("<queues/>", "no xml"):
                file.seek(0)
                file.truncate()
                file.write(text)
                file.flush()
                ran = run(sys.executable, "-m", "capsched.from_hadoop", file.name)
                self.assertEqual((ran.returncode, ran.stdout), (2, ""), text)
                self.assertIn(file.name, ran.stderr)


class Percentages(Case):
    def test_hadoops_own_file(self):
        ran = self.convert("capacity-scheduler.xml", total="1048576,512")
        self.assertEqual((ran.returncode, ran.stdout), (1, read("hadoop/capacity-scheduler.conf")))
        self.assert_opens(ran.stdout)
        first, *others = ran.stderr.splitlines()
        self.assertEqual(first, STAY.format("[1048576 MiB, 512 vcores]"))
        self.assertEqual(len(others), 15)
        for line in others:
            self.assertNotIn(".capacity=", line)
            self.assertNotIn("maximum-capacity", line)

    def test_three_levels(self):
        """Worked out by hand. As `root.prod` has 600001.8 MiB, its children have 199800.5994 and 400201.2006; rounded
        to the nearest they would be more than it. `root.prod.ml.serve` has 0.04 vcores and 0.003 GPUs. What
        resource-types.xml says of memory and vcores is taken before what yarn-site.xml says."""
        ran = self.convert("percent.xml", "yarn-site.xml", "resource-types.xml", total="1000003,101,7")
        self.assertEqual((ran.returncode, ran.stdout), (1, read("hadoop/percent.conf")))
        self.assert_opens(ran.stdout)
        self.assertEqual(ran.stderr.splitlines(), [
            STAY.format("[1000003 MiB, 101 vcores, 7 GPUs]"),
            "left out: yarn.resource-types.yarn.io/fpga.maximum-allocation=2: the resources are memory, vcores and "
            "yarn.io/gpu",
            "comes to 0: yarn.scheduler.capacity.root.prod.ml.serve.capacity=0.1: it comes to "
            "[memory=400,vcores=0,yarn.io/gpu=0]; a leaf queue with 0 of one grants none of it"])

    def test_all_is_said_of_a_tree_in_percent_alone(self):
        """29 percent of 100 are 29, where 0.29 times 100 in binary fractions is less."""
        P = "yarn.scheduler.capacity.root"
        file = self.write((f"{P}.queues", "a,b,c"), *((f"{P}.{name}.capacity", "33.33") for name in "ab"),
                          (f"{P}.c.capacity", "33.34"), (f"{P}.a.maximum-capacity", "29"))
        ran = self.convert(file, total="10000,100")
        self.assertEqual((ran.returncode, ran.stderr), (0, STAY.format("[10000 MiB, 100 vcores]") + "\n"))
        self.assertEqual(ran.stdout.splitlines(), [
            f"{P}.queues=a,b,c", f"{P}.a.capacity=[memory=3333,vcores=33]", f"{P}.b.capacity=[memory=3333,vcores=33]",
            f"{P}.c.capacity=[memory=3334,vcores=33]", f"{P}.a.maximum-capacity=[memory=2900,vcores=29]"])

    def test_percentages_of_amounts_and_of_what_is_none(self):
        P = "yarn.scheduler.capacity.root"
        file = self.write((f"{P}.queues", "a,b"), (f"{P}.a.capacity", "[memory=1001,vcores=9]"), (f"{P}.a.queues", "x"),
                          (f"{P}.a.x.capacity", "50"), (f"{P}.b.capacity", "3w"), (f"{P}.b.queues", "y"),
                          (f"{P}.b.y.capacity", "50"), (f"{P}.b.y.maximum-capacity", "101"))
        ran = self.convert(file, total="8192,8")
        self.assertEqual(ran.stdout.splitlines()[1:4], [
            f"{P}.a.capacity=[memory=1001,vcores=9]", f"{P}.a.queues=x", f"{P}.a.x.capacity=[memory=500,vcores=4]"])
        self.assertEqual([line.split("=", 1)[0] for line in ran.stderr.splitlines()[1:]], [
            f"left out: {P}.b.capacity", f"left out: {P}.b.y.capacity", f"left out: {P}.b.y.maximum-capacity"])
        self.assertEqual(ran.returncode, 1)

    def test_a_total_that_is_none(self):
        for total in ("1024", "1024,x", "1024,-1", f"{2**40 + 1},1"):
            ran = self.convert("percent.xml", total=total)
            self.assertEqual((ran.returncode, ran.stdout), (2, ""))
            self.assertIn("is not MIB,VCORES or MIB,VCORES,GPUS", ran.stderr)


if __name__ == "__main__":
    unittest.main()
