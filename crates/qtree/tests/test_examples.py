"""Each script of examples/, played with its options to its report and its status."""
import glob
import os

from program import ProgramTest

EXAMPLES = os.path.realpath(f"{os.path.dirname(os.path.realpath(__file__))}/../../../examples")


def read(path, absent):
    """A file of an example, or what stands for one that is not there."""
    if not os.path.exists(path):
        return absent
    with open(path, "rb") as file:
        return file.read()


class Examples(ProgramTest):
    def test_examples_give_their_reports(self):
        scripts = sorted(glob.glob(f"{EXAMPLES}/*.script"))
        self.assertTrue(scripts, "no example is there")
        for script in scripts:
            name = script[: -len(".script")]
            words = ["qtree", "play", *read(f"{name}.args", b"").decode().split()]
            wanted = (int(read(f"{name}.status", b"0")), read(f"{name}.out", None))
            with self.subTest(os.path.basename(name)):
                answer = self.answer(" ".join(words), read(script, None))
                self.assert_is(os.path.basename(name), (answer.status, answer.output), wanted)
