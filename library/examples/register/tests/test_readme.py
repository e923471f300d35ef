"""The commands of README.md, run in an empty folder: each prints what stands below it."""

import re
import subprocess
from collections.abc import Iterator

from .base import PACKAGE, SAMPLE, RegisterTest, environment

HERE = "<<'END'"


def examples(page: str) -> Iterator[tuple[str, str]]:
    """The commands of a page and what stands below each, in their order."""
    for block in re.findall(r"```console\n(.*?)```", page, re.DOTALL):
        for example in re.split(r"^\$ ", block, flags=re.MULTILINE)[1:]:
            first, _, rest = example.partition("\n")
            if first.endswith(HERE):
                document, _, rest = rest.partition("END\n")
                first += f"\n{document}END"
            yield first, rest


class Readme(RegisterTest):
    def test_commands(self) -> None:
        wanted = list(examples((PACKAGE / "README.md").read_text(encoding="utf-8")))
        self.assertGreater(len(wanted), 30)
        (self.base / "companies.csv").write_bytes(SAMPLE.read_bytes())
        script = self.base / "script.sh"
        script.write_text("".join(f"{command}\nprintf '\\0'\n" for command, _ in wanted), encoding="utf-8")
        done = subprocess.run(["bash", script], cwd=self.base, env=environment(None), stdout=subprocess.PIPE, stderr=subprocess.STDOUT, timeout=120)
        told = done.stdout.decode().replace("\r\n", "\n").split("\0")  # CSV has other line ends than a page
        self.assertEqual(told[-1], "")
        for (command, output), said in zip(wanted, told, strict=False):
            with self.subTest(command):
                self.assertEqual(said, output)
        self.assertEqual(len(told), len(wanted) + 1)
