"""The Go package over the shipped library (`library/go`): its own tests, where Go and a C compiler are here."""
import os
import shutil
import subprocess
import tempfile
import unittest

from program import ROOT, SECONDS
from test_library import FOLDER, WithLibrary, first_program

PACKAGE = os.path.join(ROOT, "library", "go")
DOCUMENT = '{"flags":{"hi":{"state":"ENABLED","variants":{"on":true},"defaultVariant":"on"}}}'


class GoTest(WithLibrary):
    def setUp(self):
        super().setUp()
        for tool in ("go", "cc"):
            if not shutil.which(tool):
                self.skipTest(f"{tool} is not here")
        if FOLDER:
            self.skipTest("the Go package is tested over the shipped library alone")
        folder = tempfile.TemporaryDirectory()
        self.addCleanup(folder.cleanup)
        self.here = folder.name
        self.world = dict(os.environ, CGO_ENABLED="1", GOCACHE=os.path.join(self.here, "cache"), GOFLAGS="-mod=mod", GOPROXY="off", GOTOOLCHAIN="local")

    def go(self, folder, *words):
        """What `go` prints with these words."""
        ran = subprocess.run(["go", *words], cwd=folder, env=self.world, capture_output=True, text=True, timeout=SECONDS, check=False)
        self.assertEqual(ran.returncode, 0, ran.stdout + ran.stderr)
        return ran.stdout

    def test_its_tests(self):
        self.go(PACKAGE, "vet", "./...")
        self.go(PACKAGE, "test", "./...")

    def test_the_first_program(self):
        for name, text in (("hello.go", first_program("go")), ("flags.json", DOCUMENT)):
            with open(os.path.join(self.here, name), "w", encoding="utf-8") as file:
                file.write(text)
        self.go(self.here, "mod", "init", "hello")
        self.go(self.here, "mod", "edit", "-require", "flagops@v0.1.0", "-replace", f"flagops={PACKAGE}")
        self.assertEqual(self.go(self.here, "run", "."), "true by the variant on <nil>\n")


if __name__ == "__main__":
    unittest.main()
