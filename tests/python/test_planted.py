"""How the parts of these tests are run over a package with a planted bug."""
import sys

from tests.support import commands, needs, places
from tests.support.case import Case


@needs.library
class Planted(Case):
    def test_what_is_passed_over_is_said(self):
        words = "import sys; sys.modules['PIL'] = None; from tests.python import planted; planted.main()"
        said = commands.said([sys.executable, "-c", words, places.PACKAGE, "limits.damaged"], cwd=places.TOP,
                             env=commands.environment(ECC200_FOLDER=places.BUILT))
        self.row("without Pillow", said, (0, "left out: damaged pictures (Pillow isn't installed)\n"))
