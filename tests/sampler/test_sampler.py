"""The sampler, built once as it is and once with the sanitisers: pictures of every size and format, known damage, its
options, errors and statuses, hostile files, and the shared library from C and C++."""
from tests.sampler.again import Again
from tests.sampler.common import SamplerCase
from tests.sampler.contents import Contents
from tests.sampler.damage import Damage
from tests.sampler.efforts import Efforts
from tests.sampler.hard import Hard
from tests.sampler.limits import Limits
from tests.sampler.options import Options
from tests.sampler.others import Others
from tests.sampler.quality import Quality
from tests.sampler.reading import Reading
from tests.sampler.sheets import Sheets
from tests.sampler.sizes import Sizes
from tests.sampler.timing import Timing
from tests.support import needs


@needs.library
class Sampler(Again, Damage, Efforts, Hard, Contents, Limits, Options, Others, Quality, Reading, Sheets, Sizes,
              Timing, SamplerCase):
    def test_it_is_built_without_a_warning(self):
        self.assertTrue(self.careful)
        self.rows(self.builds)
