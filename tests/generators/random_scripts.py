"""Random scripts of swimsim, each the same for its seed.

`random_script(seed)` gives (kind, script). The kinds take turns, so that any stretch of seeds has them all. A script is
written without knowing what will be answered; only its period's number is followed, and in some kinds its rounds, so
that acks hit the aim. `large_script(seed)` gives one that is about as large as may be.
"""

import random

from tests.generators.broken_scripts import about_as_large_as_may_be, broken, misspelt, noisy
from tests.generators.detector_scripts import ANSWERED, openings
from tests.generators.growing_scripts import Script, joined
from tests.generators.version_scripts import asking_about_anybody, telling_versions

KINDS = [
    *ANSWERED,
    openings,
    broken,
    misspelt,
    misspelt,
    noisy,
    asking_about_anybody,
    telling_versions,
    telling_versions,
]


def random_script(seed):
    kind = KINDS[seed % len(KINDS)]
    made = kind(random.Random(seed))
    if isinstance(made, Script):
        made = made.lines()
    return kind.__name__, made if isinstance(made, bytes) else joined(made)


def large_script(seed):
    return about_as_large_as_may_be.__name__, about_as_large_as_may_be(random.Random(seed))
