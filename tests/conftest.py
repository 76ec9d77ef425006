"""What pytest needs to know: `pytest -n 4` hands whole classes to its workers, since a class prepares once."""
import pytest


@pytest.hookimpl(optionalhook=True)
def pytest_xdist_make_scheduler(config, log):
    """Gives the scheduler of xdist that keeps the cases of a class together."""
    from xdist.scheduler import LoadScopeScheduling
    return LoadScopeScheduling(config, log)
