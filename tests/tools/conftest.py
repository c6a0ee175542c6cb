"""What pytest does for these tests beside its own: a skip or a file without a test can fail."""
import unittest

import pytest


def pytest_addoption(parser):
    parser.addoption("--all", action="store_true", help="a skipped test counts as failed")


@pytest.hookimpl(tryfirst=True)
def pytest_sessionfinish(session):
    """The tests that were skipped are listed at the end, by what they lack, and fail the run."""
    reporter = session.config.pluginmanager.get_plugin("terminalreporter")
    is_skipped = session.config.getoption("all") and reporter and reporter.stats.get("skipped")
    passes = (pytest.ExitCode.OK, pytest.ExitCode.NO_TESTS_COLLECTED)
    if is_skipped and session.exitstatus in passes:
        session.exitstatus = pytest.ExitCode.TESTS_FAILED


@pytest.hookimpl(hookwrapper=True)
def pytest_make_collect_report(collector):
    report = (yield).get_result()
    if isinstance(collector, pytest.Module) and report.passed and not report.result:
        report.outcome, report.longrepr = "failed", "it has no test"


@pytest.hookimpl(trylast=True)
def pytest_runtest_teardown(item, nextitem):
    """pytest 7 calls setUpModule, and not what that has left to be called at the end."""
    if not nextitem or nextitem.module is not item.module:
        unittest.doModuleCleanups()
