"""Installs the package in /try/022 as the pages say, and tries it against the real systemd, nginx, sshd and Git LFS.

It prints a line for each check, what it measured, and `N passed, M failed`. Its status is 1 if a check failed.
"""
import sys

from tests.site.container.clients import try_client, try_group, try_hook
from tests.site.container.costs import measure_growth, try_full_disk, try_wrong_names
from tests.site.container.keys import set_up_ssh, try_ssh
from tests.site.container.machine import CHECKS
from tests.site.container.proxy import (set_up_nginx, try_fields, try_full_spool, try_given_up, try_limits,
                                        try_locks_page, try_log, try_no_token, try_prefix, try_several, try_streams,
                                        try_unreachable)
from tests.site.container.unit import (try_confinement, try_earlier, try_modes, try_neighbours, try_package, try_unit)

PARTS = [try_package, try_unit, try_earlier, try_confinement, try_neighbours, set_up_ssh, set_up_nginx, try_modes,
         try_ssh, try_no_token, try_streams, try_limits, try_prefix, try_fields, try_log, try_given_up, try_unreachable,
         try_several, try_full_spool, try_client, try_hook, try_locks_page, try_wrong_names, measure_growth,
         try_full_disk, try_group]


def main():
    """Runs each part."""
    for part in PARTS:
        CHECKS.part(part.__name__, part)
    return CHECKS.end()


if __name__ == "__main__":
    sys.exit(main())
