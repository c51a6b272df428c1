#!/bin/sh
# The calls on rollouts of a running service: 500 drawn requests beside the commands on the same files, 100 kills while plans are applied,
# and what a plan over 1,000,000 and 10,000,000 recorded inputs takes, also of those who are answered beside it. Needs python3.
#
#     bench/control.sh [INPUTS ..]

here=$(CDPATH='' cd -- "$(dirname -- "$0")" && pwd -P) || exit 1
CONTROL_DRAWN=500 CONTROL_KILLS=100 python3 -B "$here/../tests/test_control.py" Plans.test_as_the_commands_plan Killed || exit 1
exec python3 -B "$here/service/planning.py" "$@"
