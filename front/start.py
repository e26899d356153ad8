"""Starts the front, wherever it is called from: only the folder above this one is searched for its modules, so that no
file of the user's folder can stand in for one of them. A Python without pycparser hands over to the next one."""
import os
import sys

sys.path[0] = os.path.dirname(os.path.dirname(os.path.realpath(__file__)))
OTHERS = ['/usr/bin/python3', '/usr/local/bin/python3']

try:
    import pycparser  # noqa: F401
except ImportError:
    left = os.environ.get('RVCC_PYTHONS', ':'.join(OTHERS)).split(':')
    while left and left[0]:
        other = left.pop(0)
        if os.access(other, os.X_OK):
            os.environ['RVCC_PYTHONS'] = ':'.join(left)
            os.execv(other, [other, '-B', *sys.argv])
    sys.exit('rvcc-cc: error: pycparser is needed: install the package python3-pycparser')

from front.command import main  # noqa: E402

sys.exit(main(sys.argv[1:]))
