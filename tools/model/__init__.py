"""An independent model of the press, written from its rules alone. See README.md."""

import sys

# Numbers in texts may have as many digits as they like.
sys.set_int_max_str_digits(0)
