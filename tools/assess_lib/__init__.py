"""What an assessor holds in hand: diagnostics, pages and folders around the reports of malpas.

The package stands outside the proved program. It runs the program, reads what it wrote and never changes a byte of it.
"""

VERSION = "1"
