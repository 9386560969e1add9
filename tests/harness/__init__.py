"""What the tests of the built program share."""
import sys

sys.dont_write_bytecode = True
