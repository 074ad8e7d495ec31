"""What `bench/batch`, `bench/batch-one` and `bench/batch-report` are made of.

They need nothing but Python 3.9 on Linux, so that nothing has to be installed on a cluster."""
import os
import sys

ROOT = os.path.dirname(os.path.dirname(os.path.dirname(os.path.abspath(__file__))))
sys.path[:0] = [f"{ROOT}/bench", f"{ROOT}/tools"]
