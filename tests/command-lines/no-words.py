"""Runs metric_kit without a word, not even its own name, which asks for a trial as its name alone does."""

import subprocess
import sys

INPUT = """%% catalogue
format = 1
meter = [{ name = "m", instrument = [{ name = "x", kind = "counter", range = [0, 9] }] }]
recorder = [{ name = "r", budget = [{ instrument = 0, amount = 1 }] }]
%% config
format = 1
%% script
start 0
record 0 0 5
"""

ran = subprocess.run([], executable=sys.argv[1], input=INPUT, capture_output=True, text=True, check=False)
told = (ran.stdout, ran.stderr, ran.returncode)
print(told)
sys.exit(told != ("accepted\n", "", 0))
