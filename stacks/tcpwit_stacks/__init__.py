"""Runs a TCP stack through scenarios on a simulated wire and clock, and judges each run.

- `cli`, `options`: the command, and its command line
- `selection`, `scenarios`: which scenarios run, and the language in which they are written
- `tasks`: a scenario's way from the stack to an outcome
- `simulation`, `wire`, `storms`, `peer`: the clock and the calls, the wire, storms of acknowledgments, a scripted peer
- `host`, `segments`: a stack in a process of its own, and what it sends
- `profiles`, `judge`, `outcomes`: a stack's constants, the programs that judge, and what they find
- `table`, `junit`, `baseline`: outcomes as a table, as a report, and compared with those of an earlier run
- `programs`, `processes`, `limits`, `files`, `texts`: what all of them need
"""
import os
import sys

# The importer's package, which decodes the headers of segments, is beside this folder.
sys.path.append(os.path.join(os.path.dirname(os.path.realpath(__file__)), "..", "..", "importer"))
