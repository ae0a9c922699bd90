"""The cases of which suite/make makes worlds, put together. (No script.)

What a case is stands in suite/case.py; the cases themselves stand by concern in suite/cases_*.py.
"""
import cases_accepted
import cases_bundle
import cases_log
import cases_signer
import cases_tuf
from case import ADDED

# (in the order in which worlds are listed)
FILES = (cases_tuf, cases_signer, cases_log, cases_bundle, cases_accepted)
CASES = [one for file in FILES for one in ADDED[file.__name__]]
