"""The steps of the gate behind `rt ci`, one module a step; .ci/check runs them. What several of them use stands in parts/.

The tools and the measures of the repository can be imported by their names."""
import os
import sys

TOP = os.path.dirname(os.path.dirname(os.path.dirname(os.path.abspath(__file__))))
sys.path += [os.path.join(TOP, 'tools'), os.path.join(TOP, 'bench')]
