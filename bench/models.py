"""The models of tools/lp_model.py, for the measurements."""
import os
import sys

sys.path.append(os.path.join(os.path.dirname(os.path.abspath(__file__)), '..', 'tools'))

from lp_model import Model, highs, mixed_model, ratio_model
