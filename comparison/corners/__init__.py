"""Corner traces by hand: each refusal, each point of the node that is easy to get wrong, the turn too far, the desk's
endings. A trace for a new rule goes into the module of its subject; traces run in the order of these imports."""
from comparison.corners.corner import CORNERS, Unexpected
from comparison.corners import refusals
from comparison.corners import faults
from comparison.corners import sizes
from comparison.corners import opening
from comparison.corners import closing
from comparison.corners import receiving
from comparison.corners import acknowledging
from comparison.corners import failing
from comparison.corners import ticks
from comparison.corners import handing_out
from comparison.corners import reporting
from comparison.corners import plans
from comparison.corners import slots
from comparison.corners import addresses
from comparison.corners import timers
from comparison.corners import windows
from comparison.corners import two_windows
from comparison.corners import turn_too_far
from comparison.corners import endings

__all__ = ["CORNERS", "Unexpected"]
