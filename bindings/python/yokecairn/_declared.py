"""What bindings/c/tsp.h declares, for ctypes, the reasons for the line `no`, and what faults of solutions mean.

This file is made from the header, bindings/reasons.tsv and the definitions of tsp_solution by
`tests/repository/reasons --write`: change these. The suite `reasons` of ./check compares them.
"""

from ctypes import POINTER, Structure, c_bool, c_char_p, c_int64, c_size_t, c_uint32, c_uint64, c_void_p
from enum import Enum
from typing import Any, Dict, List, Tuple

YES = 0
NO = 1
FAULT = 2
OUT_OF_MEMORY = 3
REFUSED = 4
TOO_SMALL = 6
BY_NONE = 0
BY_POTENTIALS = 1
BY_BRANCHES = 2
BY_POTENTIALS_STRICT = 3
BY_BRANCHES_STRICT = 4
CLAIMED = 1
STRICT = 2
LAYOUT_AS_IT_IS = 0
LAYOUT_FULL_MATRIX = 1
LAYOUT_UPPER_ROW = 2
LAYOUT_LOWER_ROW = 3
LAYOUT_UPPER_DIAG_ROW = 4
LAYOUT_LOWER_DIAG_ROW = 5
LAYOUT_UPPER_COL = 6
LAYOUT_LOWER_COL = 7
LAYOUT_UPPER_DIAG_COL = 8
LAYOUT_LOWER_DIAG_COL = 9
POINTS_NODE_COORD = 1
POINTS_DISPLAY_DATA = 2
DISTANCE_EUC_2D = 1
DISTANCE_CEIL_2D = 2
DISTANCE_MAN_2D = 3
DISTANCE_MAX_2D = 4
DISTANCE_ATT = 5
DISTANCE_EUC_3D = 6
DISTANCE_MAN_3D = 7
DISTANCE_MAX_3D = 8
FORM_FOUND = 0
FORM_TOUR = 1
FORM_JSON = 2
FORM_OR_TOOLS = 3
FORM_CVRPLIB = 4
FORM_LKH = 5
FORM_R = 6
FORM_CONCORDE_EDGES = 7
FORM_CONCORDE = 8
FORM_TABLE = 9
FORM_LIST = 10
FIRST_FOUND = 0
FIRST_0 = 1
FIRST_1 = 2
TYPE_TSP = 1
TYPE_ATSP = 2
TYPE_CVRP = 3
OF_SHOW = 0
OF_CONVERT = 1
OF_CHECK = 2
OF_BOUND = 3
TOUR = 1
ROUTES = 2
REJECTED = 3
BOUND = 4
NO_TOUR = 5


class tsp_result(Structure):
    _fields_ = [
        ("kind", c_uint32),
        ("nodes", c_uint32),
        ("verdict", c_uint32),
        ("reason", c_uint32),
        ("first", c_int64),
        ("second", c_int64),
        ("length", c_int64),
        ("bound_high", c_int64),
        ("bound_low", c_uint64),
        ("least", c_uint64),
        ("has_bound", c_uint32),
        ("routes", c_uint32),
        ("fault", c_uint32),
        ("file", c_uint32),
        ("line", c_uint32),
        ("word", c_uint32),
        ("number", c_uint32),
        ("field", c_uint32),
    ]


class tsp_instance(Structure):
    _fields_ = [
        ("is_open", c_bool),
        ("at", c_void_p),
    ]


# The result and the parameters of each call.
CALLS: Dict[str, Tuple[Any, List[Any]]] = {
    "tsp_check": (c_uint32, [c_char_p, c_size_t, c_char_p, c_size_t, c_char_p, c_size_t, c_uint32, c_int64, c_uint32, c_void_p, c_size_t,
        POINTER(c_size_t)]),
    "tsp_bound": (c_uint32, [c_char_p, c_size_t, c_char_p, c_size_t, c_uint32, c_void_p, c_size_t, POINTER(c_size_t)]),
    "tsp_show": (c_uint32, [c_char_p, c_size_t, c_void_p, c_size_t, POINTER(c_size_t)]),
    "tsp_convert": (c_uint32, [c_char_p, c_size_t, c_uint32, c_void_p, c_size_t, POINTER(c_size_t)]),
    "tsp_solution": (c_uint32, [c_char_p, c_size_t, c_char_p, c_size_t, c_uint32, c_uint32, c_uint32, c_void_p, c_size_t,
        POINTER(c_size_t)]),
    "tsp_explain": (c_uint32, [c_uint32, c_char_p, c_size_t, c_char_p, c_size_t, c_char_p, c_size_t, c_char_p, c_size_t, c_uint32, c_int64,
        c_uint32, c_void_p, c_size_t, POINTER(c_size_t)]),
    "tsp_count": (c_uint32, [c_char_p, c_size_t, POINTER(c_uint32)]),
    "tsp_points": (c_uint32, [c_char_p, c_size_t, c_uint32, c_void_p, c_size_t]),
    "tsp_weights": (c_uint32, [c_char_p, c_size_t, c_void_p, c_size_t, c_void_p, c_size_t]),
    "tsp_matrix": (c_uint32, [c_char_p, c_size_t, c_uint32, c_void_p, c_size_t]),
    "tsp_lengths": (c_uint32, [c_char_p, c_size_t, c_void_p, c_size_t, c_void_p, c_size_t]),
    "tsp_distance": (c_int64, [c_uint32, c_int64, c_int64, c_int64, c_int64, c_int64, c_int64]),
    "tsp_check_result": (c_uint32, [c_char_p, c_size_t, c_char_p, c_size_t, c_char_p, c_size_t, c_uint32, c_int64, c_uint32,
        POINTER(tsp_result), c_void_p, c_size_t, POINTER(c_size_t)]),
    "tsp_bound_result": (c_uint32, [c_char_p, c_size_t, c_char_p, c_size_t, c_uint32, POINTER(tsp_result), c_void_p, c_size_t,
        POINTER(c_size_t)]),
    "tsp_open": (c_uint32, [c_char_p, c_size_t, POINTER(tsp_instance), POINTER(tsp_result)]),
    "tsp_close": (None, [POINTER(tsp_instance)]),
    "tsp_bind": (c_uint32, [POINTER(tsp_instance), c_char_p, c_size_t, c_uint32, POINTER(tsp_result)]),
    "tsp_instance_check": (c_uint32, [POINTER(tsp_instance), c_char_p, c_size_t, c_int64, c_uint32, POINTER(tsp_result), c_void_p, c_size_t,
        POINTER(c_size_t)]),
    "tsp_instance_count": (c_uint32, [POINTER(tsp_instance), POINTER(c_uint32)]),
    "tsp_instance_points": (c_uint32, [POINTER(tsp_instance), c_uint32, c_void_p, c_size_t]),
    "tsp_instance_weights": (c_uint32, [POINTER(tsp_instance), c_void_p, c_size_t, c_void_p, c_size_t]),
    "tsp_instance_matrix": (c_uint32, [POINTER(tsp_instance), c_uint32, c_void_p, c_size_t]),
    "tsp_instance_lengths": (c_uint32, [POINTER(tsp_instance), c_void_p, c_size_t, c_void_p, c_size_t]),
    "tsp_version": (c_uint32, []),
}

# What each fault of another program's solution means.
SENTENCES: Dict[str, str] = {
    "NoForm": "The text has none of the forms that tsp solution --forms prints.",
    "Ambiguous": "The numbers can be read in two ways. Name the instance with --of, the form with --form,\nor with --first 0 or 1 whether the numbers are customers or nodes.",
    "NoInstance": "Routes of LKH-3 are read if you name their instance with --of.",
    "NotATour": "The file has another TYPE than TOUR.",
    "NotAnInstance": "The file that --of names is no instance: its TYPE isn't TSP, ATSP or CVRP.",
    "NotANode": "The word isn't the number of a node or a customer.",
    "OutOfRange": "The number is larger than that of any node.",
    "TooManyNodes": "A file of TYPE TOUR has at most 1,000,000 nodes, from 1 to 100,000.",
    "NoNodes": "There are no nodes.",
    "UnknownLine": "The line is no route. Besides routes, a file may have a cost, comments with #, and lines NAME: VALUE.",
    "NotClosed": "A walk begins and ends at the depot, and all walks at the same one.",
    "WrongCount": "There are more or fewer lines or nodes than the first line says.",
    "NotTwoEdges": "In a tour each node has two edges, and this is the node's third.",
    "SeveralCycles": "The edges are more than one cycle.",
    "TooManyColumns": "A table has a column of nodes, and at most one more, of their positions.",
    "NoDepot": "No number is the depot or a copy of it.",
    "BadJson": "The text isn't JSON from here on.",
    "TooDeep": "Values of JSON are nested at most 64 deep.",
    "NoList": "The JSON has no list of nodes or routes.",
    "SeveralLists": "The JSON has a second list, so that it isn't clear which one is the solution.",
}

# Each reason by its number, with how many numbers it has.
REASONS: Dict[int, Tuple[str, int]] = {
    1: ("NotASolution", 0),
    2: ("TooFewNodes", 0),
    3: ("NotSymmetric", 2),
    4: ("Dimension", 0),
    5: ("TourCount", 0),
    6: ("TourLength", 0),
    7: ("DepotCount", 0),
    8: ("DepotDemand", 0),
    9: ("FixedEdgesInRoutes", 0),
    10: ("DepotInRoute", 1),
    11: ("NodeOutOfRange", 1),
    12: ("RepeatedNode", 1),
    13: ("FixedEdgeUnused", 1),
    14: ("Unserved", 1),
    15: ("Overload", 1),
    16: ("LengthClaimed", 1),
    17: ("NotPotentials", 0),
    18: ("PotentialsDimension", 0),
    19: ("PotentialsKind", 0),
    20: ("MultiplierNotFixed", 1),
    21: ("MultiplierRepeated", 1),
    22: ("DualInfeasible", 2),
    23: ("NotBranches", 0),
    24: ("BranchesDimension", 0),
    25: ("BadComb", 1),
    31: ("BadMemory", 1),
    32: ("BadRow", 1),
    26: ("BadBranch", 1),
    27: ("BranchTwice", 1),
    28: ("BadLeaf", 1),
    29: ("TooManyLoads", 0),
    33: ("TooManyStates", 1),
    30: ("NotJudged", 0),
    34: ("NotUsed", 0),
}


class Reason(str, Enum):
    """Why a solution is rejected, or a certificate shows nothing; docs/format.md says when. `Report.reason` is
    its text: `report.reason == Reason.REPEATED_NODE`."""

    NOT_A_SOLUTION = "NotASolution"
    TOO_FEW_NODES = "TooFewNodes"
    NOT_SYMMETRIC = "NotSymmetric"
    DIMENSION = "Dimension"
    TOUR_COUNT = "TourCount"
    TOUR_LENGTH = "TourLength"
    DEPOT_COUNT = "DepotCount"
    DEPOT_DEMAND = "DepotDemand"
    FIXED_EDGES_IN_ROUTES = "FixedEdgesInRoutes"
    DEPOT_IN_ROUTE = "DepotInRoute"
    NODE_OUT_OF_RANGE = "NodeOutOfRange"
    REPEATED_NODE = "RepeatedNode"
    FIXED_EDGE_UNUSED = "FixedEdgeUnused"
    UNSERVED = "Unserved"
    OVERLOAD = "Overload"
    LENGTH_CLAIMED = "LengthClaimed"
    NOT_POTENTIALS = "NotPotentials"
    POTENTIALS_DIMENSION = "PotentialsDimension"
    POTENTIALS_KIND = "PotentialsKind"
    MULTIPLIER_NOT_FIXED = "MultiplierNotFixed"
    MULTIPLIER_REPEATED = "MultiplierRepeated"
    DUAL_INFEASIBLE = "DualInfeasible"
    NOT_BRANCHES = "NotBranches"
    BRANCHES_DIMENSION = "BranchesDimension"
    BAD_COMB = "BadComb"
    BAD_MEMORY = "BadMemory"
    BAD_ROW = "BadRow"
    BAD_BRANCH = "BadBranch"
    BRANCH_TWICE = "BranchTwice"
    BAD_LEAF = "BadLeaf"
    TOO_MANY_LOADS = "TooManyLoads"
    TOO_MANY_STATES = "TooManyStates"
    NOT_JUDGED = "NotJudged"
    NOT_USED = "NotUsed"
