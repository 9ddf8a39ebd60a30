"""Solutions as objects of other packages: stand-ins with the shapes of PyVRP and OR-Tools, and the packages where they are
installed; networkx, lists and arrays."""

import unittest
from types import SimpleNamespace

import yokecairn
from support import EXAMPLES, RECTANGLE, needs

DAIRY = EXAMPLES / "dairy.vrp"  # nodes 2 to 8 are customers, and these routes have length 231
ROUTES = [[4, 5, 3, 6], [1, 7, 2]]
TOUR = [1, 2, 3, 4, 8, 5, 6, 7]  # of the harbour: 226


class PyVRPRoute:
    """As pyvrp.Route: it gives the locations that it visits, counted from 0 with the depot."""

    def __init__(self, visits, depot=0):
        self._visits, self._depot = visits, depot

    def __iter__(self):
        return iter(self._visits)

    def __len__(self):
        return len(self._visits)

    def visits(self):
        return self._visits

    def start_depot(self):
        return self._depot

    end_depot = start_depot


class PyVRPSolution:
    """As pyvrp.Solution."""

    def __init__(self, routes, depot=0):
        self._routes = [PyVRPRoute(route, depot) for route in routes]

    def routes(self):
        return self._routes

    def distance(self):
        return 231


class Manager:
    """As OR-Tools' RoutingIndexManager, whose index of node k isn't k: each vehicle has a start and an end of its own."""

    def __init__(self, nodes, vehicles, depot):
        self.nodes = [*range(nodes), *[depot] * (2 * vehicles)]

    def IndexToNode(self, index):
        return self.nodes[index]


class Model:
    """As OR-Tools' RoutingModel."""

    def __init__(self, nodes, walks):
        self.nodes, self.walks = nodes, walks
        self.next = {}
        for vehicle, walk in enumerate(walks):
            indices = [self.Start(vehicle), *walk, self.Start(vehicle) + 1]
            self.next.update(zip(indices, indices[1:]))

    def vehicles(self):
        return len(self.walks)

    def Start(self, vehicle):
        return self.nodes + 2 * vehicle

    def IsEnd(self, index):
        return index >= self.nodes and (index - self.nodes) % 2 == 1

    def NextVar(self, index):
        return ("next", index)


class Assignment:
    """As OR-Tools' Assignment."""

    def __init__(self, model):
        self.model = model

    def Value(self, variable):
        return self.model.next[variable[1]]


def ortools(nodes, walks, depot=0):
    model = Model(nodes, walks)
    return Manager(nodes, len(walks), depot), model, Assignment(model)


class Objects(unittest.TestCase):
    def length(self, instance, solution):
        report = yokecairn.check(instance, solution)
        return report.length if report.yes else report.detail

    def test_pyvrp(self):
        solution = PyVRPSolution(ROUTES)
        self.assertEqual(self.length(DAIRY, solution), 231)
        self.assertEqual(self.length(DAIRY, SimpleNamespace(best=solution, stats=None)), 231)
        self.assertEqual(self.length(DAIRY, PyVRPSolution(ROUTES[:1])), "Unserved 2")
        self.assertEqual(self.length(EXAMPLES / "harbour.tsp", PyVRPSolution([[node - 1 for node in TOUR[1:]]])), 226)
        self.assertEqual(yokecairn.compare(DAIRY, {"mine": solution})["mine"].length, 231)
        self.assertIsNone(yokecairn.check(DAIRY, solution).claimed)
        with self.assertRaisesRegex(ValueError, "the depot, and this at location 3"):
            yokecairn.check(DAIRY, PyVRPSolution(ROUTES, depot=3))

    def test_pyvrp_routes_without_visits(self):
        plain = SimpleNamespace(routes=lambda: ROUTES)
        self.assertEqual(self.length(DAIRY, plain), 231)

    def test_ortools(self):
        parts = ortools(8, [*ROUTES, []])
        self.assertEqual(self.length(DAIRY, parts), 231)
        self.assertEqual(self.length(DAIRY, list(parts[::-1])), 231)
        self.assertEqual(self.length(EXAMPLES / "harbour.tsp", ortools(8, [[node - 1 for node in TOUR[1:]]])), 226)
        self.assertEqual(self.length(DAIRY, ortools(8, [[4, 5, 3, 6, 1, 7, 2]])), "Overload 1")
        for given in (parts[1], parts[1:], (parts[0], parts[1])):
            with self.assertRaisesRegex(TypeError, "the manager, the model and its assignment"):
                yokecairn.check(DAIRY, given)
        with self.assertRaisesRegex(ValueError, "node 0, the depot, and this at 2 and 2"):
            yokecairn.check(DAIRY, ortools(8, ROUTES, depot=2))

    def test_lists(self):
        rectangle = RECTANGLE.encode()
        for nodes in ([1, 2, 3, 4], (1, 2, 3, 4, 1), [0, 1, 2, 3], [2, 3, 0, 1, 2], [[1, 2, 3, 4]], [[0, 1, 2, 3, 0]], range(1, 5), iter([1, 2, 3, 4])):
            self.assertEqual(self.length(rectangle, nodes), 14, nodes)
        self.assertEqual(self.length(rectangle, [1, 2, 2, 3]), "RepeatedNode 3")
        self.assertEqual(self.length(rectangle, [1, 2, 3, 1]), "TourLength")
        self.assertEqual(self.length(rectangle, []), "TourCount")
        of_nodes = [[node + 1 for node in route] for route in ROUTES]
        for routes in (of_nodes, [[1, *route, 1] for route in of_nodes], [[0, *route, 0] for route in ROUTES], [[0, *ROUTES[0], 0], [0, 0], [0, *ROUTES[1], 0]]):
            self.assertEqual(self.length(DAIRY, routes), 231, routes)
        for wrong in ([1, 2.5], ["1"], [[1, None]], [1, [2]]):
            with self.assertRaisesRegex(TypeError, "whole numbers"):
                yokecairn.check(rectangle, wrong)
        with self.assertRaisesRegex(TypeError, "an object of PyVRP, OR-Tools or networkx, and this is of type int"):
            yokecairn.check(rectangle, 5)

    @needs("numpy")
    def test_arrays(self):
        import numpy

        self.assertEqual(self.length(RECTANGLE.encode(), numpy.array([0, 1, 2, 3])), 14)
        self.assertEqual(self.length(RECTANGLE.encode(), numpy.array([[1, 2, 3, 4]], dtype="int32")), 14)
        self.assertEqual(self.length(DAIRY, [numpy.array(route) + 1 for route in ROUTES]), 231)
        with self.assertRaisesRegex(TypeError, "whole numbers"):
            yokecairn.check(RECTANGLE.encode(), numpy.array([1.0, 2.0]))

    @needs("networkx")
    def test_networkx(self):
        import networkx

        problem = yokecairn.load(EXAMPLES / "harbour.tsp")
        graph = problem.get_graph()
        found = networkx.approximation.traveling_salesman_problem(graph)  # a list that ends where it begins
        self.assertEqual((found[0], len(found)), (found[-1], 9))
        self.assertEqual(self.length(problem, found), problem.trace_tours([found[:-1]])[0])
        cycle = networkx.Graph()
        networkx.add_cycle(cycle, TOUR)
        self.assertEqual(self.length(problem, cycle), 226)
        self.assertEqual(self.length(problem, networkx.relabel_nodes(cycle, lambda node: node - 1)), 226)
        directed = networkx.DiGraph()
        networkx.add_cycle(directed, TOUR)
        self.assertEqual(self.length(problem, directed), 226)
        self.assertEqual(self.length(EXAMPLES / "three-node.atsp", networkx.cycle_graph(3, create_using=networkx.DiGraph)), 6)
        two = networkx.disjoint_union(networkx.cycle_graph(4), networkx.cycle_graph(4))
        for wrong, said in ((two, "more than one cycle"), (networkx.path_graph(8), "are no tour"), (networkx.Graph(), "are no tour"), (graph, "are no tour")):
            with self.assertRaisesRegex(ValueError, said):
                yokecairn.check(problem, wrong)

    @needs("pyvrp", in_debian=False)
    def test_real_pyvrp(self):
        import pyvrp
        import pyvrp.stop

        data = pyvrp.read(str(DAIRY), round_func="round")
        self.assertEqual(self.length(DAIRY, pyvrp.Solution(data, ROUTES)), 231)
        result = pyvrp.solve(data, stop=pyvrp.stop.MaxIterations(100), seed=1, display=False)
        self.assertEqual(self.length(DAIRY, result), result.best.distance())

    @needs("ortools", in_debian=False)
    def test_real_ortools(self):
        from ortools.constraint_solver import pywrapcp, routing_enums_pb2

        problem = yokecairn.load(EXAMPLES / "harbour.tsp")
        manager = pywrapcp.RoutingIndexManager(8, 1, 0)
        routing = pywrapcp.RoutingModel(manager)

        def cost(a, b):
            return problem.get_weight(manager.IndexToNode(a) + 1, manager.IndexToNode(b) + 1)

        routing.SetArcCostEvaluatorOfAllVehicles(routing.RegisterTransitCallback(cost))
        words = pywrapcp.DefaultRoutingSearchParameters()
        words.first_solution_strategy = routing_enums_pb2.FirstSolutionStrategy.PATH_CHEAPEST_ARC
        assignment = routing.SolveWithParameters(words)
        self.assertEqual(self.length(problem, (manager, routing, assignment)), assignment.ObjectiveValue())


if __name__ == "__main__":
    unittest.main()
