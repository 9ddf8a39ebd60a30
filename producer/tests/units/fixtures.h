// Tests of single parts, against results worked out by hand or by trying all cases.
#pragma once
#if __has_include(<catch2/catch_all.hpp>)
#include <catch2/catch_all.hpp>
#else
#include <catch2/catch.hpp>
#endif

#include "graphs/tour.h"
#include "points/problem.h"
#include "running/random.h"
#include "spanning/exact_tree.h"

// Symmetric weights from 0 to 999.
certify::Matrix random_matrix(int nodes, certify::Random& random);
// The same where each direction has its own.
certify::Matrix random_arcs(int nodes, certify::Random& random);
// The length of a shortest tour, by all orders.
certify::Weight shortest(const certify::Matrix& weights);
// Points with whole coordinates from 0 on, below the side.
potentials::Points random_points(int nodes, int axes, potentials::Metric metric, certify::Random& random,
                                 int side = 1000);
potentials::Points points_in_plane(int nodes, certify::Random& random);
// The nodes in the order of their numbers.
certify::Tour in_order(int nodes);
// The least weight of a 1-tree under cost(i, j) + p(i) + p(j) + the surcharge, with all fixed edges in it, by
// Prim's method.
double least_tree(const potentials::Problem& problem, const std::vector<double>& numbers,
                  const potentials::PairSurcharges& surcharges);
