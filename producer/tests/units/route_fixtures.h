// Instances for routes, and all of their plans.
#pragma once
#include "fixtures.h"
#include "routes/cvrp.h"

// Nodes with costs of each direction, from low on.
certify::routes::CvrpInstance random_instance(int nodes, certify::Weight capacity, certify::Random& random,
                                              certify::Weight low = 0);
// The rectangle of 3 by 4 whose customers have the demand 4.
certify::routes::CvrpInstance rectangle(certify::Weight capacity);
std::vector<certify::routes::Routes> all_plans(const certify::routes::CvrpInstance& instance);
