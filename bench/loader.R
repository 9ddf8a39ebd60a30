# Lengths of tours by R and its package TSP: Rscript loader.R INSTANCE TOUR ..
#
# It reads what bench/compare makes. The package reads the instance, and sums a matrix; of points it would sum real
# distances, so rounded ones are summed here. TOUR() checks that a tour is one.
suppressMessages(library(TSP))

words <- commandArgs(trailingOnly = TRUE)
instance <- read_TSPLIB(words[1])

euclidean <- function(points, order) {
    ways <- points[order, ] - points[c(order[-1], order[1]), ]
    sum(floor(sqrt(rowSums(ways^2)) + 0.5))
}

nodes_of <- function(path) {
    listed <- scan(path, skip = 2, nlines = n_of_cities(instance), quiet = TRUE)
    TOUR(as.integer(listed))
}

for (path in words[-1]) {
    order <- nodes_of(path)
    length <- if (inherits(instance, "ETSP")) euclidean(instance, as.integer(order)) else tour_length(order, instance)
    cat(sprintf("%.0f %s\n", length, path))
}
