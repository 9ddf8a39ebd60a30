// Catch2 2 brings its own main this way; Catch2 3 as a library.
#define CATCH_CONFIG_MAIN
#include <catch2/catch.hpp>
