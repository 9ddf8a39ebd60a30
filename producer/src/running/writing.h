// Writes files whole, or throws Refusal.
#pragma once
#include <optional>
#include <string>
#include <vector>

#include "graphs/tour.h"

namespace certify {
void write_text(const std::string& path, const std::string& text);
// A file of TYPE TOUR. docs/format.md says what is in it.
void write_tour(const std::string& path, const Tour& tour);
// Whether both paths lead to one file. Devices may be named twice.
bool same_file(const std::string& one, const std::string& other);
// Throws Refusal where a file that is written is one that is read, or is written twice.
void refuse_overwriting(std::vector<std::string> read,
                        const std::vector<std::optional<std::string>>& written);
// Throws Refusal where a file can't be written: before the search for what goes into it.
void refuse_unwritable(const std::vector<std::optional<std::string>>& written);
}  // namespace certify
