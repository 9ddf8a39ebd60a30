#include "reading/tsp_program.h"

#include <fcntl.h>
#include <sys/wait.h>
#include <unistd.h>

#include <algorithm>
#include <cctype>
#include <cerrno>
#include <cstdlib>
#include <cstring>
#include <filesystem>
#include <fstream>
#include <sstream>

#include "running/refusal.h"

namespace certify {
namespace fs = std::filesystem;
namespace {
bool runnable(const fs::path& path) {
  std::error_code error;
  return fs::is_regular_file(path, error) && access(path.c_str(), X_OK) == 0;
}

[[noreturn]] void run_child(int output, const std::vector<std::string>& words, bool with_errors) {
  dup2(output, STDOUT_FILENO);
  close(output);
  if (with_errors) dup2(STDOUT_FILENO, STDERR_FILENO);
  std::vector<char*> pointers;
  pointers.reserve(words.size() + 1);
  for (const std::string& word : words) pointers.push_back(const_cast<char*>(word.c_str()));
  pointers.push_back(nullptr);
  execv(pointers[0], pointers.data());
  _exit(127);
}

// The file that a name without a slash means.
std::optional<std::string> on_path(const std::string& name) {
  const char* path = std::getenv("PATH");
  std::istringstream folders(path == nullptr ? "" : path);
  for (std::string folder; std::getline(folders, folder, ':');) {
    if (!folder.empty() && runnable(fs::path(folder) / name)) return fs::path(folder) / name;
  }
  return std::nullopt;
}

// The program tsp in the folder of this one. Where a release is installed, its file PROGRAM has the name.
std::optional<std::string> beside(const fs::path& folder) {
  const fs::path installed = folder / "../share/yokecairn";
  std::ifstream file(installed / "PROGRAM");
  std::string name;
  if (std::getline(file, name) && runnable(installed / name)) return (installed / name).lexically_normal();
  if (runnable(folder / "tsp")) return folder / "tsp";
  return std::nullopt;
}

std::string place_of_tsp(const std::optional<std::string>& named) {
  if (named && named->find('/') != std::string::npos) {
    if (runnable(*named)) return *named;
    throw Refusal(*named + ": there is no program of this name");
  }
  std::error_code error;
  const fs::path own = fs::read_symlink("/proc/self/exe", error);
  const auto at = [&](const char* place) { return own.parent_path() / place; };
  if (const auto found = beside(own.parent_path()); found && !named && !error) return *found;
  const std::optional<std::string> found = on_path(named.value_or("tsp"));
  if (found) return *found;
  if (named) throw Refusal(*named + ": there is no program of this name on PATH; a path to it has a slash");
  for (const char* place : {"../tsp", "../../tsp"}) {
    if (!error && runnable(at(place))) return at(place).lexically_normal();
  }
  throw Refusal("the program tsp is needed: name it by --tsp, or put it on PATH");
}

// Whether a file has EDGE_WEIGHT_TYPE GEO, which the program tsp doesn't read.
bool is_geographic(const std::string& path) {
  std::ifstream file(path);
  for (std::string line; std::getline(file, line);) {
    if (line.find("EDGE_WEIGHT_TYPE") != std::string::npos) return line.find("GEO") != std::string::npos;
    if (line.find("_SECTION") != std::string::npos) return false;
  }
  return false;
}
}  // namespace

Output output_of(const std::vector<std::string>& words, bool with_errors) {
  int ends[2];
  if (pipe(ends) != 0) throw Refusal("no pipe to the program tsp");
  const pid_t child = fork();
  if (child < 0) throw Refusal("the program tsp can't be started");
  if (child == 0) {
    close(ends[0]);
    run_child(ends[1], words, with_errors);
  }
  close(ends[1]);
  std::string text;
  char piece[65536];
  for (ssize_t size = 0; (size = read(ends[0], piece, sizeof piece)) > 0;) {
    text.append(piece, static_cast<std::size_t>(size));
  }
  close(ends[0]);
  int status = 0;
  while (waitpid(child, &status, 0) < 0 && errno == EINTR) continue;
  return {text, WIFEXITED(status) && WEXITSTATUS(status) == 0};
}

void refuse_unreadable(const std::string& path) {
  std::error_code error;
  if (path == "-" || (fs::exists(path, error) && !fs::is_regular_file(path, error))) return;
  const int file = open(path.c_str(), O_RDONLY | O_CLOEXEC);
  if (file < 0) throw Refusal("can't be opened: " + path + ": " + std::strerror(errno));
  close(file);
}

// Debian's task-spooler is called tsp too.
std::string find_tsp(const std::optional<std::string>& named) {
  std::string tsp = place_of_tsp(named);
  const std::string answer = output_of({tsp, "--version"}, true).text;
  if (answer.starts_with("tsp ") && answer.size() > 4 &&
      std::isdigit(static_cast<unsigned char>(answer[4])) != 0) {
    return tsp;
  }
  throw Refusal(tsp +
                ": this isn't Yokecairn's program tsp (task-spooler has the same name): name it by --tsp");
}

std::string call_of_tsp(const std::optional<std::string>& named) {
  if (named) return *named;
  const fs::path place = place_of_tsp(named);
  const std::optional<std::string> found = on_path(place.filename());
  std::error_code error;
  const bool is_on_path = found && fs::equivalent(*found, place, error);
  return is_on_path ? place.filename() : place;
}

std::string name_of_tsp() {
  try {
    return fs::path(place_of_tsp(std::nullopt)).filename();
  } catch (const Refusal&) {
    return "tsp";
  }
}

std::string command_of(const std::vector<std::string>& words) {
  const auto is_plain = [](char letter) {
    return std::isalnum(static_cast<unsigned char>(letter)) != 0 ||
           std::strchr("_@%+=:,./-", letter) != nullptr;
  };
  std::string command;
  for (const std::string& word : words) {
    if (!command.empty()) command += ' ';
    if (!word.empty() && std::all_of(word.begin(), word.end(), is_plain)) {
      command += word;
      continue;
    }
    command += '\'';
    for (const char letter : word) command += letter == '\'' ? std::string("'\\''") : std::string(1, letter);
    command += '\'';
  }
  return command;
}

std::string canonical_text(const std::string& tsp, const std::string& path,
                           const std::vector<std::string>& words) {
  refuse_unreadable(path);
  std::vector<std::string> all{tsp, "convert"};
  all.insert(all.end(), words.begin(), words.end());
  all.insert(all.end(), {"--", path});
  const Output output = output_of(all, false);
  if (!output.well) {
    const std::string way = is_geographic(path) ? ": the script examples/geo.py converts GEO" : "";
    throw Refusal(path + ": " + tsp + " convert doesn't read this file" + way);
  }
  return output.text;
}

std::string report_of(const std::string& tsp, const std::vector<std::string>& words) {
  std::vector<std::string> all{tsp};
  all.insert(all.end(), words.begin(), words.end());
  return output_of(all, false).text;
}
}  // namespace certify
