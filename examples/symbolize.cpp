// symbolize FILE ADDRESS ..: the place in the source of each address, as DIRECTORY/NAME:LINE.
#include <dwtool_file.h>

#include <iostream>
#include <memory>
#include <string>
#include <vector>

namespace {

// A place as a line of text.
std::string line_of(const dwtool_place &place, const std::vector<std::uint8_t> &names) {
  if (place.found == DWTOOL_NO_PLACE) return "??:0";
  if (place.found == DWTOOL_NO_NAME) return "??:" + std::to_string(place.line);
  const auto start = names.begin() + static_cast<std::ptrdiff_t>(place.start);
  const auto behind = start + static_cast<std::ptrdiff_t>(place.directory_size);
  const std::string directory(start, behind);
  const std::string name(behind, behind + static_cast<std::ptrdiff_t>(place.name_size));
  const bool alone = directory.empty() || (!name.empty() && name[0] == '/');
  return (alone ? name : directory + "/" + name) + ":" + std::to_string(place.line);
}

} // namespace

int main(int argc, char **argv) {
  if (argc < 3) {
    std::cerr << "symbolize FILE ADDRESS ..\n";
    return 2;
  }
  const std::unique_ptr<dwtool_file, decltype(&dwtool_close)> file(dwtool_open(argv[1]), dwtool_close);
  if (!file) {
    std::cerr << argv[1] << ": cannot be read\n";
    return 3;
  }
  std::vector<std::uint64_t> addresses;
  for (int i = 2; i < argc; i++) addresses.push_back(std::stoull(argv[i], nullptr, 0));
  std::vector<dwtool_place> places(addresses.size());
  std::vector<std::uint8_t> names(1 << 16);
  std::size_t count = 0, size = 0;
  dwtool_refusal refusal{};
  std::uint8_t status = DWTOOL_DONE;
  for (;;) {
    status = dwtool_places(dwtool_bytes(file.get()), dwtool_size(file.get()), addresses.data(), addresses.size(),
                           places.data(), places.size(), &count, names.data(), names.size(), &size, &refusal);
    if (size <= names.size()) break;
    names.resize(size);
  }
  char line[DWTOOL_LINE_ROOM];
  dwtool_line_of(status, &refusal, line);
  std::cerr << line;
  for (std::size_t i = 0; i < count; i++) std::cout << line_of(places[i], names) << '\n';
  return status;
}
