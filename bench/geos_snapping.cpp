// Snap rounding of segments by GEOS (libgeos++-dev), timed without reading and printing.
//
// Reads segments, "x y x y" a line, from the file that is named or from standard input, and prints on standard error
// "micros N" and the number of links. GEOS takes another pixel at some corners, so its links are not compared.
#include <chrono>
#include <cstdio>
#include <fstream>
#include <iostream>
#include <memory>
#include <set>
#include <utility>
#include <vector>

#include <geos/geom/Coordinate.h>
#include <geos/geom/CoordinateArraySequence.h>
#include <geos/geom/PrecisionModel.h>
#include <geos/noding/NodedSegmentString.h>
#include <geos/noding/snapround/SnapRoundingNoder.h>

using geos::geom::Coordinate;
using geos::geom::CoordinateArraySequence;
using geos::noding::NodedSegmentString;
using geos::noding::SegmentString;

int main(int count, char** words) {
  std::ifstream file;
  if (count > 1) file.open(words[1]);
  std::istream& in = count > 1 ? file : std::cin;
  std::vector<std::unique_ptr<NodedSegmentString>> kept;
  std::vector<SegmentString*> strings;
  for (double ax, ay, bx, by; in >> ax >> ay >> bx >> by;) {
    auto points = new CoordinateArraySequence();
    points->add(Coordinate(ax, ay));
    points->add(Coordinate(bx, by));
    kept.emplace_back(new NodedSegmentString(points, nullptr));
    strings.push_back(kept.back().get());
  }
  geos::geom::PrecisionModel whole(1.0);
  auto start = std::chrono::steady_clock::now();
  geos::noding::snapround::SnapRoundingNoder noder(&whole);
  noder.computeNodes(&strings);
  std::unique_ptr<std::vector<SegmentString*>> noded(noder.getNodedSubstrings());
  std::set<std::pair<Coordinate, Coordinate>> links;
  for (auto* string : *noded) {
    for (std::size_t i = 0; i + 1 < string->size(); ++i) {
      Coordinate a = string->getCoordinate(i), b = string->getCoordinate(i + 1);
      if (b < a) std::swap(a, b);
      if (a.x != b.x || a.y != b.y) links.emplace(a, b);
    }
  }
  auto took = std::chrono::steady_clock::now() - start;
  for (auto* string : *noded) delete string;
  std::fprintf(stderr, "micros %lld links %zu\n",
               static_cast<long long>(std::chrono::duration_cast<std::chrono::microseconds>(took).count()), links.size());
}
