// Whole tasks by GEOS 3.11, from a GeoJSON file to a GeoJSON file; for bench/compare alone.
//
//   geos_tasks copy IN OUT
//   geos_tasks box IN OUT XMIN YMIN XMAX YMAX     areas within a box
//   geos_tasks layer IN OUT OTHER                 areas within the areas of another file
//   geos_tasks erase IN OUT OTHER                 areas without the areas of another file
//   geos_tasks inside IN OUT AREAS                points that lie in an area
//   geos_tasks dissolve IN OUT FIELD              one area for each value of a text field
//   geos_tasks dissolve-coverage IN OUT FIELD     the same, of areas that don't overlap and share their borders
//   geos_tasks unite IN OUT                       one area of all, in doubles
//   geos_tasks unite IN OUT SCALE                 one area of all, snap rounded to 1/SCALE
//   geos_tasks faces IN OUT SCALE                 the faces between all borders, snap rounded to 1/SCALE
//   geos_tasks place IN OUT AREAS FIELD           points with a text field of the first area that they lie in
//   geos_tasks count IN OUT POINTS FIELD          areas with the number of their points, and the first and the sum of a
//                                                 number field
//   geos_tasks overlay IN OUT OTHER               areas over other areas, with both rows: pairs, and the rest of each
#include <geos/geom/CoordinateArraySequence.h>
#include <geos/geom/Envelope.h>
#include <geos/geom/Geometry.h>
#include <geos/geom/GeometryFactory.h>
#include <geos/geom/LineString.h>
#include <geos/geom/Polygon.h>
#include <geos/geom/PrecisionModel.h>
#include <geos/geom/prep/PreparedGeometry.h>
#include <geos/geom/prep/PreparedGeometryFactory.h>
#include <geos/index/strtree/TemplateSTRtree.h>
#include <geos/io/GeoJSON.h>
#include <geos/io/GeoJSONReader.h>
#include <geos/io/GeoJSONWriter.h>
#include <geos/noding/NodedSegmentString.h>
#include <geos/noding/snapround/SnapRoundingNoder.h>
#include <geos/operation/overlayng/CoverageUnion.h>
#include <geos/operation/overlayng/OverlayNG.h>
#include <geos/operation/overlayng/OverlayNGRobust.h>
#include <geos/operation/overlayng/UnaryUnionNG.h>
#include <geos/operation/polygonize/Polygonizer.h>
#include <algorithm>
#include <fstream>
#include <iterator>
#include <map>
#include <memory>
#include <stdexcept>
#include <string>
#include <utility>
#include <vector>

using namespace geos::geom;
using geos::io::GeoJSONFeature;
using geos::io::GeoJSONFeatureCollection;
using geos::noding::NodedSegmentString;
using geos::noding::SegmentString;
using geos::operation::overlayng::CoverageUnion;
using geos::operation::overlayng::OverlayNG;
using geos::operation::overlayng::OverlayNGRobust;
using geos::operation::overlayng::UnaryUnionNG;
using Shape = std::unique_ptr<Geometry>;
using Row = std::map<std::string, geos::io::GeoJSONValue>;
using Link = std::pair<Coordinate, Coordinate>;

static const GeometryFactory* factory = GeometryFactory::getDefaultInstance();

static GeoJSONFeatureCollection read(const std::string& name) {
    std::ifstream in(name, std::ios::binary);
    return geos::io::GeoJSONReader().readFeatures(std::string(std::istreambuf_iterator<char>(in), {}));
}

static void write(const std::string& name, const GeoJSONFeatureCollection& layer) {
    std::ofstream(name, std::ios::binary) << geos::io::GeoJSONWriter().write(layer);
}

static void add_parts(std::vector<Shape>& shapes, const Geometry& g) {
    for (std::size_t i = 0; i < g.getNumGeometries(); i++) shapes.push_back(g.getGeometryN(i)->clone());
}

static Shape together(std::vector<Shape> shapes) {
    return factory->createGeometryCollection(std::move(shapes));
}

static Shape all_of(const GeoJSONFeatureCollection& layer) {
    std::vector<Shape> shapes;
    for (const auto& f : layer.getFeatures()) add_parts(shapes, *f.getGeometry());
    return together(std::move(shapes));
}

// What lies within a mask of each area, or without it.
static std::vector<GeoJSONFeature> cut(const GeoJSONFeatureCollection& layer, const Geometry& mask, bool is_within) {
    auto quick = prep::PreparedGeometryFactory::prepare(&mask);
    std::vector<GeoJSONFeature> kept;
    for (const auto& f : layer.getFeatures()) {
        const Geometry* g = f.getGeometry();
        bool meets = quick->intersects(g), is_covered = meets && quick->covers(g);
        if (is_within ? !meets : is_covered) continue;
        bool is_whole = is_within ? is_covered : !meets;
        int rule = is_within ? OverlayNG::INTERSECTION : OverlayNG::DIFFERENCE;
        Shape part = is_whole ? g->clone() : OverlayNGRobust::Overlay(g, &mask, rule);
        if (part->getArea() > 0) kept.emplace_back(std::move(part), f.getProperties());
    }
    return kept;
}

static std::vector<GeoJSONFeature> cut_by(const GeoJSONFeatureCollection& layer, const std::string& other, bool is_within) {
    Shape all = all_of(read(other));
    return cut(layer, *OverlayNGRobust::Union(all.get()), is_within);
}

static std::vector<GeoJSONFeature> dissolved(const GeoJSONFeatureCollection& layer, const std::string& field,
                                             bool is_coverage) {
    std::map<std::string, std::vector<Shape>> groups;
    for (const auto& f : layer.getFeatures()) add_parts(groups[f.getProperties().at(field).getString()], *f.getGeometry());
    std::vector<GeoJSONFeature> united;
    for (auto& group : groups) {
        Shape members = together(std::move(group.second));
        Row row;
        row.emplace(field, geos::io::GeoJSONValue(group.first));
        Shape all = is_coverage ? CoverageUnion::geomunion(members.get()) : OverlayNGRobust::Union(members.get());
        united.emplace_back(std::move(all), std::move(row));
    }
    return united;
}

static std::vector<GeoJSONFeature> one(Shape shape) {
    std::vector<GeoJSONFeature> features;
    features.emplace_back(std::move(shape), Row());
    return features;
}

static Shape united(const GeoJSONFeatureCollection& layer, double scale) {
    PrecisionModel grid(scale);
    return UnaryUnionNG::Union(all_of(layer).get(), grid);
}

static void add_ring(std::vector<std::unique_ptr<SegmentString>>& strings, const LinearRing* ring) {
    strings.emplace_back(new NodedSegmentString(ring->getCoordinatesRO()->clone().release(), nullptr));
}

// The borders of all areas.
static std::vector<std::unique_ptr<SegmentString>> borders(const GeoJSONFeatureCollection& layer) {
    std::vector<std::unique_ptr<SegmentString>> strings;
    for (const auto& f : layer.getFeatures())
        for (std::size_t i = 0; i < f.getGeometry()->getNumGeometries(); i++) {
            auto area = dynamic_cast<const Polygon*>(f.getGeometry()->getGeometryN(i));
            add_ring(strings, area->getExteriorRing());
            for (std::size_t k = 0; k < area->getNumInteriorRing(); k++) add_ring(strings, area->getInteriorRingN(k));
        }
    return strings;
}

// The steps between neighbours of snap rounded borders, each once.
static std::vector<Link> links(const std::vector<std::unique_ptr<SegmentString>>& strings, double scale) {
    PrecisionModel grid(scale);
    geos::noding::snapround::SnapRoundingNoder noder(&grid);
    std::vector<SegmentString*> all;
    for (const auto& string : strings) all.push_back(string.get());
    noder.computeNodes(&all);
    std::unique_ptr<std::vector<SegmentString*>> noded(noder.getNodedSubstrings());
    std::vector<Link> found;
    for (auto* string : *noded) {
        for (std::size_t i = 0; i + 1 < string->size(); i++) {
            Coordinate a = string->getCoordinate(i), b = string->getCoordinate(i + 1);
            if (b < a) std::swap(a, b);
            if (!a.equals2D(b)) found.emplace_back(a, b);
        }
        delete string;
    }
    std::sort(found.begin(), found.end());
    found.erase(std::unique(found.begin(), found.end()), found.end());
    return found;
}

static std::vector<GeoJSONFeature> faces(const GeoJSONFeatureCollection& layer, double scale) {
    std::vector<Shape> lines;
    for (const auto& link : links(borders(layer), scale)) {
        std::vector<Coordinate> ends{link.first, link.second};
        lines.push_back(factory->createLineString(std::make_unique<CoordinateArraySequence>(std::move(ends))));
    }
    geos::operation::polygonize::Polygonizer polygonizer;
    for (const auto& line : lines) polygonizer.add(static_cast<const Geometry*>(line.get()));
    std::vector<GeoJSONFeature> all;
    for (auto& face : polygonizer.getPolygons()) all.emplace_back(std::move(face), Row());
    return all;
}

// Areas by their boxes, each prepared for many questions.
struct Index {
    const std::vector<GeoJSONFeature>& areas;
    std::vector<std::unique_ptr<prep::PreparedGeometry>> quick;
    geos::index::strtree::TemplateSTRtree<std::size_t> tree;

    explicit Index(const std::vector<GeoJSONFeature>& areas) : areas(areas) {
        for (std::size_t i = 0; i < areas.size(); i++) {
            tree.insert(*areas[i].getGeometry()->getEnvelopeInternal(), i);
            quick.push_back(prep::PreparedGeometryFactory::prepare(areas[i].getGeometry()));
        }
    }

    // The areas that meet a shape, in order.
    std::vector<std::size_t> meeting(const Geometry* g) {
        std::vector<std::size_t> near, met;
        tree.query(*g->getEnvelopeInternal(), near);
        std::sort(near.begin(), near.end());
        std::copy_if(near.begin(), near.end(), std::back_inserter(met), [&](std::size_t i) { return quick[i]->intersects(g); });
        return met;
    }
};

static std::vector<GeoJSONFeature> placed(const GeoJSONFeatureCollection& points, const GeoJSONFeatureCollection& areas,
                                          const std::string& field) {
    Index index(areas.getFeatures());
    std::vector<GeoJSONFeature> all;
    for (const auto& f : points.getFeatures()) {
        Row row = f.getProperties();
        auto met = index.meeting(f.getGeometry());
        if (!met.empty()) row.emplace(field, index.areas[met[0]].getProperties().at(field));
        all.emplace_back(f.getGeometry()->clone(), std::move(row));
    }
    return all;
}

static std::vector<GeoJSONFeature> inside(const GeoJSONFeatureCollection& points, const GeoJSONFeatureCollection& areas) {
    Index index(areas.getFeatures());
    std::vector<GeoJSONFeature> kept;
    for (const auto& f : points.getFeatures())
        if (!index.meeting(f.getGeometry()).empty()) kept.push_back(f);
    return kept;
}

static std::vector<GeoJSONFeature> counted(const GeoJSONFeatureCollection& areas, const GeoJSONFeatureCollection& points,
                                           const std::string& field) {
    Index index(areas.getFeatures());
    std::vector<double> counts(index.areas.size()), sums(index.areas.size()), firsts(index.areas.size());
    for (const auto& f : points.getFeatures())
        for (std::size_t i : index.meeting(f.getGeometry())) {
            double value = f.getProperties().at(field).getNumber();
            if (counts[i] == 0) firsts[i] = value;
            counts[i]++;
            sums[i] += value;
        }
    std::vector<GeoJSONFeature> all;
    for (std::size_t i = 0; i < counts.size(); i++) {
        Row row = index.areas[i].getProperties();
        if (counts[i] > 0) row.emplace(field, geos::io::GeoJSONValue(firsts[i]));
        row.emplace("n", geos::io::GeoJSONValue(counts[i]));
        row.emplace("t", geos::io::GeoJSONValue(sums[i]));
        all.emplace_back(index.areas[i].getGeometry()->clone(), std::move(row));
    }
    return all;
}

static void add_area(std::vector<GeoJSONFeature>& to, Shape part, Row row) {
    if (part->getArea() > 0) to.emplace_back(std::move(part), std::move(row));
}

// A shape without the areas that meet it.
static Shape rest(const Geometry* g, Index& others, const std::vector<std::size_t>& met) {
    if (met.empty()) return g->clone();
    std::vector<Shape> shapes;
    for (std::size_t i : met) add_parts(shapes, *others.areas[i].getGeometry());
    Shape taken = OverlayNGRobust::Union(together(std::move(shapes)).get());
    return OverlayNGRobust::Overlay(g, taken.get(), OverlayNG::DIFFERENCE);
}

static std::vector<GeoJSONFeature> overlaid(const GeoJSONFeatureCollection& layer, const GeoJSONFeatureCollection& other) {
    Index first(layer.getFeatures()), second(other.getFeatures());
    std::vector<GeoJSONFeature> all;
    for (const auto& f : first.areas) {
        auto met = second.meeting(f.getGeometry());
        for (std::size_t i : met) {
            Row row = f.getProperties();
            for (const auto& cell : second.areas[i].getProperties()) row.emplace(cell.first + "_2", cell.second);
            const Geometry* g = second.areas[i].getGeometry();
            add_area(all, OverlayNGRobust::Overlay(f.getGeometry(), g, OverlayNG::INTERSECTION), std::move(row));
        }
        add_area(all, rest(f.getGeometry(), second, met), f.getProperties());
    }
    for (const auto& f : second.areas) {
        Row row;
        for (const auto& cell : f.getProperties()) row.emplace(cell.first + "_2", cell.second);
        add_area(all, rest(f.getGeometry(), first, first.meeting(f.getGeometry())), std::move(row));
    }
    return all;
}

static std::vector<GeoJSONFeature> answer(const GeoJSONFeatureCollection& layer, int count, char** words) {
    std::string task = words[1];
    if (task == "box" && count == 8) {
        Envelope area(std::stod(words[4]), std::stod(words[6]), std::stod(words[5]), std::stod(words[7]));
        return cut(layer, *factory->toGeometry(&area), true);
    }
    if (task == "unite" && count == 4) return one(OverlayNGRobust::Union(all_of(layer).get()));
    if (task == "unite" && count == 5) return one(united(layer, std::stod(words[4])));
    if (task == "faces" && count == 5) return faces(layer, std::stod(words[4]));
    if (task == "layer" && count == 5) return cut_by(layer, words[4], true);
    if (task == "erase" && count == 5) return cut_by(layer, words[4], false);
    if (task == "inside" && count == 5) return inside(layer, read(words[4]));
    if (task == "dissolve" && count == 5) return dissolved(layer, words[4], false);
    if (task == "dissolve-coverage" && count == 5) return dissolved(layer, words[4], true);
    if (task == "place" && count == 6) return placed(layer, read(words[4]), words[5]);
    if (task == "count" && count == 6) return counted(layer, read(words[4]), words[5]);
    if (task == "overlay" && count == 5) return overlaid(layer, read(words[4]));
    throw std::invalid_argument(task);
}

int main(int count, char** words) {
    if (count < 4) return 2;
    auto layer = read(words[2]);
    write(words[3], words[1] == std::string("copy") ? layer : GeoJSONFeatureCollection(answer(layer, count, words)));
    return 0;
}
