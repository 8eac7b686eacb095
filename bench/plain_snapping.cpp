// A plain reference for snap rounding, to time `snap` beside it and to compare the links.
//
// Reads segments from a file, a line "x y x y" each, and
//  1. finds all crossings in a uniform grid of cells, exactly in 128 bits, and rounds them half up;
//  2. takes each segment's chain of hot pixels, half-open squares of side 1, column by column;
//  3. sorts the links and drops repeats.
// Prints the links, a line each, and on standard error the microseconds without reading and printing.
// g++ -O2 -std=c++17 plain_snapping.cpp -o plain_snapping; plain_snapping FILE
#include <algorithm>
#include <chrono>
#include <cstdint>
#include <cstdio>
#include <cstdlib>
#include <unordered_map>
#include <vector>
using namespace std;
typedef long long Num;
typedef __int128 Wide;

struct Point {
    Num x, y;
    bool operator<(const Point& o) const { return x != o.x ? x < o.x : y < o.y; }
    bool operator==(const Point& o) const { return x == o.x && y == o.y; }
};
struct Segment {
    Point a, b;
    bool operator<(const Segment& o) const { return a == o.a ? b < o.b : a < o.a; }
    bool operator==(const Segment& o) const { return a == o.a && b == o.b; }
};

template <class T> static T floor_div(T a, T b) {
    if (b < 0) a = -a, b = -b;
    T q = a / b;
    return a % b < 0 ? q - 1 : q;
}

// A bound n / d on the share of the way, d above 0.
struct Bound { Wide n, d; bool open; };
static int compare(const Bound& a, const Bound& b) {
    Wide l = a.n * b.d, r = b.n * a.d;
    return l < r ? -1 : l > r;
}

// Narrows the shares t to those with a + t d from low to below high.
static bool narrow(Num a, Num d, Num low, Num high, Bound& from, Bound& to) {
    if (d == 0) return a >= low && a < high;
    Bound p, q;
    if (d > 0) p = {low - a, d, false}, q = {high - a, d, true};
    else p = {a - high, -d, true}, q = {a - low, -d, false};
    int c = compare(p, from);
    if (c > 0 || (c == 0 && p.open)) from = p;
    c = compare(q, to);
    if (c < 0 || (c == 0 && q.open)) to = q;
    return true;
}

static bool meets(const Segment& s, const Point& c) {
    Bound from{0, 1, false}, to{1, 1, false};
    if (!narrow(2 * s.a.x, 2 * (s.b.x - s.a.x), 2 * c.x - 1, 2 * c.x + 1, from, to)) return false;
    if (!narrow(2 * s.a.y, 2 * (s.b.y - s.a.y), 2 * c.y - 1, 2 * c.y + 1, from, to)) return false;
    int k = compare(from, to);
    return k < 0 || (k == 0 && !from.open && !to.open);
}

// The pixel of the crossing of two segments, where they cross in this cell.
static void add_crossing(const Segment& a, const Segment& b, Num cell, Num cx, Num cy, vector<Point>& hot) {
    if (a.b.x < b.a.x || b.b.x < a.a.x) return;
    if (max(a.a.y, a.b.y) < min(b.a.y, b.b.y) || max(b.a.y, b.b.y) < min(a.a.y, a.b.y)) return;
    Wide dx = a.b.x - a.a.x, dy = a.b.y - a.a.y, ex = b.b.x - b.a.x, ey = b.b.y - b.a.y;
    Wide wx = b.a.x - a.a.x, wy = b.a.y - a.a.y, den = dx * ey - dy * ex;
    if (den == 0) return;
    Wide t = wx * ey - wy * ex, u = wx * dy - wy * dx;
    if (den < 0) den = -den, t = -t, u = -u;
    if (t < 0 || t > den || u < 0 || u > den) return;
    Wide x = a.a.x * den + t * dx, y = a.a.y * den + t * dy;
    if (floor_div<Wide>(x, den * cell) != cx || floor_div<Wide>(y, den * cell) != cy) return;
    hot.push_back({(Num)floor_div<Wide>(2 * x + den, 2 * den), (Num)floor_div<Wide>(2 * y + den, 2 * den)});
}

static vector<Point> hot_points(const vector<Segment>& segments) {
    vector<Segment> each(segments);
    for (auto& s : each) if (s.b < s.a) swap(s.a, s.b);
    sort(each.begin(), each.end());
    each.erase(unique(each.begin(), each.end()), each.end());
    double length = 0;
    for (auto& s : each) length += max(llabs(s.b.x - s.a.x), llabs(s.b.y - s.a.y));
    Num cell = max<Num>(1, (Num)(length / each.size()));
    vector<pair<uint64_t, int>> cells;
    for (int i = 0; i < (int)each.size(); i++) {
        auto& s = each[i];
        Num x0 = floor_div(s.a.x, cell), x1 = floor_div(s.b.x, cell);
        Num y0 = floor_div(min(s.a.y, s.b.y), cell), y1 = floor_div(max(s.a.y, s.b.y), cell);
        for (Num x = x0; x <= x1; x++)
            for (Num y = y0; y <= y1; y++)
                cells.push_back({(uint64_t)(x + (1ll << 31)) << 32 | (uint32_t)(y + (1ll << 30)), i});
    }
    sort(cells.begin(), cells.end());
    vector<Point> hot;
    for (auto& s : each) hot.push_back(s.a), hot.push_back(s.b);
    for (size_t i = 0; i < cells.size();) {
        size_t j = i;
        while (j < cells.size() && cells[j].first == cells[i].first) j++;
        Num cx = (Num)(cells[i].first >> 32) - (1ll << 31), cy = (Num)(uint32_t)cells[i].first - (1ll << 30);
        for (size_t u = i; u < j; u++)
            for (size_t v = i; v < u; v++) add_crossing(each[cells[u].second], each[cells[v].second], cell, cx, cy, hot);
        i = j;
    }
    sort(hot.begin(), hot.end());
    hot.erase(unique(hot.begin(), hot.end()), hot.end());
    return hot;
}

int main(int argc, char** argv) {
    vector<Segment> segments;
    FILE* file = fopen(argv[1], "r");
    Segment s;
    while (fscanf(file, "%lld %lld %lld %lld", &s.a.x, &s.a.y, &s.b.x, &s.b.y) == 4) segments.push_back(s);
    auto start = chrono::steady_clock::now();
    vector<Point> hot = hot_points(segments);
    unordered_map<Num, pair<int, int>> column;
    vector<Num> xs;
    for (int i = 0; i < (int)hot.size();) {
        int j = i;
        while (j < (int)hot.size() && hot[j].x == hot[i].x) j++;
        column[hot[i].x] = {i, j};
        xs.push_back(hot[i].x);
        i = j;
    }
    vector<pair<int, int>> links;
    vector<int> chain;
    for (auto& s : segments) {
        chain.clear();
        Num xa = min(s.a.x, s.b.x), xb = max(s.a.x, s.b.x), dx = s.b.x - s.a.x, dy = s.b.y - s.a.y;
        for (auto it = lower_bound(xs.begin(), xs.end(), xa); it != xs.end() && *it <= xb; ++it) {
            Num x = *it, low = min(s.a.y, s.b.y), high = max(s.a.y, s.b.y);
            if (dx != 0) {
                Wide l = max<Wide>(2 * x - 1, 2 * xa), h = min<Wide>(2 * x + 1, 2 * xb);
                Wide p = floor_div<Wide>((Wide)2 * s.a.y * dx + (l - (Wide)2 * s.a.x) * dy, (Wide)2 * dx);
                Wide q = floor_div<Wide>((Wide)2 * s.a.y * dx + (h - (Wide)2 * s.a.x) * dy, (Wide)2 * dx);
                low = (Num)min(p, q) - 1, high = (Num)max(p, q) + 2;
            }
            auto c = column[x];
            auto b = lower_bound(hot.begin() + c.first, hot.begin() + c.second, Point{x, low});
            for (; b != hot.begin() + c.second && b->y <= high; ++b) if (meets(s, *b)) chain.push_back(b - hot.begin());
        }
        sort(chain.begin(), chain.end(), [&](int i, int j) {
            if (hot[i].x != hot[j].x) return dx >= 0 ? hot[i].x < hot[j].x : hot[i].x > hot[j].x;
            return dy >= 0 ? hot[i].y < hot[j].y : hot[i].y > hot[j].y;
        });
        for (size_t i = 1; i < chain.size(); i++) links.push_back({min(chain[i - 1], chain[i]), max(chain[i - 1], chain[i])});
    }
    sort(links.begin(), links.end());
    links.erase(unique(links.begin(), links.end()), links.end());
    auto took = chrono::steady_clock::now() - start;
    fprintf(stderr, "micros %lld\n", (long long)chrono::duration_cast<chrono::microseconds>(took).count());
    for (auto& k : links) printf("%lld %lld %lld %lld\n", hot[k.first].x, hot[k.first].y, hot[k.second].x, hot[k.second].y);
}
