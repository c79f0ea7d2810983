// Reads a grid file, carves it in slices, and writes the points of the body's surface: what carve_grid.c does, in C++11, with as much memory
// as the file's header tells.
//
//     c++ -std=c++11 examples/carve_grid.cpp $(pkg-config --cflags --libs wattlerugby) -o carve_grid
//     ./carve_grid samples/torus-1.grid points.xyz
//
// The status is 0 where the points were written, 1 where a call refused, 2 where a file could not be read or written.
#include <cstdint>
#include <fstream>
#include <iomanip>
#include <iostream>
#include <iterator>
#include <stdexcept>
#include <string>
#include <vector>

#include "wattlerugby.h"

namespace {

// Examinations in one slice, and points in one call.
const uint32_t slice = 250;
const size_t most_points = 500;

struct Refused {
    const char *call;
    uint8_t number;
};

void check(const char *call, uint8_t refusal)
{
    if (refusal != 0)
        throw Refused{call, refusal};
}

// A record with the buffers that belong to it. No voxel is marked.
class Grid {
public:
    explicit Grid(const std::vector<uint8_t> &file)
    {
        const wattlerugby_read_answer header = wattlerugby_read_header(file.data(), file.size());
        check("read", header.refusal);
        n = wattlerugby_voxels(header.sides);
        // begin alone needs the values, so they end with this function
        std::vector<int32_t> values(n);
        check("read", wattlerugby_read(file.data(), file.size(), values.data(), n).refusal);
        marks.assign(n, WATTLERUGBY_UNMARKED);
        dist.resize(n);
        status.resize(n);
        const wattlerugby_begin_answer begun = wattlerugby_begin(
            header.sides, header.allowed, values.data(), n, marks.data(), n, dist.data(), n, status.data(), n);
        check("begin", begun.refusal);
        record = begun.next;
    }

    wattlerugby_carve_answer carve(uint32_t limit)
    {
        const wattlerugby_carve_answer carved = wattlerugby_carve(record, dist.data(), n, marks.data(), n, status.data(), n, limit);
        check("carve", carved.refusal);
        record = carved.next;
        return carved;
    }

    wattlerugby_open_answer open()
    {
        const wattlerugby_open_answer opened = wattlerugby_open(record, dist.data(), n, marks.data(), n, status.data(), n);
        record = opened.next;
        return opened;
    }

    void finish()
    {
        const wattlerugby_finish_answer finished = wattlerugby_finish(record, dist.data(), n, status.data(), n);
        check("finish", finished.refusal);
        record = finished.next;
    }

    // After finish the filled voxels are negative like the inside, so they are counted before.
    size_t filled() const
    {
        size_t count = 0;
        for (size_t i = 0; i < n; i++)
            count += status[i] != WATTLERUGBY_GONE && dist[i] >= 0;
        return count;
    }

    std::vector<wattlerugby_point> points() const
    {
        std::vector<wattlerugby_point> all;
        std::vector<double> some(3 * most_points);
        for (size_t position = 0; position < 3 * n;) {
            const wattlerugby_points_answer found =
                wattlerugby_points(record, dist.data(), n, status.data(), n, position, some.data(), some.size());
            check("points", found.refusal);
            for (size_t i = 0; i < 3 * found.count; i += 3)
                all.push_back(wattlerugby_point{some[i], some[i + 1], some[i + 2]});
            position = found.next;
        }
        return all;
    }

    const wattlerugby_record &so_far() const { return record; }

private:
    size_t n;
    wattlerugby_record record;
    std::vector<int32_t> dist;
    std::vector<uint8_t> marks;
    std::vector<uint8_t> status;
};

// The standard loop. Gives the number that ended it, the last open's.
uint8_t carve_to_the_end(Grid &grid)
{
    for (;;) {
        wattlerugby_carve_answer carved;
        do {
            carved = grid.carve(slice);
            std::cout << "carve: examined " << carved.examined << ", removed " << carved.removed << ", "
                      << (carved.pending ? "some pending" : "nothing pending") << '\n';
        } while (carved.pending);
        const wattlerugby_open_answer opened = grid.open();
        if (opened.refusal != 0)
            return opened.refusal;
        std::cout << "open: voxel " << opened.index << ", k " << opened.k << ", m " << opened.m << ", face " << opened.face << '\n';
    }
}

std::vector<uint8_t> bytes_of(const std::string &name)
{
    std::ifstream in(name, std::ios::binary);
    const std::vector<uint8_t> bytes{std::istreambuf_iterator<char>(in), std::istreambuf_iterator<char>()};
    if (bytes.empty())
        throw std::runtime_error(name + " cannot be read");
    return bytes;
}

void write_points(const std::string &name, const std::vector<wattlerugby_point> &points)
{
    std::ofstream out(name);
    out << std::setprecision(17);
    for (const wattlerugby_point &p : points)
        out << p.x << ' ' << p.y << ' ' << p.z << '\n';
    out.close();
    if (!out)
        throw std::runtime_error(name + " cannot be written");
}

void carve_file(const std::string &file, const std::string &points_file)
{
    Grid grid(bytes_of(file));
    const unsigned ended_by = carve_to_the_end(grid);
    std::cout << "ended by " << ended_by << ", " << wattlerugby_reason(static_cast<uint8_t>(ended_by)) << "\nfilled: " << grid.filled() << '\n';
    grid.finish();
    const wattlerugby_record &r = grid.so_far();
    std::cout << "openings " << r.openings << " of " << r.allowed << ", removals " << r.removals << ", examinations " << r.examinations
              << ", Euler number " << r.euler << '\n';
    const std::vector<wattlerugby_point> points = grid.points();
    write_points(points_file, points);
    std::cout << "points: " << points.size() << '\n';
}

} // namespace

int main(int argc, char **argv)
{
    if (argc != 3) {
        std::cerr << "usage: carve_grid GRID POINTS\n";
        return 2;
    }
    try {
        carve_file(argv[1], argv[2]);
        return 0;
    } catch (const Refused &refused) {
        std::cout << refused.call << ": refused " << unsigned(refused.number) << ", " << wattlerugby_reason(refused.number) << '\n';
        return 1;
    } catch (const std::exception &wrong) {
        std::cerr << "carve_grid: " << wrong.what() << '\n';
        return 2;
    }
}
