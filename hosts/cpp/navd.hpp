// navd.hpp: navd.h for C++17. Owners of its handles, statuses that are not dropped unseen, answers in vectors.
//
//     navd::Level level;                                        // closed with its scope
//     navd_fault fault;
//     uint32_t number;
//     navd::Path path;                                          // its vectors keep their room for the next question
//     if (level.open(text, fault) != navd::Status::ok) return;
//     if (level.add_block({1, 8, 0, 100, 4, 5}, 0, number) != navd::Status::ok) return;
//     if (level.settle(number) != navd::Status::ok) return;
//     if (level.find_path({{40, 40}, 10, {40, 120}, 10}, path) == navd::Status::ok) follow(path.turns);
//
// A function is the call of navd.h with its name, which says what it does, its units and limits, and its ends. A vector for an answer is
// given more room where it has too little, has just what was told after Status::ok, and is empty after another end.
//
// Threads. As with the handles: an owner is in one call at a time, and calls of two owners may run side by side.
//
// Exceptions. A vector that gets no memory throws std::bad_alloc, between two calls of the library and never through one; the level is as
// the last call left it. Nothing else throws.
//
// Memory. libnavd.a and libnavd.so of a release take it from malloc. Over the archive that `rt lib` leaves, one file of the host defines
// NAVD_HEAP before it includes this header, and so has the three functions of the heap.
#ifndef NAVD_HPP
#define NAVD_HPP

#include "navd.h"

#include <algorithm>
#include <cstddef>
#include <cstdint>
#include <cstdlib>
#include <iterator>
#include <string_view>
#include <type_traits>
#include <utility>
#include <vector>
#if __has_include(<version>)
#include <version>
#endif
#ifdef __cpp_lib_span
#include <span>
#endif

#ifdef NAVD_HEAP
extern "C" {
struct navd_tried {
    bool ok;
    void *block;
};

navd_tried rattle_alloc(size_t size, size_t align) noexcept {
    static char no_block;
    void *block = std::malloc(size ? size : align);
    return {block != nullptr, block ? block : &no_block};
}

navd_tried rattle_realloc(void *old, size_t, size_t size, size_t align) noexcept {
    void *block = std::realloc(old, size ? size : align);
    return {block != nullptr, block ? block : old};
}

void rattle_dealloc(void *block) noexcept { std::free(block); }
}
#endif

namespace navd {

// How a call ended: the numbers NAVD_.. of navd.h.
enum class [[nodiscard]] Status : uint32_t {
    ok = NAVD_OK, no_memory = NAVD_NO_MEMORY, empty = NAVD_EMPTY, faulty = NAVD_FAULTY, out_of_range = NAVD_OUT_OF_RANGE,
    too_many = NAVD_TOO_MANY, dead = NAVD_DEAD, history_full = NAVD_HISTORY_FULL, not_yet = NAVD_NOT_YET, same = NAVD_SAME,
    no_start = NAVD_NO_START, no_goal = NAVD_NO_GOAL, no_path = NAVD_NO_PATH, wall = NAVD_WALL, no_room = NAVD_NO_ROOM,
    stale = NAVD_STALE, foreign = NAVD_FOREIGN, busy = NAVD_BUSY, too_many_spans = NAVD_TOO_MANY_SPANS,
    partial = NAVD_PARTIAL, limit = NAVD_LIMIT, cut = NAVD_CUT, no_place = NAVD_NO_PLACE,
    no_obstacle = NAVD_NO_OBSTACLE, not_saved = NAVD_NOT_SAVED, about = NAVD_ABOUT, overlaps = NAVD_OVERLAPS, bad_struct = 23, // the last is of navd_world.h alone
};

// Whether the library has the version of the header: one that is loaded while the program runs may have another.
inline bool is_same_version() noexcept { return navd_version() == NAVD_VERSION; }

// What a call reads: an address and a length.
#ifdef __cpp_lib_span
template <class T> using Array = std::span<const T>;
#else
template <class T> class Array {
public:
    Array() = default;
    Array(const T *data, size_t size) : at(data), count(size) {}
    template <class List> Array(const List &list) : at(std::data(list)), count(std::size(list)) {}
    const T *data() const noexcept { return at; }
    size_t size() const noexcept { return count; }
    const T *begin() const noexcept { return at; }
    const T *end() const noexcept { return at + count; }

private:
    const T *at = nullptr;
    size_t count = 0;
};
#endif

// What navd_path and navd_hop tell, with their arrays.
struct Path {
    uint64_t cost = 0;
    navd_polygon first{};
    std::vector<navd_link> links;
    std::vector<navd_turn> turns;
};

// What navd_line tells, with its arrays.
struct Line {
    uint64_t upper = 0, lower = 0;
    navd_polygon first{}, last{};
    std::vector<navd_link> links;
    std::vector<navd_turn> turns;
};

// A way between two places, which are the first of its corners and the last.
struct PlaceWay {
    uint64_t cost = 0;
    std::vector<navd_link> links;
    std::vector<navd_place> corners;
};

// The areas that may be entered, bit a for area a, and costs by area for one question, or none for those of the view.
struct Filter {
    uint64_t areas = UINT64_MAX;
    Array<uint32_t> costs{};
};

// What ends a search, and what it left: a way there costs at least `seen`, where a limit ended it.
struct Limits {
    uint64_t most_cost = UINT64_MAX;
    size_t most_polygons = SIZE_MAX;
    uint64_t seen = 0;
};

// How a path is mended: how many of its first links are used at most, whether the way comes back to the last ones, and after how many polygons the search
// ends. And what it left: how many of the first links were used, and how many new ones are behind these; or that each walk which mends it costs at least
// `seen`, where the limit ended the search.
struct Repair {
    size_t keep = SIZE_MAX;
    bool join = true;
    size_t most_polygons = SIZE_MAX;
    size_t kept = 0, bridge = 0;
    uint64_t seen = 0;
};

struct Hop {
    uint64_t cost = 0;
    navd_polygon first{};
    std::vector<navd_step_taken> steps;
    std::vector<navd_turn> turns;
};

namespace detail {

// No address that the library is handed is null, also where there is no element.
template <class T> T *address(T *data) noexcept {
    static std::remove_const_t<T> none{};
    return data ? data : &none;
}

template <class T> size_t room(const std::vector<T> &list) noexcept { return std::max<size_t>(list.capacity(), 16); }

// Makes a call that lays into a vector, and once more where that had too little room. The call is handed the room, and leaves how many
// there are.
template <class T, class Call> Status all(std::vector<T> &list, Call call) {
    size_t count = room(list);
    for (;;) {
        list.resize(count);
        const Status status{call(address(list.data()), &count)};
        if (status != Status::ok) count = 0;
        if (count > list.size()) continue;
        list.resize(count);
        return status;
    }
}

// The same with two vectors.
template <class T, class U, class Call> Status both(std::vector<T> &list, std::vector<U> &other, Call call) {
    size_t count = room(list), others = room(other);
    for (;;) {
        list.resize(count);
        other.resize(others);
        const Status status{call(address(list.data()), count, address(other.data()), others)};
        if (status != Status::ok) count = others = 0;
        if (count > list.size() || others > other.size()) continue;
        list.resize(count);
        other.resize(others);
        return status;
    }
}

// A handle, which can be moved and is closed once.
template <class Handle, void (*Close)(Handle *)> class Owner {
public:
    Owner() noexcept = default;
    Owner(Owner &&other) noexcept : handle(std::exchange(other.handle, Handle{})) {}
    Owner &operator=(Owner &&other) noexcept {
        Owner moved(std::move(other));
        std::swap(handle, moved.handle);
        return *this;
    }
    ~Owner() { close(); }

    void close() noexcept { Close(&handle); }
    // For the calls of navd.h themselves.
    Handle *get() noexcept { return &handle; }

protected:
    Handle handle{};
};

struct LevelCalls {
    static constexpr auto floors = navd_floors;
    static constexpr auto find_path = navd_find_path;
    static constexpr auto cast_ray = navd_cast_ray;
    static constexpr auto find_hop = navd_find_hop;
    static constexpr auto send = navd_send;
    static constexpr auto march = navd_march;
    static constexpr auto polygons = navd_polygons;
    static constexpr auto inner_links = navd_inner_links;
    static constexpr auto border_links = navd_border_links;
};

struct ViewCalls {
    static constexpr auto floors = navd_view_floors;
    static constexpr auto find_path = navd_view_find_path;
    static constexpr auto cast_ray = navd_view_cast_ray;
    static constexpr auto find_hop = navd_view_find_hop;
    static constexpr auto send = navd_view_send;
    static constexpr auto march = navd_view_march;
    static constexpr auto polygons = navd_view_polygons;
    static constexpr auto inner_links = navd_view_inner_links;
    static constexpr auto border_links = navd_view_border_links;
};

// What is asked of a level and of a view alike.
template <class Handle, void (*Close)(Handle *), class Calls> class Asked : public Owner<Handle, Close> {
public:
    Status floors(uint32_t x, uint32_t z, std::vector<navd_floor> &floors) {
        return all(floors, [&](navd_floor *to, size_t *count) { return Calls::floors(&this->handle, x, z, to, *count, count); });
    }

    Status find_path(const navd_way &way, Path &path) {
        navd_path told{};
        const Status status = both(path.links, path.turns, [&](navd_link *links, size_t &count, navd_turn *turns, size_t &others) {
            const uint32_t end = Calls::find_path(&this->handle, &way, links, count, turns, others, &told);
            count = told.links;
            others = told.turns;
            return end;
        });
        path.cost = told.cost;
        path.first = told.first;
        return status;
    }

    Status cast_ray(const navd_way &way, navd_ray &ray) noexcept { return Status{Calls::cast_ray(&this->handle, &way, &ray)}; }

    Status find_hop(const navd_way &way, Array<navd_jump> jumps, Hop &hop) {
        navd_hop told{};
        told.way = way;
        const Status status = both(hop.steps, hop.turns, [&](navd_step_taken *steps, size_t &count, navd_turn *turns, size_t &others) {
            const uint32_t end = Calls::find_hop(&this->handle, &told, address(jumps.data()), jumps.size(), steps, count, turns, others);
            count = told.steps;
            others = told.turns;
            return end;
        });
        hop.cost = told.cost;
        hop.first = told.first;
        return status;
    }

    Status send(const navd_way &way, navd_walker &walker, std::vector<navd_link> &links) {
        return all(links, [&](navd_link *to, size_t *count) {
            const uint32_t end = Calls::send(&this->handle, &way, to, *count, &walker);
            *count = walker.links;
            return end;
        });
    }

    // Where the links have too little room, the walker goes once more from where it was.
    Status march(navd_walker &walker, uint32_t length, std::vector<navd_link> &links) {
        navd_walker moved = walker;
        const Status status = all(links, [&](navd_link *to, size_t *count) {
            moved = walker;
            const uint32_t end = Calls::march(&this->handle, &moved, length, to, *count);
            *count = moved.links;
            return end;
        });
        walker = moved;
        return status;
    }

    Status polygons(uint32_t tile, std::vector<navd_face> &polygons) {
        return all(polygons, [&](navd_face *to, size_t *count) { return Calls::polygons(&this->handle, tile, to, *count, count); });
    }

    Status inner_links(uint32_t tile, std::vector<navd_link> &links) {
        return all(links, [&](navd_link *to, size_t *count) { return Calls::inner_links(&this->handle, tile, to, *count, count); });
    }

    Status border_links(uint32_t tile, std::vector<navd_link> &links) {
        return all(links, [&](navd_link *to, size_t *count) { return Calls::border_links(&this->handle, tile, to, *count, count); });
    }
};

} // namespace detail

/// The field around two points, in sizes of cells and height units.
inline Status frame_of(const navd_frame &sizes, const navd_world_point &low, const navd_world_point &high, navd_framed_field &field) noexcept {
    return Status{navd_frame_of(&sizes, &low, &high, &field)};
}

/// The places of points in a frame, one after the other; as many as were turned are left in `places`.
inline Status quantize(const navd_frame &frame, const std::vector<navd_world_point> &points, std::vector<navd_frame_place> &places) {
    static const navd_world_point no_point = {};
    places.resize(points.size() + 1);
    size_t count = 0;
    Status ends{navd_quantize(&frame, points.empty() ? &no_point : points.data(), points.size(), places.data(), points.size(), &count)};
    places.resize(count);
    return ends;
}

/// The points of places in a frame, one after the other; as many as were turned are left in `points`.
inline Status dequantize(const navd_frame &frame, const std::vector<navd_frame_place> &places, std::vector<navd_world_point> &points) {
    static const navd_frame_place no_place = {};
    points.resize(places.size() + 1);
    size_t count = 0;
    Status ends{navd_dequantize(&frame, places.empty() ? &no_place : places.data(), places.size(), points.data(), places.size(), &count)};
    points.resize(count);
    return ends;
}

class Job : public detail::Owner<navd_job, navd_job_close> {
public:
    Status build() noexcept { return Status{navd_build(&handle)}; }
};

class Level : public detail::Asked<navd_level, navd_close, detail::LevelCalls> {
public:
    Status open(std::string_view text, navd_fault &fault) noexcept {
        return Status{navd_open(&handle, bytes(text), text.size(), &fault)};
    }
    Status open_triangles(std::string_view text, navd_fault &fault) noexcept {
        return Status{navd_open_triangles(&handle, bytes(text), text.size(), &fault)};
    }

    Status open_mesh(const navd_mesh &mesh, const std::vector<float> &vertices, const std::vector<uint32_t> &corners,
                     const std::vector<uint8_t> &areas, navd_mesh_fault &fault) noexcept {
        static const float no_vertex = 0;
        static const uint32_t no_corner = 0;
        static const uint8_t no_area = 0;
        return Status{navd_open_mesh(&handle, &mesh, vertices.empty() ? &no_vertex : vertices.data(), vertices.size(),
                                     corners.empty() ? &no_corner : corners.data(), corners.size(),
                                     areas.empty() ? &no_area : areas.data(), areas.size(), &fault)};
    }

    Status add_block(const navd_block &block, uint32_t area, uint32_t &entry) noexcept {
        return Status{navd_add_block(&handle, &block, area, &entry)};
    }
    Status add_cylinder(const navd_cylinder &cylinder, uint32_t area, uint32_t &entry) noexcept {
        return Status{navd_add_cylinder(&handle, &cylinder, area, &entry)};
    }
    Status add_prism(const navd_prism &prism, uint32_t area, uint32_t &entry) noexcept {
        return Status{navd_add_prism(&handle, &prism, area, &entry)};
    }
    Status add_disc(const navd_disc &disc, uint32_t area, uint32_t &entry) noexcept {
        return Status{navd_add_disc(&handle, &disc, area, &entry)};
    }
    Status remove(uint32_t number, uint32_t &entry) noexcept { return Status{navd_remove(&handle, number, &entry)}; }

    Status settle(uint32_t &published) noexcept { return Status{navd_settle(&handle, &published)}; }
    Status aim(uint32_t &target) noexcept { return Status{navd_aim(&handle, &target)}; }
    Status step(uint32_t &tile) noexcept { return Status{navd_step(&handle, &tile)}; }
    Status publish(uint32_t &number) noexcept { return Status{navd_publish(&handle, &number)}; }
    Status prepare() noexcept { return Status{navd_prepare(&handle)}; }

    Status renew(std::vector<uint32_t> &numbers) {
        return detail::all(numbers, [&](uint32_t *to, size_t *count) {
            const uint32_t end = navd_renew(&handle, to, *count, count);
            return end == NAVD_NO_ROOM ? NAVD_OK : end; // nothing was done, and the count is more than the room
        });
    }

    Status claim(Job &job, uint32_t &tile) noexcept { return Status{navd_claim(&handle, job.get(), &tile)}; }
    Status submit(Job &job) noexcept { return Status{navd_submit(&handle, job.get())}; }
    Status put_back(Job &job) noexcept { return Status{navd_put_back(&handle, job.get())}; }
    Status put_back_all() noexcept { return Status{navd_put_back_all(&handle)}; }

    Status changed_tiles(uint32_t since, std::vector<uint32_t> &tiles) {
        return detail::all(tiles, [&](uint32_t *to, size_t *count) { return navd_changed_tiles(&handle, since, to, *count, count); });
    }
    Status obstacles(std::vector<navd_obstacle> &obstacles) {
        return detail::all(obstacles, [&](navd_obstacle *to, size_t *count) { return navd_obstacles(&handle, to, *count, count); });
    }
    Status count(navd_counts &counts) noexcept { return Status{navd_count(&handle, &counts)}; }

private:
    static const uint8_t *bytes(std::string_view text) noexcept { return reinterpret_cast<const uint8_t *>(detail::address(text.data())); }
};

// A level with a row for each of its obstacles, whose id stays. What is shown changes in `update` alone.
class Registry : public detail::Owner<navd_registry, navd_registry_close> {
public:
    // The level goes over into it, and holds nothing then.
    Status begin(Level &level) noexcept { return Status{navd_registry_begin(&handle, level.get())}; }
    Status add(const navd_solid &solid, uint64_t user, uint64_t &id) noexcept { return Status{navd_registry_add(&handle, &solid, user, &id)}; }
    Status move(uint64_t id, const navd_solid &solid) noexcept { return Status{navd_registry_move(&handle, id, &solid)}; }
    Status enable(uint64_t id, bool enabled) noexcept { return Status{navd_registry_enable(&handle, id, enabled)}; }
    Status mark(uint64_t id, uint64_t user) noexcept { return Status{navd_registry_mark(&handle, id, user)}; }
    Status remove(uint64_t id) noexcept { return Status{navd_registry_remove(&handle, id)}; }
    Status rows(std::vector<navd_row> &rows) {
        return detail::all(rows, [&](navd_row *to, size_t *count) { return navd_registry_rows(&handle, to, *count, count); });
    }
    Status update(uint32_t most, navd_updated &updated) noexcept { return Status{navd_registry_update(&handle, most, &updated)}; }

    Status claim(Job &job, uint32_t &tile) noexcept { return Status{navd_registry_claim(&handle, job.get(), &tile)}; }
    Status submit(Job &job) noexcept { return Status{navd_registry_submit(&handle, job.get())}; }
    Status put_back(Job &job) noexcept { return Status{navd_registry_put_back(&handle, job.get())}; }
    Status put_back_all() noexcept { return Status{navd_registry_put_back_all(&handle)}; }
    Status save(std::vector<uint8_t> &bytes) {
        return detail::all(bytes, [&](uint8_t *to, size_t *count) {
            const uint32_t end = navd_registry_save(&handle, to, *count, count);
            return end == NAVD_NO_ROOM ? NAVD_OK : end; // the count is more than the room
        });
    }
    Status restore(Array<uint8_t> bytes) noexcept { return Status{navd_registry_restore(&handle, detail::address(bytes.data()), bytes.size())}; }
};

// Levels of several kinds of agents over one ground, with one history, by their numbers from 0.
class Kinds : public detail::Owner<navd_kinds, navd_kinds_close> {
public:
    Status open(const navd_ground &ground, Array<navd_kind> kinds, Array<uint32_t> costs, Array<navd_span> spans) noexcept {
        return Status{navd_kinds_open(&handle, &ground, detail::address(kinds.data()), kinds.size(), detail::address(costs.data()), costs.size(),
                                      detail::address(spans.data()), spans.size())};
    }

    Status add_block(const navd_block &block, uint32_t area, uint32_t &entry) noexcept {
        return Status{navd_kinds_add_block(&handle, &block, area, &entry)};
    }
    Status add_cylinder(const navd_cylinder &cylinder, uint32_t area, uint32_t &entry) noexcept {
        return Status{navd_kinds_add_cylinder(&handle, &cylinder, area, &entry)};
    }
    Status add_prism(const navd_prism &prism, uint32_t area, uint32_t &entry) noexcept {
        return Status{navd_kinds_add_prism(&handle, &prism, area, &entry)};
    }
    Status add_disc(const navd_disc &disc, uint32_t area, uint32_t &entry) noexcept {
        return Status{navd_kinds_add_disc(&handle, &disc, area, &entry)};
    }
    Status remove(uint32_t number, uint32_t &entry) noexcept { return Status{navd_kinds_remove(&handle, number, &entry)}; }

    Status settle(uint32_t &published) noexcept { return Status{navd_kinds_settle(&handle, &published)}; }
    Status aim(uint32_t &target) noexcept { return Status{navd_kinds_aim(&handle, &target)}; }
    Status step(uint32_t &kind, uint32_t &tile) noexcept { return Status{navd_kinds_step(&handle, &kind, &tile)}; }
    Status publish(uint32_t &kind, uint32_t &number) noexcept { return Status{navd_kinds_publish(&handle, &kind, &number)}; }
    Status claim(Job &job, uint32_t &kind, uint32_t &tile) noexcept { return Status{navd_kinds_claim(&handle, job.get(), &kind, &tile)}; }
    Status submit(uint32_t kind, Job &job) noexcept { return Status{navd_kinds_submit(&handle, kind, job.get())}; }
    Status put_back(uint32_t kind, Job &job) noexcept { return Status{navd_kinds_put_back(&handle, kind, job.get())}; }
    Status put_back_all() noexcept { return Status{navd_kinds_put_back_all(&handle)}; }
    Status renew(std::vector<uint32_t> &numbers) {
        return detail::all(numbers, [&](uint32_t *to, size_t *count) {
            const uint32_t end = navd_kinds_renew(&handle, to, *count, count);
            return end == NAVD_NO_ROOM ? NAVD_OK : end; // nothing was done, and the count is more than the room
        });
    }
    // Other spans in the columns of a rectangle, or none.
    Status change_ground(const navd_columns &columns, Array<navd_span> spans) noexcept {
        return Status{navd_kinds_change_ground(&handle, &columns, detail::address(spans.data()), spans.size())};
    }
    Status count(uint32_t kind, navd_counts &counts) noexcept { return Status{navd_kinds_count(&handle, kind, &counts)}; }
};

class View : public detail::Asked<navd_view, navd_view_close, detail::ViewCalls> {
public:
    Status look(Level &level, uint32_t &published) noexcept { return Status{navd_look(&handle, level.get(), &published)}; }
    Status look(Registry &registry, uint64_t &version) noexcept { return Status{navd_registry_look(&handle, registry.get(), &version)}; }
    Status look(Kinds &kinds, uint32_t kind, uint32_t &published) noexcept {
        return Status{navd_kinds_look(&handle, kinds.get(), kind, &published)};
    }
    // Shows what another view shows, with the costs that that one has of its own: for another thread.
    Status copy(View &from) noexcept { return Status{navd_view_copy(&handle, from.get())}; }
    Status set_costs(Array<uint32_t> costs) noexcept {
        return Status{navd_view_set_costs(&handle, detail::address(costs.data()), costs.size())};
    }
    Status count(navd_shown &shown) noexcept { return Status{navd_view_count(&handle, &shown)}; }

    // Takes a path over into what the view shows: way.from is where its walker is now, path.first the polygon in which it was last. After Status::cut
    // its links are those that lead on, and it has no turns; after another end than this and Status::ok it has neither.
    Status check_path(const navd_way &way, const Filter &filter, Path &path) {
        const std::vector<navd_link> given = path.links;
        navd_kept kept{};
        uint32_t end = NAVD_OK;
        const Status status = detail::all(path.turns, [&](navd_turn *turns, size_t *count) {
            kept = {};
            kept.way = way;
            kept.first = path.first;
            kept.areas = filter.areas;
            path.links = given;
            end = navd_view_check_path(&handle, &kept, detail::address(filter.costs.data()), filter.costs.size(), detail::address(path.links.data()),
                                       path.links.size(), turns, *count);
            *count = kept.turns;
            return end == NAVD_CUT ? NAVD_OK : end;
        });
        path.links.resize(status == Status::ok ? kept.links : 0);
        path.cost = kept.cost;
        path.first = kept.first;
        return Status{end};
    }

    // Makes a path whole in what the view shows: way.from is where its walker is now, path.first the polygon in which it was last.
    Status repair_path(const navd_way &way, const Filter &filter, Repair &repair, Path &path) {
        const std::vector<navd_link> given = path.links;
        navd_repair told{};
        const Status status =
            detail::both(path.links, path.turns, [&](navd_link *links, size_t &count, navd_turn *turns, size_t &others) {
                told = {};
                told.way = way;
                told.first = path.first;
                told.join = repair.join;
                told.count = given.size();
                told.keep = repair.keep;
                told.most_polygons = repair.most_polygons;
                told.areas = filter.areas;
                std::copy(given.begin(), given.end(), links);
                const uint32_t end = navd_view_repair_path(&handle, &told, detail::address(filter.costs.data()), filter.costs.size(), links, count,
                                                           turns, others);
                count = end == NAVD_NO_ROOM ? std::max(told.links, given.size()) : told.links;
                others = told.turns;
                return end == NAVD_NO_ROOM ? NAVD_OK : end; // nothing was laid, and one of the counts is more than its room
            });
        path.cost = told.cost;
        path.first = told.first;
        repair.kept = told.kept;
        repair.bridge = told.bridge;
        repair.seen = told.seen;
        return status;
    }

    // The polygons within a cost of a place, by rising costs.
    Status flood(navd_point at, uint32_t y, uint64_t most_cost, const Filter &filter, std::vector<navd_reached> &reached) {
        return flooded(at, y, 0, most_cost, filter, reached);
    }
    // The same with the polygons from which a way leads to the place.
    Status flood_back(navd_point at, uint32_t y, uint64_t most_cost, const Filter &filter, std::vector<navd_reached> &reached) {
        return flooded(at, y, 1, most_cost, filter, reached);
    }

    // A cheapest way through a filter, within limits.
    Status plan(const navd_way &way, const Filter &filter, Limits &limits, Path &path) {
        navd_plan told{};
        told.way = way;
        return planned(told, filter, limits, path);
    }
    // The same, and where none is found, Status::partial: the way to the nearest place, left at `end` on its polygon's least floor, by the distance in the
    // plane and `rise` sixteenths for each unit of height. After Status::ok `end` is the goal.
    Status plan_partial(const navd_way &way, const Filter &filter, Limits &limits, uint32_t rise, Path &path, navd_place &end) {
        navd_plan told{};
        told.way = way;
        told.partial = 1;
        told.rise = rise;
        const Status status = planned(told, filter, limits, path);
        end = {told.last, told.end, told.end_y};
        return status;
    }

    // The nearest of many goals, by a way that costs at most `most_cost`: which it is, and that way's cost, ends and links. After Status::limit each way
    // to a goal costs at least told.seen.
    Status nearest_goal(navd_point at, uint32_t y, Array<navd_goal> goals, uint64_t most_cost, const Filter &filter, navd_nearest &told,
                        std::vector<navd_link> &links) {
        told = {};
        told.at = at;
        told.y = y;
        told.areas = filter.areas;
        told.most_cost = most_cost;
        return detail::all(links, [&](navd_link *to, size_t *count) {
            const uint32_t end = navd_view_nearest_goal(&handle, &told, detail::address(filter.costs.data()), filter.costs.size(),
                                                        detail::address(goals.data()), goals.size(), to, *count);
            *count = told.links;
            return end;
        });
    }

    // Where a walker on a path is.
    Status follow_path(const Path &path, navd_follower &follower) noexcept {
        return Status{navd_view_follow_path(&handle, &follower, detail::address(path.links.data()), path.links.size(),
                                            detail::address(path.turns.data()), path.turns.size())};
    }

    // The nearest place. After Status::no_place none is in reach, and `place` is as it was.
    Status nearest(const navd_near &near, navd_place &place) noexcept { return Status{navd_view_nearest(&handle, &near, &place)}; }
    // The highest floor at the point of a place in its polygon, left at place.y.
    Status height(navd_place &place) noexcept { return Status{navd_view_height(&handle, &place)}; }
    // Whether it is a place of what the view shows: Status::ok or Status::no_place.
    Status is_place(const navd_place &place) noexcept { return Status{navd_view_is_place(&handle, &place)}; }
    // The place that a number draws. After Status::cut another number is to be drawn, after Status::no_place no cell has one of the areas, and after both
    // `place` is as it was.
    Status random_place(uint64_t areas, uint64_t draw, navd_place &place) noexcept {
        return Status{navd_view_random_place(&handle, areas, draw, &place)};
    }

    // A cheapest way between two places through a filter, within limits. After Status::no_start or Status::no_goal a place is none of the mesh.
    Status find_way(const navd_place &from, const navd_place &to, const Filter &filter, Limits &limits, PlaceWay &way) {
        navd_place_way told{};
        told.from = from;
        told.to = to;
        return joined(navd_view_find_way, told, filter, limits, way);
    }
    // The same between the places nearest to two points. After Status::no_start or Status::no_goal none is in reach.
    Status find_way_near(const navd_near &from, const navd_near &to, const Filter &filter, Limits &limits, PlaceWay &way) {
        navd_near_way told{};
        told.from = from;
        told.to = to;
        return joined(navd_view_find_way_near, told, filter, limits, way);
    }
    // The straight walk from a place toward a point.
    Status cast_ray_from(const navd_place &from, navd_point to, navd_ray &ray) noexcept {
        return Status{navd_view_cast_ray_from(&handle, &from, &to, &ray)};
    }
    // Where a move from a place toward a point ends, along walls; `end` may be `from` itself. It is for steps of a cell or so, in whole sixteenths: who moves
    // less than one a step keeps the rest.
    Status slide(const navd_place &from, navd_point to, uint64_t areas, navd_place &end) noexcept {
        const navd_place start = from;
        return Status{navd_view_slide(&handle, &start, &to, areas, &end)};
    }
    // A line between two places by its length, whatever areas cost. Status::ok: the shortest, as near as is told; Status::about: a line may be shorter, by no more
    // than line.upper less line.lower. `most` and `quick` as in navd_line.
    Status shortest(const navd_way &way, uint32_t most, bool quick, Line &line) {
        navd_line told{};
        told.way = way;
        told.most = most;
        told.quick = quick;
        Status end = Status::ok;
        const Status status = detail::both(line.links, line.turns, [&](navd_link *links, size_t &count, navd_turn *turns, size_t &others) {
            end = Status{navd_view_shortest(&handle, &told, links, count, turns, others)};
            count = told.links;
            others = told.turns;
            return static_cast<uint32_t>(end == Status::about ? Status::ok : end);
        });
        line.upper = told.upper;
        line.lower = told.lower;
        line.first = told.first;
        line.last = told.last;
        return status == Status::ok ? end : status;
    }
    // The wall nearest to a place, and all walls around it.
    Status nearest_wall(const navd_around &around, navd_wall &wall) noexcept {
        return Status{navd_view_nearest_wall(&handle, &around, &wall)};
    }
    Status walls(const navd_around &around, std::vector<navd_wall> &walls) {
        return detail::all(walls, [&](navd_wall *to, size_t *count) { return navd_view_walls(&handle, &around, to, *count, count); });
    }
    // One step of a crowd, each agent by its wish.
    Status crowd_step(const navd_crowd &rules, std::vector<navd_agent> &agents) noexcept {
        return Status{navd_view_crowd_step(&handle, &rules, detail::address(agents.data()), agents.size())};
    }
    // Lets agents that waited for 3 seconds be slim, and those that go and have room of their full size.
    Status crowd_slim(const navd_crowd &rules, std::vector<navd_agent> &agents) noexcept {
        return Status{navd_view_crowd_slim(&handle, &rules, detail::address(agents.data()), agents.size())};
    }
    // One step of a crowd with wishes of the host's own: agent i is granted the first of moves[first[i]] to before moves[first[i + 1]] that is free, in
    // the order of turns. `first` has one number more than there are agents.
    Status crowd_grant(const navd_crowd &rules, std::vector<navd_agent> &agents, Array<uint32_t> order, Array<size_t> first,
                       Array<navd_fine> moves) noexcept {
        return Status{navd_view_crowd_grant(&handle, &rules, detail::address(agents.data()), agents.size(), detail::address(order.data()), order.size(),
                                            detail::address(first.data()), first.size(), detail::address(moves.data()), moves.size())};
    }
    // Where an agent at a height stands beside others. After Status::overlaps it is told too: it may enter, and then comes no nearer to those.
    Status crowd_enter(Array<navd_agent> agents, navd_agent &agent, uint32_t y) noexcept {
        return Status{navd_view_crowd_enter(&handle, detail::address(agents.data()), agents.size(), &agent, y)};
    }
    // Where a kept path leads an agent: agent.wish and agent.left; `link` links are behind it. After Status::cut a way is to be looked for anew.
    Status lead(navd_agent &agent, navd_point goal, Array<navd_link> links, size_t &link) noexcept {
        return Status{navd_view_lead(&handle, &agent, &goal, detail::address(links.data()), links.size(), &link)};
    }

private:
    template <class Call, class Way> Status joined(Call call, Way &told, const Filter &filter, Limits &limits, PlaceWay &way) {
        told.areas = filter.areas;
        told.most_cost = limits.most_cost;
        told.most_polygons = limits.most_polygons;
        const Status status =
            detail::both(way.links, way.corners, [&](navd_link *links, size_t &count, navd_place *corners, size_t &others) {
                const uint32_t end = call(&handle, &told, detail::address(filter.costs.data()), filter.costs.size(), links, count, corners, others);
                count = told.found.links;
                others = told.found.corners;
                return end;
            });
        way.cost = told.found.cost;
        limits.seen = told.found.seen;
        return status;
    }

    Status planned(navd_plan &told, const Filter &filter, Limits &limits, Path &path) {
        uint32_t end = NAVD_OK;
        told.areas = filter.areas;
        told.most_cost = limits.most_cost;
        told.most_polygons = limits.most_polygons;
        const Status status =
            detail::both(path.links, path.turns, [&](navd_link *links, size_t &count, navd_turn *turns, size_t &others) {
                end = navd_view_plan(&handle, &told, detail::address(filter.costs.data()), filter.costs.size(), links, count, turns, others);
                count = told.links;
                others = told.turns;
                return end == NAVD_PARTIAL ? NAVD_OK : end;
            });
        path.cost = told.cost;
        path.first = told.first;
        limits.seen = told.seen;
        return status == Status::ok ? Status{end} : status;
    }

    Status flooded(navd_point at, uint32_t y, uint32_t back, uint64_t most_cost, const Filter &filter, std::vector<navd_reached> &reached) {
        navd_flood told{};
        told.at = at;
        told.y = y;
        told.back = back;
        told.areas = filter.areas;
        told.most_cost = most_cost;
        return detail::all(reached, [&](navd_reached *to, size_t *count) {
            const uint32_t end = navd_view_flood(&handle, &told, detail::address(filter.costs.data()), filter.costs.size(), to, *count);
            *count = told.polygons;
            return end;
        });
    }
};

} // namespace navd

#endif
