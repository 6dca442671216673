// navd_world.hpp: navd_world.h for C++17. Owners of worlds, snapshots and routes, statuses that are not dropped unseen, answers in vectors.
//
//     navd::World world;                                        // destroyed with its scope
//     navd::Snapshot snapshot;                                  // one for each thread that asks
//     navd::Route route;                                        // keeps its memory from search to search
//     navd_world_def def = NAVD_WORLD_DEF;
//     navd_problem problem;
//     navd_obstacle_id door;
//     if (world.create(def, vertices, indices, {}, problem) != navd::Status::ok) puts(problem.text);
//     if (world.add(navd::box({12, 1.5f, 3}, {0.1f, 1.5f, 1}, 0.3f), 0, door) != navd::Status::ok) return;
//     if (world.update(4) != navd::Status::ok) return;          // once a frame
//     if (snapshot.create(world) != navd::Status::ok) return;   // later snapshot.refresh(world)
//     if (snapshot.find_path(from, to, route) == navd::Status::ok) follow(route.corners());
//
// A function is the call of navd_world.h with its name, which says what it does, its units and limits, and its ends. An owner that holds nothing yet, or
// was moved from, ends each call with Status::empty. It is built with hosts/world/navd_world.c, which is compiled as C11; libnavd.a and libnavd.so of a
// release have that in them.
//
// Threads. As in navd_world.h: an owner is in one call at a time, but Snapshot::create and Snapshot::refresh may be called of a world at any time and in
// any thread.
//
// Exceptions. The vector of `obstacles` throws std::bad_alloc where it gets no memory, between two calls of the library. Nothing else throws.
#ifndef NAVD_WORLD_HPP
#define NAVD_WORLD_HPP

#include "navd.hpp"
#include "navd_world.h"

#include <chrono>
#include <cstdio>
#include <memory>

namespace navd {

static_assert(static_cast<uint32_t>(Status::bad_struct) == NAVD_BAD_STRUCT);

// A status as a sentence, and by its name: "no walk joins the two places", "NAVD_NO_PATH".
inline const char *status_text(Status status) noexcept { return navd_status_text(static_cast<navd_status>(status)); }
inline const char *status_name(Status status) noexcept { return navd_status_name(static_cast<navd_status>(status)); }

// A box by its centre and half its sides, turned by a yaw in radians from x to z. With the area 0 it stops agents, with 1 to 63 it gives that area.
inline navd_shape box(navd_vec3 center, navd_vec3 half, float yaw = 0, uint32_t area = 0) noexcept {
    navd_shape shape{};
    shape.size = sizeof shape;
    shape.kind = NAVD_BOX;
    shape.area = area;
    shape.center = center;
    shape.half = half;
    shape.yaw = yaw;
    return shape;
}

// A cylinder by its centre, radius and half its height.
inline navd_shape cylinder(navd_vec3 center, float radius, float half_height, uint32_t area = 0) noexcept {
    navd_shape shape{};
    shape.size = sizeof shape;
    shape.kind = NAVD_CYLINDER;
    shape.area = area;
    shape.center = center;
    shape.half = {radius, half_height, radius};
    return shape;
}

// A prism by x and z of 3 to 6 corners, convex, and its heights. The corners are read when the shape is handed to a world, and have to be there still.
inline navd_shape prism(Array<float> corners, float min_y, float max_y, uint32_t area = 0) noexcept {
    navd_shape shape{};
    shape.size = sizeof shape;
    shape.kind = NAVD_PRISM;
    shape.area = area;
    shape.corners = detail::address(corners.data());
    shape.corner_count = corners.size() % 2 ? 0 : static_cast<uint32_t>(corners.size() / 2); // 0 is refused
    shape.min_y = min_y;
    shape.max_y = max_y;
    return shape;
}

namespace detail {

struct Destroy {
    void operator()(navd_world *world) const noexcept { navd_world_destroy(world); }
    void operator()(navd_snapshot *snapshot) const noexcept { navd_snapshot_destroy(snapshot); }
    void operator()(navd_route *route) const noexcept { navd_route_destroy(route); }
};

template <class T> using Held = std::unique_ptr<T, Destroy>;

} // namespace detail

// A world of triangles, with obstacles by ids that stay. What is shown changes in `update` alone.
class World {
public:
    // Three numbers of `vertices` a vertex, three of `indices` a triangle, and an area for each triangle, or none at all. A world that was held is
    // destroyed then. Where the call fails, `problem` has a sentence, and which triangle is at fault, if one is, and the world stays.
    Status create(const navd_world_def &def, Array<float> vertices, Array<uint32_t> indices, Array<uint8_t> areas, navd_problem &problem) noexcept {
        problem = {};
        problem.size = sizeof problem;
        if (vertices.size() % 3 || indices.size() % 3 || (areas.size() && areas.size() != indices.size() / 3)) {
            std::snprintf(problem.text, sizeof problem.text, "vertices and indices come in threes, and areas one for each triangle");
            return Status::out_of_range;
        }
        navd_triangle_mesh mesh{};
        mesh.size = sizeof mesh;
        mesh.vertices = vertices.data();
        mesh.vertex_count = vertices.size() / 3;
        mesh.indices = indices.data();
        mesh.triangle_count = indices.size() / 3;
        mesh.areas = areas.size() ? areas.data() : nullptr;
        navd_world *made = nullptr;
        const Status status{navd_world_create(&def, &mesh, &made, &problem)};
        if (status == Status::ok) world.reset(made);
        return status;
    }

    void destroy() noexcept { world.reset(); }
    // For the calls of navd_world.h themselves; null where there is no world.
    navd_world *get() const noexcept { return world.get(); }
    // What the numbers became, in cells and height units, for calls of navd.h beside these; null where there is no world.
    const navd_mesh *mesh() const noexcept { return world ? navd_world_mesh(world.get()) : nullptr; }
    // Its registry, for jobs and what else navd.h has; null where there is no world.
    navd_registry *registry() noexcept { return world ? navd_world_registry(world.get()) : nullptr; }

    Status add(const navd_shape &shape, uint64_t user, navd_obstacle_id &id) noexcept {
        return world ? Status{navd_world_add(world.get(), &shape, user, &id)} : Status::empty;
    }
    Status move(navd_obstacle_id id, const navd_shape &shape) noexcept {
        return world ? Status{navd_world_move(world.get(), id, &shape)} : Status::empty;
    }
    Status set_enabled(navd_obstacle_id id, bool enabled) noexcept {
        return world ? Status{navd_world_set_enabled(world.get(), id, enabled)} : Status::empty;
    }
    Status set_user(navd_obstacle_id id, uint64_t user) noexcept {
        return world ? Status{navd_world_set_user(world.get(), id, user)} : Status::empty;
    }
    Status remove(navd_obstacle_id id) noexcept { return world ? Status{navd_world_remove(world.get(), id)} : Status::empty; }

    Status obstacles(std::vector<navd_row> &rows) {
        return detail::all(rows, [&](navd_row *to, size_t *count) {
            return world ? navd_world_obstacles(world.get(), to, *count, count) : navd_status{NAVD_EMPTY};
        });
    }

    Status save(std::vector<uint8_t> &bytes) {
        return detail::all(bytes, [&](uint8_t *to, size_t *count) {
            const navd_status end = world ? navd_world_save(world.get(), to, *count, count) : navd_status{NAVD_EMPTY};
            return end == NAVD_NO_ROOM ? navd_status{NAVD_OK} : end; // the count is more than the room
        });
    }
    Status restore(Array<uint8_t> bytes) noexcept {
        return world ? Status{navd_world_restore(world.get(), detail::address(bytes.data()), bytes.size())} : Status::empty;
    }

    Status update(uint32_t max_tiles, navd_progress &progress) noexcept {
        progress.size = sizeof progress;
        return world ? Status{navd_world_update(world.get(), max_tiles, &progress)} : Status::empty;
    }
    Status update(uint32_t max_tiles = NAVD_ALL_TILES) noexcept {
        return world ? Status{navd_world_update(world.get(), max_tiles, nullptr)} : Status::empty;
    }

    // Updates tile by tile until a time is over, and one tile at least; `progress` has the tiles of all these updates.
    template <class Rep, class Period> Status update_for(std::chrono::duration<Rep, Period> time, navd_progress &progress) noexcept {
        const auto end = std::chrono::steady_clock::now() + time;
        navd_progress one{};
        progress = {};
        for (;;) {
            const Status status = update(1, one);
            if (status != Status::ok) return status;
            one.tiles_built += progress.tiles_built;
            one.published |= progress.published;
            const bool is_over = one.tiles_built == progress.tiles_built || !one.pending || std::chrono::steady_clock::now() >= end;
            progress = one;
            if (is_over) return Status::ok;
        }
    }

private:
    detail::Held<navd_world> world;
};

// A path that was found.
class Route {
public:
    // Its corners, from the first to the last, which are good until the route's next search; none where none was found.
    Array<navd_route_corner> corners() const noexcept {
        const navd_route_corner *at = nullptr;
        const size_t count = route ? navd_route_corners(route.get(), &at) : 0;
        return Array<navd_route_corner>(at, count);
    }
    double cost() const noexcept { return route ? navd_route_cost(route.get()) : 0; }
    uint64_t version() const noexcept { return route ? navd_route_version(route.get()) : 0; }

private:
    friend class Snapshot;
    Status make() noexcept {
        navd_route *made = nullptr;
        if (route) return Status::ok;
        const Status status{navd_route_create(&made)};
        route.reset(made);
        return status;
    }

    detail::Held<navd_route> route;
};

// What a world showed when the snapshot was last refreshed. It stays good once the world is destroyed.
class Snapshot {
public:
    // A snapshot that was held is destroyed then.
    Status create(World &world, uint32_t agent = 0) noexcept {
        navd_snapshot *made = nullptr;
        if (!world.get()) return Status::empty;
        const Status status{navd_snapshot_create(world.get(), agent, &made)};
        if (status == Status::ok) snapshot.reset(made);
        return status;
    }
    // Of the world of which it was created. Status::same: nothing newer is shown.
    Status refresh(World &world) noexcept {
        return snapshot && world.get() ? Status{navd_snapshot_refresh(snapshot.get(), world.get())} : Status::empty;
    }
    void destroy() noexcept { snapshot.reset(); }
    uint64_t version() const noexcept { return snapshot ? navd_snapshot_version(snapshot.get()) : 0; }
    // Its view, for all questions of navd.h; null where there is no snapshot.
    navd_view *view() noexcept { return snapshot ? navd_snapshot_view(snapshot.get()) : nullptr; }

    Status find_path(const navd_filter &filter, const navd_vec3 &from, const navd_vec3 &to, Route &route) noexcept { return found(&filter, from, to, route); }
    Status find_path(const navd_vec3 &from, const navd_vec3 &to, Route &route) noexcept { return found(nullptr, from, to, route); }

    Status nearest(const navd_filter &filter, const navd_vec3 &at, float reach, float height, navd_vec3 &place) noexcept {
        return snapshot ? Status{navd_snapshot_nearest(snapshot.get(), &filter, &at, reach, height, &place)} : Status::empty;
    }
    Status nearest(const navd_vec3 &at, float reach, float height, navd_vec3 &place) noexcept {
        return snapshot ? Status{navd_snapshot_nearest(snapshot.get(), nullptr, &at, reach, height, &place)} : Status::empty;
    }
    Status height(const navd_vec3 &at, float &y) noexcept { return snapshot ? Status{navd_snapshot_height(snapshot.get(), &at, &y)} : Status::empty; }
    Status raycast(const navd_vec3 &from, const navd_vec3 &to, navd_hit &hit) noexcept {
        hit.size = sizeof hit;
        return snapshot ? Status{navd_snapshot_raycast(snapshot.get(), &from, &to, &hit)} : Status::empty;
    }

private:
    Status found(const navd_filter *filter, const navd_vec3 &from, const navd_vec3 &to, Route &route) noexcept {
        if (!snapshot) return Status::empty;
        const Status status = route.make();
        return status == Status::ok ? Status{navd_snapshot_find_path(snapshot.get(), filter, &from, &to, route.route.get())} : status;
    }

    detail::Held<navd_snapshot> snapshot;
};

} // namespace navd

#endif
