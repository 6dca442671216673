// hosts/world/doors.c over navd_world.hpp: a game's loop in a hall with a wall across it, two doors and a ramp. What it writes is hosts/world/doors.out.
//
//     doors           plays the loop
//     doors more      and then what the loop does not call
#define NAVD_HEAP
#include "navd_world.hpp"

#include <cinttypes>
#include <cmath>
#include <stdexcept>
#include <string>
#include <thread>

using navd::Status;

static_assert(std::is_nothrow_move_constructible_v<navd::World> && std::is_nothrow_move_assignable_v<navd::Snapshot>);
static_assert(!std::is_copy_constructible_v<navd::World> && !std::is_copy_assignable_v<navd::Route>);

namespace {

constexpr int frames = 40;
constexpr navd_vec3 start{2, 0, 3}, goal{22, 2, 9};

// A floor of 16 m by 12 m, a ramp of 4 m up to 2 m, a floor up there, and a wall across at 12 m in three pieces of 3 m.
const std::vector<float> vertices{0,  0, 0, 0,  0, 12, 16, 0, 0,  16, 0, 12, 20, 2, 0, 20, 2, 12, 24, 2, 0,  24, 2, 12, 12, 0, 0,  12, 0, 2,
                                  12, 3, 0, 12, 3, 2,  12, 0, 4,  12, 0, 8,  12, 3, 4, 12, 3, 8,  12, 0, 10, 12, 0, 12, 12, 3, 10, 12, 3, 12};
const std::vector<uint32_t> quads{0, 2, 4, 8, 12, 16};

void want(Status status, const std::string &what) {
    if (status != Status::ok) throw std::runtime_error(what + ": " + navd::status_text(status));
}

std::vector<uint32_t> triangles() {
    std::vector<uint32_t> indices;
    for (const uint32_t first : quads)
        for (const uint32_t next : {0, 1, 2, 2, 1, 3}) indices.push_back(first + next);
    return indices;
}

navd_world_def definition() {
    navd_world_def def = NAVD_WORLD_DEF; // what is not said here is Recast's usual
    def.cell_size = 0.25f;
    def.agent_radius = 0.4f;
    def.tile_cells = 24;
    return def;
}

navd_shape door(float z, float yaw = 0) {
    return navd::box({12 - std::sin(yaw), 1.5f, z - 1 + std::cos(yaw)}, {0.1f, 1.5f, 1}, yaw);
}

void tell(const navd_vec3 &at, int digits) { std::printf(" (%.*f %.*f %.*f)", digits, at.x, digits, at.y, digits, at.z); }

void tell_corners(const navd::Route &route, int digits) {
    for (const navd_route_corner &corner : route.corners()) tell(corner.at, digits);
    std::puts("");
}

void tell_way(navd::Snapshot &snapshot, navd::Route &route) {
    const Status status = snapshot.find_path(start, goal, route);
    std::printf("version %" PRIu64 ": %s", snapshot.version(), status == Status::ok ? "a way" : navd::status_text(status));
    tell_corners(route, 2);
}

void tell_obstacles(navd::World &world) {
    std::vector<navd_row> rows;
    want(world.obstacles(rows), "the obstacles");
    std::printf("obstacles:");
    for (const navd_row &row : rows)
        std::printf(" %" PRIu64 " of %" PRIu64 " %s kind %" PRIu32 " area %" PRIu32 ",", row.id, row.user, row.enabled ? "on" : "off", row.solid.kind,
                    row.solid.area);
    std::puts("");
}

void tell_update(navd::World &world, uint32_t max_tiles = NAVD_ALL_TILES) {
    navd_progress progress{};
    want(world.update(max_tiles, progress), "an update");
    std::printf("built %" PRIu32 " published %" PRIu32 " pending %" PRIu32 " version %" PRIu64 "\n", progress.tiles_built, progress.published, progress.pending,
                progress.version);
}

void tell_route(const char *what, Status status, const navd::Route &route) {
    std::printf("%s: %s", what, navd::status_name(status));
    if (status == Status::ok || status == Status::partial) std::printf(" for %.6f in version %" PRIu64, route.cost(), route.version());
    tell_corners(route, 6);
}

void change_obstacles(navd::World &world) {
    const std::vector<float> corners{4, 4, 6, 4, 5, 6};
    navd_obstacle_id round = 0, painted = 0, none = 0;
    want(world.add(navd::cylinder({8, 1, 6}, 0.5f, 1), 7, round), "a cylinder");
    want(world.add(navd::prism(corners, -0.5f, 1, 5), 8, painted), "a prism");
    want(world.set_user(painted, 9), "another number");
    tell_obstacles(world);
    tell_update(world);
    want(world.remove(round), "a removal");
    std::printf("%s %s", navd::status_name(world.remove(round)), navd::status_name(world.set_enabled(painted, true)));
    std::printf(" %s %s\n", navd::status_name(world.add(navd::box({NAN, 0, 0}, {1, 1, 1}), 0, none)),
                navd::status_name(world.add(navd::box({1, 1, 1}, {1, 1, 1}, 0, 64), 0, none)));
    tell_obstacles(world);
    tell_update(world);
    tell_update(world);
}

// The tiles of a change are built in another thread, and shown by the next update.
void build_by_jobs(navd::World &world) {
    navd_obstacle_id id = 0;
    want(world.add(navd::cylinder({8, 1, 6}, 0.5f, 1), 0, id), "a cylinder");
    tell_update(world, 0);
    int built = 0;
    std::thread([&] {
        navd::Job job;
        for (uint32_t tile = 0; navd_registry_claim(world.registry(), job.get(), &tile) == NAVD_OK; built++)
            if (job.build() != Status::ok || navd_registry_submit(world.registry(), job.get()) != NAVD_OK) break;
    }).join();
    std::printf("%d tiles by jobs\n", built);
    tell_update(world, 0);
    want(world.remove(id), "a removal");
    tell_update(world);
}

void save_and_restore(navd::World &world) {
    std::vector<uint8_t> saved;
    want(world.save(saved), "a saving");
    want(world.remove(2), "a removal");
    std::printf("saved %zu bytes, less of them %s\n", saved.size(), navd::status_name(world.restore({saved.data(), saved.size() - 1})));
    tell_obstacles(world);
    want(world.restore(saved), "a restoration");
    tell_obstacles(world);
    tell_update(world);
}

void ask(navd::Snapshot &snapshot, navd::Route &route) {
    navd_vec3 place{};
    float y = 0;
    want(snapshot.nearest({18, 3, 6}, 1, 4, place), "a nearest place");
    want(snapshot.height({22, 9, 3}, y), "a height");
    std::printf("nearest:");
    tell(place, 6);
    std::printf(", height %.6f, off the floor %s %s\n", y, navd::status_name(snapshot.nearest({-9, 0, 6}, 1, 4, place)),
                navd::status_name(snapshot.height({-9, 0, 6}, y)));
    for (const navd_vec3 &to : {navd_vec3{5, 0, 3}, navd_vec3{14, 0, 1}}) {
        navd_hit hit{};
        want(snapshot.raycast(start, to, hit), "a ray");
        std::printf("ray: %s %.6f", hit.hit ? "wall" : "reached", hit.fraction);
        for (const navd_vec3 &at : {hit.at, hit.wall_from, hit.wall_to}) tell(at, 6);
        std::puts("");
    }
    navd_filter filter = NAVD_FILTER;
    std::vector<float> costs(64, 2.0f);
    filter.area_costs = costs.data();
    tell_route("twice as dear", snapshot.find_path(filter, start, {10, 0, 10}, route), route);
    filter.max_cost = 3;
    tell_route("limited", snapshot.find_path(filter, start, {10, 0, 10}, route), route);
    filter = NAVD_FILTER;
    filter.partial = 1;
    filter.areas = ~(uint64_t{1} << 5);
    tell_route("partial", snapshot.find_path(filter, start, {60, 0, 6}, route), route);
    tell_route("nowhere", snapshot.find_path({-9, 0, 3}, goal, route), route);
    tell_route("no number", snapshot.find_path({NAN, 0, 3}, goal, route), route);
    navd_shown shown{};
    navd::View copy;
    want(Status{navd_view_copy(copy.get(), snapshot.view())}, "a copy");
    want(copy.count(shown), "a count");
    std::printf("a view of %" PRIu32 " tiles\n", shown.tiles);
}

void tell_refused(navd_world_def def, const std::vector<uint32_t> &indices) {
    navd::World world;
    navd_problem problem{};
    const Status status = world.create(def, vertices, indices, {}, problem);
    std::printf("%s: %s\n", navd::status_name(status), problem.text);
}

void play_more(navd::World &world, navd::Snapshot &snapshot, navd::Route &route) {
    const navd_setting &set = world.mesh()->setting;
    for (const uint32_t number : {set.width, set.depth, set.tile, set.height, set.climb, set.radius}) std::printf("%" PRIu32 " ", number);
    std::puts("");
    change_obstacles(world);
    build_by_jobs(world);
    save_and_restore(world);
    want(snapshot.refresh(world), "a refresh");
    std::printf("%s\n", navd::status_name(snapshot.refresh(world)));
    std::thread([&] { ask(snapshot, route); }).join();
    std::vector<uint32_t> indices = triangles();
    navd_world_def def = definition();
    def.max_slope = 91;
    tell_refused(def, indices);
    indices[5] = 99;
    tell_refused(definition(), indices);
    indices.pop_back();
    tell_refused(definition(), indices);
    world.destroy();
    if (world.update() != Status::empty || snapshot.refresh(world) != Status::empty) throw std::runtime_error("what holds nothing was called");
    tell_way(snapshot, route); // a snapshot stays good
}

void play(bool with_more) {
    navd::World world;
    navd::Snapshot snapshot;
    navd::Route route;
    navd_problem problem{};
    navd_obstacle_id near_door = 0, far_door = 0;
    const Status made = world.create(definition(), vertices, triangles(), {}, problem);
    want(made, problem.text);
    want(world.add(door(3), 1, near_door), "the near door, shut");
    want(world.add(door(9), 2, far_door), "the far door, shut");
    want(snapshot.create(world), "a snapshot");
    for (int frame = 0; frame < frames; frame++) {
        const float yaw = static_cast<float>(frame - 29) * 0.15f; // the near door swings about its hinge
        if (frame >= 30) want(world.move(near_door, door(3, yaw)), "the near door, swinging");
        if (frame == 10 || frame == 20) want(world.set_enabled(far_door, frame == 20), "the far door");
        want(world.update(1), "an update");
        if (snapshot.refresh(world) == Status::ok || frame == 0) {
            std::printf("frame %2d, ", frame);
            tell_way(snapshot, route);
        }
    }
    if (with_more) play_more(world, snapshot, route);
}

} // namespace

int main(int argc, char **words) {
    try {
        play(argc == 2 && std::string_view(words[1]) == "more");
    } catch (const std::exception &error) {
        std::fprintf(stderr, "%s\n", error.what());
        return 1;
    }
}
