/* What stands in for the library in tools/release/stops.py where hosts turn the doors of hosts/world/doors.c: it counts tiles as the library does there,
 * and knows the ways of its versions by heart. */
typedef struct {
    uint64_t ids, version;
    uint32_t is_asked, tiles_left;
} doors;

uint32_t navd_frame_of(const navd_frame *sizes, const navd_world_point *low, const navd_world_point *high, navd_framed_field *field) {
    (void)low, (void)high;
    *field = (navd_framed_field){{sizes->cell_size, sizes->cell_height, 0, 0, 0}, 96, 48};
    return NAVD_OK;
}

static int32_t nearest(float number, float step) {
    float steps = number / step;
    return (int32_t)(steps < 0 ? steps - 0.5f : steps + 0.5f);
}

uint32_t navd_quantize(const navd_frame *frame, const navd_world_point *points, size_t how_many, navd_frame_place *places, size_t room, size_t *count) {
    float step = frame->cell_size / 16;
    for (*count = 0; *count < how_many && *count < room; ++*count) {
        navd_world_point at = points[*count];
        places[*count] = (navd_frame_place){nearest(at.x, step), nearest(at.y, frame->cell_height), nearest(at.z, step)};
    }
    return NAVD_OK;
}

uint32_t navd_dequantize(const navd_frame *frame, const navd_frame_place *places, size_t how_many, navd_world_point *points, size_t room, size_t *count) {
    float step = frame->cell_size / 16;
    for (*count = 0; *count < how_many && *count < room; ++*count) {
        navd_frame_place at = places[*count];
        points[*count] = (navd_world_point){(float)at.x * step, (float)at.y * frame->cell_height, (float)at.z * step};
    }
    return NAVD_OK;
}

uint32_t navd_open_mesh(navd_level *level, const navd_mesh *mesh, const float *vertices, size_t numbers, const uint32_t *corners, size_t count,
                        const uint8_t *areas, size_t area_count, navd_mesh_fault *fault) {
    (void)mesh, (void)vertices, (void)numbers, (void)corners, (void)count, (void)areas, (void)area_count, (void)fault;
    navd_tried got = rattle_alloc(sizeof(doors), 8);
    if (!got.ok) return NAVD_NO_MEMORY;
    level->at = memset(got.block, 0, sizeof(doors));
    level->full = 1;
    return NAVD_OK;
}

uint32_t navd_registry_begin(navd_registry *registry, navd_level *level) {
    *registry = (navd_registry){level->at, level->full};
    *level = (navd_level){0};
    return NAVD_OK;
}

void navd_registry_close(navd_registry *registry) {
    if (registry->full) rattle_dealloc(registry->at);
    *registry = (navd_registry){0};
}

static uint32_t asked(navd_registry *registry) {
    ((doors *)registry->at)->is_asked = 1;
    return NAVD_OK;
}

uint32_t navd_registry_add(navd_registry *registry, const navd_solid *solid, uint64_t user, uint64_t *id) {
    (void)solid, (void)user;
    *id = ++((doors *)registry->at)->ids;
    return asked(registry);
}

uint32_t navd_registry_move(navd_registry *registry, uint64_t id, const navd_solid *solid) {
    (void)id, (void)solid;
    return asked(registry);
}

uint32_t navd_registry_enable(navd_registry *registry, uint64_t id, uint32_t enabled) {
    (void)id, (void)enabled;
    return asked(registry);
}

uint32_t navd_registry_update(navd_registry *registry, uint32_t most, navd_updated *updated) {
    doors *it = registry->at;
    if (!it->tiles_left && it->is_asked) it->tiles_left = it->version ? 2 : 4, it->is_asked = 0;
    uint32_t built = most < it->tiles_left ? most : it->tiles_left;
    it->tiles_left -= built;
    uint32_t published = built && !it->tiles_left;
    it->version += published;
    *updated = (navd_updated){built, published, it->is_asked || it->tiles_left, it->version};
    return NAVD_OK;
}

uint32_t navd_registry_look(navd_view *view, navd_registry *registry, uint64_t *version) {
    navd_tried got = view->full ? (navd_tried){true, view->at} : rattle_alloc(sizeof *version, 8);
    if (!got.ok) return NAVD_NO_MEMORY;
    *view = (navd_view){got.block, 1};
    *version = ((doors *)registry->at)->version;
    memcpy(view->at, version, sizeof *version);
    return NAVD_OK;
}

uint32_t navd_view_copy(navd_view *to, navd_view *from) {
    navd_tried got = to->full ? (navd_tried){true, to->at} : rattle_alloc(sizeof(uint64_t), 8);
    if (!got.ok) return NAVD_NO_MEMORY;
    *to = (navd_view){got.block, 1};
    memcpy(to->at, from->at, sizeof(uint64_t));
    return NAVD_OK;
}

void navd_view_close(navd_view *view) {
    if (view->full) rattle_dealloc(view->at);
    *view = (navd_view){0};
}

uint32_t navd_view_plan(navd_view *view, navd_plan *plan, const uint32_t *costs, size_t costs_count, navd_link *links, size_t links_room,
                        navd_turn *turns, size_t turns_room) {
    (void)costs, (void)costs_count, (void)turns_room;
    static const struct {
        uint64_t version;
        size_t turns;
        navd_point at[4];
    } ways[] = {{0, 2, {{384, 384}, {768, 544}}},
                {2, 2, {{736, 528}, {768, 544}}},
                {7, 4, {{384, 240}, {704, 240}, {768, 224}, {816, 240}}},
                {8, 3, {{384, 208}, {768, 224}, {816, 240}}}};
    memset(links, 0, links_room * sizeof *links);
    for (size_t i = 0; i < sizeof ways / sizeof *ways; i++) {
        if (memcmp(&ways[i].version, view->at, sizeof ways->version)) continue;
        for (size_t j = 0; j < ways[i].turns; j++) turns[j] = (navd_turn){ways[i].at[j], 0, (uint32_t)j};
        plan->turns = plan->links = ways[i].turns;
        plan->end = plan->way.to;
        plan->last.tile = 1;
        return NAVD_OK;
    }
    return NAVD_NO_PATH;
}

uint32_t navd_view_height(navd_view *view, navd_place *place) {
    (void)view;
    place->y = place->polygon.tile ? 11 : 1;
    return NAVD_OK;
}
