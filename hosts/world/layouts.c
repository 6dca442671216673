/* The structs of navd_world.h: their sizes, and of each field where it lies and its size, as the hosts in C#, Python and Rust write them too.
 *
 *     layouts             a line for each struct, by their names */
#include <stdio.h>

#include "navd_world.h"

#define STRUCT(name) printf("%s" #name " %zu:", separator, sizeof(name)), separator = "\n"
#define FIELD(name, field) printf(" " #field " %zu %zu", offsetof(name, field), sizeof((name){0}.field))

int main(void) {
    const char *separator = "";
    STRUCT(navd_filter);
    FIELD(navd_filter, size), FIELD(navd_filter, partial), FIELD(navd_filter, areas), FIELD(navd_filter, area_costs);
    FIELD(navd_filter, max_cost), FIELD(navd_filter, max_polygons);
    STRUCT(navd_hit);
    FIELD(navd_hit, size), FIELD(navd_hit, hit), FIELD(navd_hit, fraction), FIELD(navd_hit, at), FIELD(navd_hit, wall_from), FIELD(navd_hit, wall_to);
    STRUCT(navd_problem);
    FIELD(navd_problem, size), FIELD(navd_problem, triangle), FIELD(navd_problem, text);
    STRUCT(navd_progress);
    FIELD(navd_progress, size), FIELD(navd_progress, tiles_built), FIELD(navd_progress, published), FIELD(navd_progress, pending);
    FIELD(navd_progress, version);
    STRUCT(navd_route_corner);
    FIELD(navd_route_corner, at), FIELD(navd_route_corner, flags);
    STRUCT(navd_shape);
    FIELD(navd_shape, size), FIELD(navd_shape, kind), FIELD(navd_shape, area), FIELD(navd_shape, center), FIELD(navd_shape, half), FIELD(navd_shape, yaw);
    FIELD(navd_shape, corners), FIELD(navd_shape, corner_count), FIELD(navd_shape, min_y), FIELD(navd_shape, max_y);
    STRUCT(navd_triangle_mesh);
    FIELD(navd_triangle_mesh, size), FIELD(navd_triangle_mesh, vertices), FIELD(navd_triangle_mesh, vertex_count), FIELD(navd_triangle_mesh, indices);
    FIELD(navd_triangle_mesh, triangle_count), FIELD(navd_triangle_mesh, areas);
    STRUCT(navd_vec3);
    FIELD(navd_vec3, x), FIELD(navd_vec3, y), FIELD(navd_vec3, z);
    STRUCT(navd_world_def);
    FIELD(navd_world_def, size), FIELD(navd_world_def, cell_size), FIELD(navd_world_def, cell_height), FIELD(navd_world_def, agent_radius);
    FIELD(navd_world_def, agent_height), FIELD(navd_world_def, agent_climb), FIELD(navd_world_def, max_slope), FIELD(navd_world_def, max_error);
    FIELD(navd_world_def, tile_cells), FIELD(navd_world_def, max_obstacles), FIELD(navd_world_def, flags), FIELD(navd_world_def, min);
    FIELD(navd_world_def, max), FIELD(navd_world_def, area_costs);
    puts("");
    return 0;
}
